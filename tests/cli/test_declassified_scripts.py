"""Pairs of scripts that run an enclave and differ in a secret of it: others observe the same output.

The law `noninterference_with_declassification` of `rv_bench` (docs/LAWS.md, "Scripts that run an enclave") is about all such pairs. Each test
takes a script of the examples, and pokes two secrets into the region before the enclave is first entered. The steps of the enclave use them. The
test checks the premises of the theorem on both runs of the built program, step by step. Then it compares what others observe.
"""
import subprocess
from typing import NamedTuple

import pytest

from cli.test_enclave_life import PAGE, REGION, SECRET, WINDOW, call, image_of, secret_loop
from conftest import EXAMPLES
from generators.attacks import complement, parts_of_secret
from generators.monitor_case import input_of
from models.example_arguments import argument_table, arguments_of
from models.monitor_model import CREATE, DESTROY, EXIT, HOST_ENTRY, RUN, STOP
from support.limits import HANG

MARK = "error command"  # the reply to a line that separates the replies of the lines
HIDDEN = {"300", "341", "342", "343", "b00", "b80", "b02", "b82", "c00", "c80", "c02", "c82"}  # registers that no world reads, and mstatus
NEVER_ENTERED = ["enclaves/at_rest"]
SHOWN = 400  # of the steps of an enclave, those after which its registers are compared
SCRIPTS = sorted(argument_table())
ENCLAVES = [it for it in SCRIPTS if it.startswith(("enclaves/", "attacks/"))]
WORLD = "e0"


class Secret(NamedTuple):
    """A byte of an enclave that its steps use and that it does not hand over: its offset in the region, and two values."""
    offset: int
    values: tuple = (0x3C, 0xE1)


LOADED = Secret(0x003)  # the highest byte of the number that the victim of an attack loads by lui
HANDED_OVER = {"enclaves/hmac": Secret(0x7F0), "enclaves/host_inputs": Secret(0x9E8), "enclaves/store": Secret(0x898)}  # of a key
STACK = Secret(0x007, (0xFE, 0xFC))  # in addi sp, sp, N of the start code: the stack begins 32 or 64 bytes lower
PUSHED = Secret(0x012, (0x81, 0x41))  # in addi sp, sp, N of the victim that runs: it pushes 8 or 12 bytes


# ---- the program

class Script:
    """The digits of an image, options of the program, and the lines of a script."""

    def __init__(self, program, image, options, lines):
        self.program, self.image, self.words, self.lines = program, image, ["run", "--monitor", *options], lines

    def replies(self, lines):
        """Returns the reply lines of each line."""
        text = input_of(self.image, [it + "\n?" for it in lines])
        ran = subprocess.run([self.program, *self.words], input=text.encode(), stdout=subprocess.PIPE, timeout=HANG, check=True)
        parts = ran.stdout.decode().split(MARK + "\n")
        assert len(parts) == len(lines) + 1 and not parts[-1]
        return [it.splitlines() for it in parts[:-1]]


def example(program, name):
    """Returns the script of an example."""
    folder = EXAMPLES / name
    words = arguments_of(name)
    options = words[words.index("--harts"):] if "--harts" in words else []
    return Script(program, (folder / "image").read_text().replace("\n", ""), options, lines_of((folder / "script").read_text()))


def lines_of(script):
    """Returns the lines of a script that have a command."""
    return [it for it in script.splitlines() if it and not it.startswith("#") and it != "--"]


def fields(reply):
    """Returns the fields of the reply to a run or a schedule, and its number of steps."""
    words = reply.split()
    return dict(it.split("=", 1) for it in words if "=" in it), int(words[1 if words[0] == "ran" else 2])


# ---- one run, step by step

def steps_of(line, reply, selected):
    """Returns the harts that a line steps, in order."""
    word = line.split()[0]
    if word in ("run", "step"):
        return [selected] * fields(reply[0])[1]
    return [int(it) for it in line.split()[1]] if word == "sched" and reply[0].startswith("hart") else []


class Step:
    """A step of a hart: before it the worlds of all harts, after it that of its hart; its trap, and what the enclave hands over."""

    def __init__(self, hart, worlds, reply):
        own = [it for it in reply if it.startswith("hart %d " % hart)][0]
        told = fields(own)[0]
        self.hart, self.worlds, self.after, self.trap = hart, dict(worlds), told["world"], told["trap"]
        self.handover = None

    @property
    def kind(self):
        return "low" if self.worlds[self.hart] != WORLD else "inside" if self.after == WORLD else "exit"

    @property
    def shows_window(self):
        """Returns whether the bytes of the window matter: at an exit, and at a low step while the enclave runs."""
        return self.kind == "exit" or self.kind == "low" and WORLD in self.worlds.values()


class Run:
    """A run of a script: for each line its reply, its steps, the selected hart, and whether the enclave runs there before and after it."""

    def __init__(self, script, lines):
        self.script, self.lines = script, lines
        told = script.replies([it for line in lines for it in (line, "enclaves")])
        self.told, self.tables = told[::2], told[1::2]
        self.selected, hart = [], 0
        for line, reply in zip(lines, self.told):
            self.selected.append(hart)
            if line.startswith("hart ") and reply == ["ok"]:
                hart = int(line.split()[1])
        self.step_all()

    def step_all(self):
        """Executes each step as a line of its own, and then again with what the enclave hands over."""
        plan = [steps_of(*it) for it in zip(self.lines, self.told, self.selected)]
        self.steps = self.with_steps(plan, {})
        shown = {(i, j): self.region_and_window(i)[1] for i, steps in enumerate(self.steps) for j, it in enumerate(steps) if it.shows_window}
        if shown:
            self.steps = self.with_steps(plan, shown)
        self.worlds, worlds = [], {0: "host", 1: "host"}
        for steps in self.steps:
            self.worlds.append(dict(worlds))
            for it in steps:
                worlds[it.hart] = it.after
        self.worlds.append(worlds)

    def with_steps(self, plan, shown):
        """Returns the steps of each line. Before those in `shown` the run also shows a0, a6 and the bytes of a window."""
        lines, places = [], []
        for i, (line, harts) in enumerate(zip(self.lines, plan)):
            for j, hart in enumerate(harts):
                if (i, j) in shown:
                    base, size = shown[i, j]
                    extra = ["hart %d" % hart, "reg 10", "reg 16", "hart %d" % self.selected[i], *("mem %x 64" % it for it in range(base, base + size, 64))]
                    places += [(i, j, "handover")] * len(extra)
                    lines += extra
                places.append((i, j, "step"))
                lines.append("sched %d" % hart)
            if not harts:
                places.append((i, 0, "line"))
                lines.append(line)
        worlds, steps, handover = {0: "host", 1: "host"}, [[] for _ in self.lines], []
        for (i, j, what), reply in zip(places, self.script.replies(lines)):
            if what == "handover":
                handover += reply
            elif what == "step":
                it = Step(plan[i][j], worlds, reply)
                worlds[it.hart] = it.after
                it.handover, handover = handover, []
                steps[i].append(it)
        return steps

    def own_registers(self):
        """Returns the registers of the hart after each of the first steps of the enclave."""
        lines, places = [], []
        for line, steps, selected in zip(self.lines, self.steps, self.selected):
            for it in steps:
                lines.append("sched %d" % it.hart)
                if it.kind == "inside" and len(places) < SHOWN:
                    places.append(len(lines) + 1)
                    lines += ["hart %d" % it.hart, "regs", "hart %d" % selected]
            if not steps:
                lines.append(line)
        told = self.script.replies(lines)
        return [told[it] for it in places]

    def region_and_window(self, i):
        """Returns the region and the window of the enclave before line i, each as its base and its size."""
        for reply in self.tables[i - 1] if i else []:
            words = reply.split()
            if words[1] == WORLD[1:]:
                base, size, window, window_size = (int(it, 16) for it in words[3:7])
                return (base, size), (window, window_size)
        return (0, 0), (0, 0)

    def runs(self, i, hart):
        """Returns whether the enclave runs on a hart before line i."""
        return self.worlds[i][hart] == WORLD


# ---- the premises

def check_moves(one, other):
    """Checks that the steps of a line in two runs are those of a list of moves. In one run alone the enclave takes steps, low steps and exits are
    steps of both, and what it hands over is equal."""
    one, other = list(one), list(other)
    while one or other:
        while one and one[0].kind == "inside":
            one.pop(0)
        while other and other[0].kind == "inside":
            other.pop(0)
        if one or other:
            a, b = one.pop(0), other.pop(0)
            assert (a.hart, a.kind) == (b.hart, b.kind)
            assert a.kind == "low" or a.trap == b.trap
            if a.shows_window:
                # A timer interrupt, whose cause has bit 31, hands over no register.
                window = slice(0 if a.kind == "exit" and int(a.trap.split(":")[0], 16) < 0x80000000 else 2, None)
                assert [it for it in a.handover if it != "ok"][window] == [it for it in b.handover if it != "ok"][window]


def check_line(first, second, i):
    """Checks the premises for line i of two runs: it is the same line, or both poke into the region, or both set a register of the enclave."""
    line, other = first.lines[i], second.lines[i]
    if line == other:
        check_moves(first.steps[i], second.steps[i])
        if line.split()[0] in ("run", "step"):
            assert fields(first.told[i][0])[0]["why"] == fields(second.told[i][0])[0]["why"]
    elif line.startswith("poke"):
        for run, it in ((first, line), (second, other)):
            base, size = run.region_and_window(i)[0]
            assert it.startswith("poke ") and base <= int(it.split()[1], 16) < base + size
    else:
        for run, it in ((first, line), (second, other)):
            assert it.startswith("setreg ") and run.runs(i, run.selected[i])


# ---- what others observe

def steps_since(steps):
    """Returns the number of steps after the last one of the enclave."""
    own = [at for at, it in enumerate(steps) if it.kind != "low"]
    return len(steps) - (own[-1] + 1 if own else 0)


def names_private(run, i, address, count):
    """Returns whether a line names a byte of the region, or of the window while the enclave runs."""
    region, window = run.region_and_window(i)
    blocks = [region, window] if WORLD in run.worlds[i].values() else [region]
    return any(size and address < base + size and base < address + count for base, size in blocks)


def observed(run, i):
    """Returns what others observe of the reply to line i."""
    line, reply, hart = run.lines[i].split(), run.told[i], run.selected[i]
    if line[0] in ("run", "step"):
        words = reply[0].split()
        return [] if run.worlds[i + 1][hart] == WORLD else ["ran", steps_since(run.steps[i]), *words[2:]]
    if line[0] == "sched":
        return [it for it in reply if "world=%s " % WORLD not in it]
    if line[0] in ("reg", "regs", "csr") and run.runs(i, hart) or line[0] == "csr" and line[1] in HIDDEN:
        return []
    if line[0] in ("mem", "dis"):
        return [] if names_private(run, i, int(line[1], 16), int(line[2]) if line[0] == "mem" else 4) else reply
    return reply


def check(first, second):
    """Checks the premises of the theorem for two runs, and that others observe the same in both."""
    assert len(first.lines) == len(second.lines)
    for i in range(len(first.lines)):
        check_line(first, second, i)
    assert [observed(first, i) for i in range(len(first.lines))] == [observed(second, i) for i in range(len(second.lines))]


def own_steps(run):
    """Returns the number of steps of the enclave."""
    return sum(it.kind != "low" for steps in run.steps for it in steps)


# ---- the secrets

def with_room(script):
    """Returns the lines up to the step that creates the enclave, and the rest; the line with this step is divided after it."""
    lines, run = script.lines, Run(script, script.lines)
    at = next(i for i, table in enumerate(run.tables) if any(it.startswith("enclave %s " % WORLD[1:]) for it in table))
    harts = [it.hart for it in run.steps[at]]
    single = ["sched %d" % it for it in harts]
    tables = script.replies(lines[:at] + [it for one in single for it in (one, "enclaves")])[at + 1::2]
    count = next(i for i, table in enumerate(tables) if any(it.startswith("enclave %s " % WORLD[1:]) for it in table)) + 1
    if count == len(harts):
        return lines[:at + 1], lines[at + 1:]
    if lines[at].startswith("sched"):
        digits = lines[at].split()[1]
        return lines[:at] + ["sched " + digits[:count]], ["sched " + digits[count:]] + lines[at + 1:]
    return lines[:at] + ["step %d" % count], lines[at:]


def secret_of(name):
    """Returns the secret of an example."""
    if name.startswith("attacks/"):
        return PUSHED if name.startswith("attacks/running") else LOADED
    return STACK


def runs_with(script, secret):
    """Returns two runs of a script. In each another value of the secret is poked into the region of the new enclave."""
    before, after = with_room(script)
    region = Run(script, [*before, "enclaves"]).region_and_window(len(before))[0][0]
    return [Run(script, [*before, "poke %x %02x" % (region + secret.offset, it), *after]) for it in secret.values]


@pytest.mark.parametrize("name", ENCLAVES)
def test_scripts_with_another_secret_are_observed_alike(bench, name):
    runs = runs_with(example(bench, name), secret_of(name))
    check(*runs)
    assert runs[0].own_registers() != runs[1].own_registers() or name in NEVER_ENTERED


@pytest.mark.parametrize("name", HANDED_OVER)
def test_secret_that_the_enclave_hands_over_is_no_instance(bench, name):
    runs = runs_with(example(bench, name), HANDED_OVER[name])
    with pytest.raises(AssertionError):
        check(*runs)


def test_secrets_of_a_running_enclave_are_observed_alike(bench):
    """The scripts differ in pokes, and in registers of the hart that runs the enclave."""
    script = example(bench, "attacks/running_secret")
    before, secret, after = parts_of_secret((EXAMPLES / "attacks" / "running_secret" / "script").read_text())
    runs = [Run(script, lines_of(before) + it + lines_of(after)) for it in (secret, [complement(line) for line in secret])]
    assert any(it.startswith("setreg") for it in secret)
    check(*runs)


@pytest.mark.parametrize("function", [STOP, EXIT])
def test_loops_of_secret_length_are_observed_alike(bench, function):
    """The lengths of the two runs differ, and so does the number of steps in the reply."""
    script = Script(bench, image_of(secret_loop(function)), [], [])
    before, after = call(CREATE, REGION, PAGE, WINDOW, PAGE, REGION), ["break %x" % (HOST_ENTRY + 8), *call(RUN, 0), "run 2000", "regs", "csr 340", "csr b00"]
    runs = [Run(script, [*before, "poke %x %x" % (SECRET, secret), *after, *call(DESTROY, 0), "regs"]) for secret in (3, 200)]
    check(*runs)
    assert own_steps(runs[0]) < own_steps(runs[1])
