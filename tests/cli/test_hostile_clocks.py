"""Pairs of runs under unlike hosts and clocks. The timer lines, the schedules, the harts, the slots and the hosts differ.

The theorems of docs/CALLS.md, "Its whole life", and of docs/LAWS.md, "Any schedule and any interrupts" and "Noninterference over the whole life", are
about all such pairs. Each test draws pairs from a fixed seed and compares replies of the built program. `--pairs N` draws more of them. The last
tests plant errors, and the comparison finds each of them.
"""
import random
import re
import subprocess
from dataclasses import dataclass, field
from enum import Enum

import pytest

from cli.test_enclave_life import OTHER, PAGE, REGION, WINDOW, call, constant, leave, word
from generators.monitor_case import input_of
from models.monitor_model import CREATE, DESTROY, EXIT, HOST_ENTRY, MEASURE, RESUME, RUN, STOP, STOPPED
from support.limits import HANG

SPARE = HOST_ENTRY + 5 * PAGE
STEPS = 48  # of the enclave, in each run
WORKERS = 4  # parts of the pairs, for the processes of pytest
READ, UNREAD = range(WINDOW + 0x400, WINDOW + 0x800), [*range(WINDOW, WINDOW + 0x400), *range(WINDOW + 0x800, WINDOW + PAGE)]
SECRET = 0x400  # the offset in the region of 32 secret words
CSRS = ("100", "105", "140", "141", "142", "143")  # the S-mode registers that are saved
MARK = "error command"  # the reply to a line that separates the replies of the lines
INTERRUPTED = ["x10=00000002", "x11=00000000"]  # a0 and a1 of the host after a timer interrupt


class End(Enum):
    """How the enclave leaves at a step: not at all, or by one of its calls."""
    NONE = 0
    STOP = 1
    EXIT = 2


# ---- a run

@dataclass
class Host:
    """A host that runs an enclave of a slot on some hart. It writes the lines of a script. `own` has the numbers of the steps of the enclave.
    `interrupts` has those of the lines that show a0 and a1 after a timer interrupt. `seen` has those of the lines whose replies others observe.
    `bytes` has those of the lines that show the bytes of the enclave at the end of a part of its life."""
    chance: random.Random
    harts: int
    slot: int
    hart: int = 0
    lines: list = field(default_factory=list)
    own: list = field(default_factory=list)
    interrupts: list = field(default_factory=list)
    seen: list = field(default_factory=list)
    bytes: range = range(0)

    def say(self, *lines):
        self.lines += lines

    def calls(self, function, *arguments):
        """Calls the monitor; the hart runs the host, whose code has only ecalls."""
        self.say(*call(function, *arguments))

    def begin(self, shared):
        """Creates the enclave among others and runs it. The bytes of the window that are read are those of `shared`."""
        chance = self.chance
        self.hart = chance.randrange(self.harts)
        self.say("hart %d" % self.hart, *("setreg %d %x" % (it, chance.getrandbits(32)) for it in range(1, 32)))
        self.say(*shared)
        for other in range(self.slot):
            self.calls(CREATE, SPARE + other * PAGE, PAGE, 0, 0, SPARE + other * PAGE)
        self.calls(CREATE, REGION, PAGE, WINDOW, PAGE, REGION)
        self.trouble(running=False)
        self.calls(RUN, self.slot, *(chance.getrandbits(32) for _ in range(4)))

    def trouble(self, running):
        """Does what no enclave notices: it writes bytes that are not read, sets the lines of other harts, and calls the monitor."""
        chance = self.chance
        for _ in range(chance.randrange(4)):
            self.say("poke %x %x" % (chance.choice(UNREAD), chance.randrange(256)))
        free = [it for it in range(self.harts) if not running or it != self.hart]
        if not free:
            return
        hart = chance.choice(free)
        self.say("hart %d" % hart, "timer %s" % chance.choice(("on", "off")))
        act = chance.choice((
            (), (CREATE, OTHER, PAGE, 0, 0, OTHER), (DESTROY, chance.choice([it for it in range(13) if it != self.slot])),
            (MEASURE, self.slot, OTHER - 0x100), (RUN if running else CREATE, self.slot), (chance.getrandbits(32),)))
        if act:
            self.calls(*act)
        self.say("timer off", "hart %d" % self.hart)

    def interrupt(self):
        """Interrupts the enclave by the timer, and resumes it, perhaps on another hart."""
        self.say("timer on", "step 1")
        self.interrupts.append(len(self.lines))
        self.say("reg 10", "reg 11")
        self.look()
        self.trouble(running=False)
        self.hart = self.chance.randrange(self.harts)
        self.say("hart %d" % self.hart)
        self.calls(RESUME, self.slot)

    def look(self):
        """Shows what others observe while the enclave does not run."""
        shown = ["regs", *("csr " + it for it in CSRS), "pmp", "enclaves", "mem %x 64" % READ.start]
        self.seen += range(len(self.lines), len(self.lines) + len(shown))
        self.say(*shown)

    def own_step(self, end):
        """Steps the enclave; after a stop it is resumed, and after an exit nothing follows."""
        self.own.append(len(self.lines))
        self.say("step 1", "regs", *("csr " + it for it in CSRS if end is End.NONE))
        if end is not End.NONE:
            self.look()
        if end is End.STOP:
            self.hart = self.chance.randrange(self.harts)
            self.say("hart %d" % self.hart)
            self.calls(RESUME, self.slot)

    def live(self, ends, calm=0.5):
        """Steps the enclave through its life, and lets the others run in between."""
        for end in ends:
            while self.chance.random() > calm:
                self.interrupt()
            if self.chance.random() > calm:
                self.trouble(running=True)
            self.own_step(end)
        self.bytes = range(len(self.lines), len(self.lines) + (len(READ) + PAGE) // 64)
        self.say(*("mem %x 64" % it for it in [*READ[::64], *range(REGION, REGION + PAGE, 64)]))


def image_of(enclave):
    """Returns the digits of an image: a page of ecalls of the host, and the code of the enclave in its region."""
    words = [word("ecall")] * (PAGE // 4) + enclave
    return b"".join(it.to_bytes(4, "little") for it in words).hex()


def replies(program, enclave, harts, lines):
    """Returns the reply lines of each line of a script."""
    text = input_of(image_of(enclave), [it + "\nmark" for it in lines])
    ran = subprocess.run([program, "run", "--monitor", "--harts", str(harts)], input=text.encode(), stdout=subprocess.PIPE, timeout=HANG, check=True)
    parts = ran.stdout.decode().split(MARK + "\n")
    assert len(parts) == len(lines) + 1 and not parts[-1]
    return [it.splitlines() for it in parts[:-1]]


def own_replies(program, enclave, host, ends):
    """Returns what the enclave does in a run: the replies to its steps, its registers after them, and its bytes at the end. After a step with which
    it leaves, the registers are those of the host: a0 and a1 count."""
    told, found = replies(program, enclave, host.harts, host.lines), []
    for at, end in zip(host.own, ends):
        part = [line.replace("world=e%d " % host.slot, "world=e ") for it in told[at:at + 2 + len(CSRS)] for line in it]
        if end is not End.NONE:
            values = dict(re.findall(r"(x1[01])=(\w+)", " ".join(part)))
            part = [re.sub(r"pc=\w+", "", part[0]), values]
        found.append(part)
    assert len(found) == len(ends) and all(told[at] + told[at + 1] == INTERRUPTED for at in host.interrupts)
    return found + [told[at] for at in host.bytes]


# ---- enclaves

def operation(chance):
    """Returns an instruction of an enclave whose a0 has its region and whose a2 its window: arithmetic, an access, a branch, a CSR or a trap. It
    reads only the middle of its window."""
    rd, a, b = (chance.choice((5, 6, 7, 8, 9)) for _ in range(3))
    place = 4 * chance.randrange(0x100, 0x1FF)
    return chance.choice((
        word(chance.choice(("add", "sub", "xor", "sltu", "mulhu", "divu")), rd, a, b), word("lw", rd, place, 10), word("sw", a, place, 10),
        word("lw", rd, place, 12), word("lw", rd, place, 12), word("sw", a, place, 12), word("beq", a, b, 8), word("csrrw", rd, 0x140, a),
        word("csrrs", rd, 0xC00, 0), word("ebreak"), word("lw", rd, 0, 0)))


def reading_enclave(chance):
    """Returns the code of an enclave. It sets its trap handler and executes random instructions. It stops with a random value in between, and exits
    with one at the end. Its trap handler begins it again."""
    handler = [*constant(31, REGION + 12), word("csrrw", 0, 0x105, 31)]
    first, second = ([operation(chance) for _ in range(chance.randrange(4, 12))] for _ in range(2))
    stop, leaving = ([*constant(10, chance.getrandbits(32)), *leave(it)] for it in (STOP, EXIT))
    return [*handler, *first, *stop, *constant(10, REGION), *second, *leaving]


def ends_of(program, enclave, shared):
    """Returns how the enclave leaves at each of its steps, under a host that only resumes it."""
    ends = []
    while len(ends) < STEPS and End.EXIT not in ends:
        host = Host(random.Random(0), 1, 0)
        host.begin(shared)
        host.live(ends, calm=1)
        count = len(host.lines)
        host.say(*["step 1", "reg 10"] * (STEPS - len(ends)))
        told = [line for it in replies(program, enclave, 1, host.lines)[count:] for line in it]
        steps = list(zip(told[::2], told[1::2]))
        at = next((it for it, (step, _) in enumerate(steps) if "world=host" in step), None)
        ends += [End.NONE] * (len(steps) if at is None else at)
        if at is not None:
            ends.append(End.STOP if steps[at][1] == "x10=%08x" % STOPPED else End.EXIT)
    return ends


def draw(chance):
    """Returns an enclave that reads its window, and the lines that write what it reads."""
    shared = ["poke %x %x" % (it, chance.randrange(256)) for it in chance.sample(READ, 64)]
    return reading_enclave(chance), shared


def hosts_of(chance):
    """Returns two unlike hosts: their harts, slots, registers, enclaves, clocks and schedules differ."""
    return [Host(random.Random(chance.getrandbits(64)), chance.choice((1, 2)), chance.randrange(12)) for _ in range(2)]


def pair(program, chance, plant=None):
    """Returns what an enclave does under each of two unlike hosts; `plant` changes the second before its last steps."""
    enclave, shared = draw(chance)
    ends, found = ends_of(program, enclave, shared), []
    for number, host in enumerate(hosts_of(chance)):
        host.begin(shared)
        host.live(ends[:8])
        if plant and number:
            plant(host)
        host.live(ends[8:])
        found.append(own_replies(program, enclave, host, ends))
    return found


def secret_enclave(chance, value):
    """Returns the code of an enclave that computes with secrets in a0 and in other registers. It stops with a value in a0; None leaves the secret
    there."""
    def secret_operation():
        rd, a, b = (chance.choice((5, 6, 7, 10, 11)) for _ in range(3))
        return chance.choice((
            word("lw", rd, SECRET + 4 * chance.randrange(32), 28), word("lw", 10, SECRET + 4 * chance.randrange(32), 28),
            word(chance.choice(("add", "sub", "xor", "mul")), rd, a, b), word("sw", a, SECRET + 0x200, 28), word("csrrw", rd, 0x140, a)))

    first, rest = ([secret_operation() for _ in range(12)] for _ in range(2))
    last = constant(10, value) if value is not None else [word("lw", 10, SECRET, 28)]
    return [*constant(28, REGION), *first, *last, *leave(STOP), *rest]


def secret_pair(program, chance, value):
    """Returns what others observe of two runs of an enclave with unlike secrets, under one host and clock, and what the enclave does."""
    enclave, host = secret_enclave(chance, value), hosts_of(chance)[0]
    count = len(enclave) - 12
    ends = [*[End.NONE] * (count - 1), End.STOP, *[End.NONE] * 8]
    host.begin([])
    at = len(host.lines) - len(call(RUN, host.slot, 0, 0, 0, 0))
    host.live(ends)
    seen, own = [], []
    for _ in range(2):
        secrets = ["poke %x %x" % (REGION + SECRET + it, chance.randrange(256)) for it in range(128)]
        told = replies(program, enclave, host.harts, host.lines[:at] + secrets + host.lines[at:])
        told = told[:at] + told[at + len(secrets):]
        assert all(told[it] + told[it + 1] == INTERRUPTED for it in host.interrupts)
        seen.append([told[it] for it in host.seen])
        own.append([told[it + 1] for it in host.own])
    return seen, own


# ---- the tests

def share(request, part):
    """Returns the numbers of the pairs of a part."""
    return range(part, request.config.getoption("--pairs"), WORKERS)


@pytest.mark.parametrize("part", range(WORKERS))
def test_enclave_takes_the_same_steps_under_unlike_hosts_and_clocks(bench, request, part):
    for number in share(request, part):
        first, second = pair(bench, random.Random(number))
        assert first == second, number


@pytest.mark.parametrize("part", range(WORKERS))
def test_interrupt_with_a_secret_in_a0_hands_over_nothing(bench, request, part):
    for number in share(request, part):
        seen, own = secret_pair(bench, random.Random(number), number)
        assert seen[0] == seen[1], number
        assert own[0] != own[1], number


# ---- planted errors

def change_what_is_read(host):
    host.say(*("poke %x %x" % (it, host.chance.randrange(256)) for it in host.chance.sample(READ, 200)))


def change_the_region(host):
    host.say("poke %x %x" % (REGION + PAGE - 1, 0x5A))


def change_a_register(host):
    host.say("setreg 9 %x" % host.chance.getrandbits(32))


def take_a_step_more(host):
    host.say("step 1")


@pytest.mark.parametrize("plant", [change_what_is_read, change_the_region, change_a_register, take_a_step_more])
def test_comparison_finds_a_host_that_changes_what_the_enclave_has(bench, plant):
    found = [first != second for first, second in (pair(bench, random.Random(it), plant) for it in range(8))]
    assert any(found)
    assert not any(first != second for first, second in (pair(bench, random.Random(it)) for it in range(8)))


def test_comparison_finds_a_secret_that_is_handed_over(bench):
    assert all(seen[0] != seen[1] for seen, _ in (secret_pair(bench, random.Random(it), None) for it in range(8)))
