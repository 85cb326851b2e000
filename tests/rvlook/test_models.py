"""`timer`, `leak` and `measure` against models that share nothing with rvlook: the bench of `models.monitor_bench`, step by step, and
hashlib. `explain` against replies that are written here."""
import hashlib
import json
import struct

import pytest

from conftest import EXAMPLES, PROGRAMS
from models.monitor_bench import Bench, cut_at, image_of, lines_of

RAM, MOST = 0x80000000, 20000  # the first byte of RAM; steps of the model
IMAGES = PROGRAMS.parent / "images"
TIMER, LEAK, REGION = EXAMPLES / "enclaves" / "timer" / "image", IMAGES / "leak" / "image", IMAGES / "measure" / "region"


class Model:
    """The model's bench after the script of an input."""

    def __init__(self, path):
        image, script = cut_at(lines_of(path.read_text(encoding="ascii")))
        self.bench = Bench(image_of(image))
        for line in script:
            self.bench.replies(line)

    def step(self):
        return self.bench.replies("step 1")[0]

    @property
    def state(self):
        """The state of the enclave in slot 0."""
        return self.bench.machine.table[0].state if 0 in self.bench.machine.table else None

    def until(self, wanted):
        """The replies of the steps up to one after which slot 0 is in a state."""
        found = []
        while self.state != wanted and len(found) < MOST:
            found.append(self.step())
        return found

    def end(self, interrupted=None):
        """Returns the steps of the enclave up to its exit, and the registers of the host then; a timer interrupt comes before one of these steps."""
        count, machine, most = 0, self.bench.machine, iter(range(MOST))
        while self.state != "Exited":
            assert next(most, None) is not None, "the enclave of the model does not exit"
            if machine.world == 0 and count == interrupted:
                self.bench.replies("timer on")
                interrupted = None
            elif machine.world == 0:
                count += 1
            self.step()
        enclave = machine.table[0]
        parts = [machine.ram[base - RAM:base - RAM + size] for base, size in (enclave.region, enclave.window)]
        return count, (machine.regs[10], machine.regs[11], hashlib.sha256(b"".join(parts)).hexdigest())


@pytest.fixture(scope="module")
def uninterrupted():
    return Model(TIMER).end()


def test_timer_counts_the_steps_of_the_enclave(results, uninterrupted):
    found = results("timer", "--monitor", TIMER)[-1]
    assert (found["steps"], found["interrupts"], found["same"]) == (uninterrupted[0], uninterrupted[0], True)


@pytest.mark.parametrize("place", ["first", "second", "middle", "last"])
def test_enclave_of_the_model_comes_to_the_same_end_after_an_interrupt(uninterrupted, place):
    count, wanted = uninterrupted
    before = {"first": 0, "second": 1, "middle": count // 2, "last": count - 1}[place]
    assert Model(TIMER).end(before)[1] == wanted


def test_leak_finds_the_step_at_which_two_runs_of_the_model_differ(results):
    runs, created = [], 0
    for secret in ("00", "05"):
        model = Model(LEAK)
        created = len(model.until("Fresh"))
        model.bench.replies("poke 80020800 " + secret)
        runs.append(model.until("Exited"))
    first = next(number for number, pair in enumerate(zip(*runs)) if pair[0] != pair[1])
    found = {(it["object"], it.get("channel")): it for it in results("leak", "--monitor", LEAK, "--at", "80020800", "00", "05", status=1)}
    difference = found["difference", "pc"]
    assert difference["step"] == [created + first + 1] * 2
    assert difference["values"] == [run[first].split(" ", 2)[2] for run in runs]
    assert found["difference", "steps"]["values"] == [created + len(run) for run in runs]
    assert found["leak", None]["steps"] == [len(run) for run in runs]


def test_measure_is_sha256_of_the_numbers_and_the_region(results):
    numbers = (0x80020000, 4096, 0x80030000, 4096, 0x80020000)
    data = REGION.read_bytes().ljust(numbers[1], b"\0")
    found = results("measure", REGION, *("%x" % it for it in numbers))[-1]
    assert found["measurement"] == hashlib.sha256(struct.pack("<5I", *numbers) + data).hexdigest()


@pytest.mark.parametrize("text, wanted", [
    ("9300f0ff\n--\nreg a0\n", [(3, "reg a0", "error operand", "reg 10")]),
    ("9300f0ff\n--\nstep 1\nBreak 80000000\n", [(4, "Break 80000000", "error command", "break A")]),
    ("9300f0ff\n--\nstep 0\nreg 5\n", [(3, "step 0", "error operand", None)]),
    ("9300f0ff\n--\nenclaves\nreg 99\n", [(4, "reg 99", "error operand", None)]),
    ("9300f0ff\n--\nreg 5\n", [])], ids=["register", "command", "zero", "enclaves", "right"])
def test_explain_reports_each_refused_line(rvlook, text, wanted):
    done = rvlook("explain", "-", "--json", stdin=text)
    errors = [it for it in map(json.loads, done.stdout.splitlines()) if it["object"] == "error"]
    assert [(it["line"], it["text"], it["reply"], it["suggestion"]) for it in errors] == wanted
    assert done.returncode == (1 if wanted else 0)
