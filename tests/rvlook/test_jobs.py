"""Subcommands with several processes: they end after the first difference, they give the results of one process, and they fail if a process is
killed."""
import os
import signal
import subprocess
import sys

import pytest
from support.limits import HANG, wait_until
from support.processes import worker_of

from conftest import EXAMPLES, PROGRAMS, ROOT, RVLOOK

TWO = EXAMPLES / "monitors" / "two_enclaves"
ENDS_EARLY = """
import time
from rvlook.monitors import conform

class Slow:
    def __reduce__(self):
        time.sleep(0.05)
        return bytes, (b"x" * (1 << 20),)

def perform(setup, task):
    time.sleep(0.3 if task else 0)
    return task

conform.perform = perform
for found in conform.all_played(Slow(), range(100), 2):
    time.sleep(0.4)
    break
print("ended after script", found)
"""


def test_processes_end_while_tasks_wait(bench):
    """The setup is slow to send and larger than a pipe. All processes are busy when the first result ends the comparison."""
    done = subprocess.run([sys.executable, "-c", ENDS_EARLY], capture_output=True, text=True, timeout=HANG, check=False,
                          env={**os.environ, "RVBENCH": bench, "PYTHONPATH": str(ROOT / "python")})
    assert (done.returncode, done.stdout) == (0, "ended after script 0\n"), done.stderr


@pytest.mark.parametrize("count, jobs", [(0, 3), (1, 3), (7, 1), (7, 3), (100, 2)])
def test_results_have_the_order_of_the_tasks(bench, monkeypatch, count, jobs):
    from rvlook.protocol.jobs import results_of
    monkeypatch.setenv("RVBENCH", bench)
    offset = [5]  # the processes inherit it
    assert list(results_of(lambda number: number + offset[0], count, jobs)) == [number + 5 for number in range(count)]


def test_error_of_a_task_is_raised(bench, monkeypatch):
    from rvlook.errors import BenchEnded
    from rvlook.protocol.jobs import results_of

    def task(number):
        if number == 3:
            raise BenchEnded("rvbench exited with status 9")
        return number

    monkeypatch.setenv("RVBENCH", bench)
    with pytest.raises(BenchEnded, match="status 9"):
        list(results_of(task, 8, 3))


@pytest.mark.parametrize("words", [(), ("--json",)])
def test_guard_gives_the_results_of_one_process(rvlook, words):
    arguments = ("guard", "--timers", "2", "--steps", "1500", *words, TWO / "image", TWO / "ranges")
    one, three = rvlook(*arguments), rvlook(*arguments, "--jobs", "3")
    assert (three.returncode, three.stdout, three.stderr) == (one.returncode, one.stdout, one.stderr) and "timers 1-2" in one.stdout


@pytest.mark.parametrize("words", [(), ("--json",)])
def test_leak_gives_the_results_of_one_process(rvlook, words):
    """Pair 3 differs without a verdict, so the text has its details."""
    folder = EXAMPLES / "enclaves" / "store_leaking"
    arguments = ("leak", "--monitor", folder / "image", "--symbols", folder / "symbols", "--at", "pin:8", "--tries", "4", *words)
    one, three = rvlook(*arguments), rvlook(*arguments, "--jobs", "3")
    assert (three.returncode, three.stdout, three.stderr) == (one.returncode, one.stdout, one.stderr)
    assert one.returncode == 1 and ('"differing":[3]' in one.stdout.replace(" ", "") if words else "pair 3 of 4, the first that differs" in one.stdout)


def image_of(folder):
    """Returns the image of an example or a test program, with its symbols, as arguments."""
    return "--monitor", folder / "image", "--symbols", folder / "symbols"


def with_jobs(rvlook, tmp_path, script, *arguments):
    """Runs a subcommand with one process and with three; checks that both give the same, and returns the result."""
    path = tmp_path / "script"
    path.write_text("".join(line + "\n" for line in script))
    one, three = (rvlook(*arguments, "--script", path, "--jobs", jobs) for jobs in ("1", "3"))
    assert (three.returncode, three.stdout, three.stderr) == (one.returncode, one.stdout, one.stderr)
    return one


@pytest.mark.parametrize("script, every, status, text", [
    ((), "1", 0, "same result: every step"), ((), "3", 0, "timer interrupt before every 3 steps"), (("poke tells_count 01",), "1", 1, "different result"),
    (("poke tells_count 01", "poke stops 01"), "1", 1, "step 54 of e0")])
def test_timer_gives_the_results_of_one_process(rvlook, tmp_path, script, every, status, text):
    """The last difference is in the second of three parts."""
    done = with_jobs(rvlook, tmp_path, script, "timer", *image_of(PROGRAMS / "timer_host"), "--every", every)
    assert done.returncode == status and text in done.stdout, done.stdout


@pytest.mark.parametrize("corrected, status, words", [(0, 1, ()), (1, 0, ()), (0, 1, ("--json",))])
def test_inputs_gives_the_results_of_one_process(rvlook, tmp_path, corrected, status, words):
    """The script selects a function of the example that stores beyond an array, or its correction."""
    script = ("poke task 02", "poke corrected %02x" % corrected)
    done = with_jobs(rvlook, tmp_path, script, "inputs", *image_of(EXAMPLES / "enclaves" / "host_inputs"), "--runs", "60", *words)
    assert (done.returncode, done.stderr) == (status, ""), done.stdout


class TracerOfCalls:
    """A tracer in which only calls matter. `call` executes a call at a pc, and an access in its stack frame."""

    def __init__(self):
        from rvlook.finders.inputs.code import Code, Kind
        from rvlook.finders.inputs.contexts import Contexts
        self.contexts, self.code, self.runs = Contexts(), {}, 0
        self.access = Code(Kind.LOAD, "lw x10, 0(x2)", (2,), 4)

    def learn(self, pc, code):
        self.code[pc] = code

    def count_end(self, trace):
        """Counts nothing."""

    def call(self, context, pc, sp):
        found = self.contexts.called(context, pc, False)
        self.contexts.update_frame(found, self.access, sp)
        self.learn(pc, self.access)
        return found


def test_trace_of_another_process_is_taken_over():
    """Meanwhile this process has met another call, so that the numbers of the contexts differ."""
    from rvlook.finders.inputs.search import has_taken_over, known_to, news_since
    from rvlook.finders.inputs.trace import ROOT, Trace
    own, other = TracerOfCalls(), TracerOfCalls()
    known = known_to(own)
    own.call(ROOT, 0x100, 0x8000)
    outer = other.call(ROOT, 0x200, 0x9000)
    trace = Trace(context=other.call(outer, 0x300, 0x8f00))
    trace.contexts.extend([ROOT, outer, trace.context])
    assert has_taken_over(own, known, trace, news_since(other, known))
    assert [[own.contexts.calls[it] for it in own.contexts.chain(context)] for context in trace.contexts] == [[], [0x200], [0x300, 0x200]]
    assert [own.contexts.frames.get(it) for it in trace.contexts] == [None, 0x9000, 0x8f00] and trace.context == trace.contexts[-1]
    assert (set(own.code), own.runs) == ({0x100, 0x200, 0x300}, 1)


@pytest.mark.parametrize("own_sp, other_sp, known_sp, is_possible", [
    (0x8000, 0x8000, None, True), (0x8000, 0x9000, None, False), (None, 0x9000, 0x9000, True), (None, 0x9000, 0x8000, False)])
def test_trace_with_another_stack_frame_is_not_taken_over(own_sp, other_sp, known_sp, is_possible):
    from rvlook.finders.inputs.search import has_taken_over, known_to, news_since
    from rvlook.finders.inputs.trace import ROOT, Trace
    own, other = TracerOfCalls(), TracerOfCalls()
    for it in (own, other) if known_sp else ():
        it.call(ROOT, 0x100, known_sp)
    known = known_to(own)
    if own_sp:
        own.call(ROOT, 0x100, own_sp)
    trace = Trace(context=other.call(ROOT, 0x100, other_sp))
    assert has_taken_over(own, known, trace, news_since(other, known)) == is_possible


def test_trace_of_a_process_without_a_stack_frame_is_not_taken_over():
    """This process has met the call, whose stack frame the trace could have used."""
    from rvlook.finders.inputs.search import has_taken_over, known_to, news_since
    from rvlook.finders.inputs.trace import ROOT, Trace
    own, other = TracerOfCalls(), TracerOfCalls()
    known = known_to(own)
    own.call(ROOT, 0x100, 0x8000)
    trace = Trace(context=other.contexts.called(ROOT, 0x100, False))
    assert not has_taken_over(own, known, trace, news_since(other, known))


def process_of(pid):
    """Returns the number of a process that `rvlook` has forked, once there is one."""
    found = []
    assert wait_until(lambda: found.append(worker_of(pid)) or found[-1]), "rvlook has started no process"
    return found[-1]


@pytest.mark.parametrize("name, folder, words", [
    ("timer", EXAMPLES / "enclaves" / "hmac", ()), ("inputs", EXAMPLES / "enclaves" / "hmac", ("--runs", "2000")),
    ("leak", EXAMPLES / "enclaves" / "store", ("--at", "pin:8", "--tries", "2000"))])
def test_killed_process_is_an_error(bench, name, folder, words):
    command = [RVLOOK, name, *map(str, (*image_of(folder), *words)), "--jobs", "3"]
    with subprocess.Popen(command, stdout=subprocess.PIPE, stderr=subprocess.PIPE, text=True, env={**os.environ, "RVBENCH": bench}) as running:
        os.kill(process_of(running.pid), signal.SIGKILL)
        out, errors = running.communicate(timeout=HANG)
    assert (running.returncode, errors) == (3, "rvlook: error: a process of --jobs 3 was killed; use fewer jobs, or look for a lack of memory\n"), out
