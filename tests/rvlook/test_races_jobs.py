"""`races` with several processes: it prints what one process prints, also if moves that another process has computed are lost."""
import os
import subprocess
import sys
from types import SimpleNamespace

import pytest
from support.limits import HANG, processor_time
from support.race_programs import assembled, program_of
from support.race_runs import OUTCOME, WORDS

from conftest import ROOT
from models import final_states as model

MOST = 60  # seconds of processor time of a search that ends after 2 seconds; the whole search takes minutes
DRIVER = """
import sys
from itertools import count, islice
from types import SimpleNamespace
from rvlook.__main__ import main
from rvlook.finders.races import parallel, replay, text

class Counted(parallel.MovesAhead):
    def __init__(self, *arguments):
        super().__init__(*arguments)
        made.append(self)

made, seconds = [], count()
results_of = parallel.results_of

text.MovesAhead = Counted
parallel.time = SimpleNamespace(thread_time=lambda: next(seconds))  # each move takes a second, so that each run gives the same nodes away
parallel.FIRST_PAUSE, parallel.MIN_SECONDS_PER_MOVE = 1, 0
%s
status = main(sys.argv[1:])
print(sum(it.taken for it in made), file=sys.stderr)
sys.exit(status)
"""
LOSES = "parallel.results_of = lambda *arguments: islice(results_of(*arguments), 0, None, 2)"  # every second task
IS_KILLED = """
import os, signal
check, driver = replay.Replays.check, os.getpid()
replay.Replays.check = lambda self, end: check(self, end) if os.getpid() == driver else os.kill(os.getpid(), signal.SIGKILL)
"""
COUNTER = ["lui x5, 0x80011", "addi x6, x0, %d", "loop: lw x7, 0(x5)", "addi x7, x7, 1", "sw x7, 0(x5)", "addi x6, x6, -1", "bne x6, x0, loop",
           "done: jal x0, done"]
VALUES = [("addi", 6, 0, 800), ("addi", 7, 0, 16)]
ENDLESS = {
    "one loop": ([("lw", 5, 0), ("jal", 1)], [*VALUES, ("addi", 0, 0, 0), ("sw", 6, 0), ("sw", 7, 0), ("jal", 3)]),
    "two loops": ([("xori", 5, 5, 1), ("sw", 5, 8), ("jal", 0)], [*VALUES, ("sw", 6, 0), ("lw", 5, 8), ("sw", 7, 0), ("jal", 2)]),
    "given up": ([("lw", 5, 0), ("lw", 6, 0), ("lw", 5, 4), ("sw", 6, 4), ("addi", 7, 7, 1), ("jal", 4)],
                 [*VALUES, ("sw", 6, 0), ("sw", 7, 0), ("sw", 6, 4), ("sw", 7, 4), ("jal", 6)]),
    "independent loop": ([("lw", 5, 0), ("sw", 5, 8), ("lw", 6, 0), ("xori", 7, 7, 1), ("sw", 7, 12), ("jal", 3)],
                         [*VALUES, ("sw", 6, 0), ("sw", 7, 0), ("sw", 6, 0), ("jal", 5)])}


@pytest.fixture
def driven(bench):
    """Runs rvlook, which gives nodes to other processes however few they are. Returns the status, the output and the messages, and the number of
    moves that the search took from other processes."""
    def run(*arguments, change=""):
        done = subprocess.run([sys.executable, "-c", DRIVER % change, *map(str, arguments)], capture_output=True, text=True, timeout=HANG,
                              check=False, env={**os.environ, "RVBENCH": bench, "PYTHONPATH": str(ROOT / "python")})
        *messages, taken = done.stderr.splitlines()
        return (done.returncode, done.stdout, messages), int(taken)
    return run


@pytest.fixture
def counter(bench, tmp_path):
    """Returns a function that writes a program in which each hart raises a counter so many times."""
    def write(count):
        path = tmp_path / "counter"
        path.write_text(assembled(bench, [it % count if "%" in it else it for it in COUNTER]).hex() + "\n", encoding="ascii")
        return path
    return write


def check_equal(driven, *arguments, change=""):
    """Checks that one, two and three processes print the same; returns the result."""
    one, _ = driven("races", *arguments)
    for jobs in (2, 3):
        found, taken = driven("races", *arguments, "--jobs", jobs, change=change)
        assert found == one
        assert taken > 0, "no move was taken from another process"
    return one


@pytest.mark.parametrize("words", [(), ("--json",), ("--no-reduction",), ("--preemptions", "2"), ("--from", "3", "--to", "9"), ("--limit", "12")])
def test_counter_has_the_results_of_one_process(driven, counter, words):
    status, _, _ = check_equal(driven, *WORDS, counter(4), "--outcome", "80011000", *words)
    assert status == 1


@pytest.mark.parametrize("seed", [1, 2, 4, 5])
def test_random_program_has_the_results_of_one_process(driven, bench, tmp_path, seed):
    program, path = program_of(bench, seed), tmp_path / "program"
    path.write_text(program.text(), encoding="ascii")
    check_equal(driven, *WORDS, path, "--limit", program.steps, "--timer", program.timers, *OUTCOME)


@pytest.mark.parametrize("name", ENDLESS)
def test_endless_program_has_the_results_of_one_process(driven, tmp_path, name):
    path = tmp_path / "program"
    path.write_text(model.image_of(model.linked(*ENDLESS[name])).hex() + "\n", encoding="ascii")
    found = check_equal(driven, *WORDS, path, "--outcome", "80011000:16", "--outcome", "0.t0", "--steps", "20")
    assert ("not finished after" in found[1]) == (name == "given up")


def test_lost_moves_are_computed_again(driven, counter):
    check_equal(driven, *WORDS, counter(4), "--outcome", "80011000", change=LOSES)


@pytest.fixture
def prepared(bench, monkeypatch):
    """Returns a search without processes, and another one on the same machine that has the moves of its first level from other processes."""
    from rvlook.finders.races.machine import RaceMachine
    from rvlook.finders.races.parallel import MovesAhead
    from rvlook.finders.races.search import ScheduleSearch, SearchNode, SearchPoint
    from rvlook.image.files import Image, digits_of
    from rvlook.protocol.run import Setup
    monkeypatch.setenv("RVBENCH", bench)
    data = model.image_of(model.linked(*ENDLESS["one loop"]))
    setup = Setup(Image("test", digits_of(data), data), monitor=True, ram=131072, harts=2)
    machine = RaceMachine(SimpleNamespace(setup=setup))
    before, search = ScheduleSearch(machine), ScheduleSearch(machine)
    before.search()
    search.rounds, ahead, start = 1, MovesAhead(search, jobs=2), SearchNode(SearchPoint(machine.start, None, 0, True))
    ahead.compute_ahead([[start], [start]])
    yield before, search, ahead
    machine.close()


def test_move_of_another_process_is_recorded_as_a_move_of_this_one(prepared):
    before, search, ahead = prepared
    search.search()
    assert ahead.taken > 0
    for name in ("read", "written", "executed"):
        assert getattr(search.touches, name) == getattr(before.touches, name)
    assert (search.graph.moves, search.graph.loops) == (before.graph.moves, before.graph.loops)


def test_moves_of_an_earlier_round_are_not_taken(prepared):
    _, search, ahead = prepared
    search.rounds += 1
    search.search()
    assert ahead.taken == 0


def test_limit_of_seconds_holds(driven, counter, seconds=2):
    before = processor_time()
    (status, text, messages), _ = driven("races", *WORDS, counter(60), "--outcome", "80011000", "--seconds", seconds, "--jobs", "3")
    assert processor_time() - before < MOST
    assert "stopped by --seconds" in text or status == 3 and "it was stopped by --seconds" in messages[-1]


def test_killed_process_is_an_error(driven, counter):
    """Each process that replays a final state kills itself."""
    (status, _, messages), _ = driven("races", *WORDS, counter(3), "--jobs", "3", change=IS_KILLED)
    assert status == 3
    assert messages[0] == "rvlook: error: a process of --jobs 3 was killed; use fewer jobs, or look for a lack of memory"
