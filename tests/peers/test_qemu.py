"""The program and QEMU in lockstep: random streams agree, each deviation shows in its case and explains nothing else, and a false value fails."""
import re

import pytest

from peers.qemu.actions import instruction
from peers.qemu.cases import CASES, OPEN, VECTOR, access, below, write
from peers.qemu.checks import CHECKS
from peers.qemu.deviations import DEVIATIONS
from peers.qemu.faulty import FAULTY
from peers.qemu.harts import Pair, compare_schedules
from peers.qemu.lockstep import Difference, Ended
from peers.qemu.registers import RAM
from peers.qemu.remote import RemoteError
from peers.qemu.runner import Counts, lockstep, run_actions, run_block, run_stream
from peers.qemu.stops import STOPS

# The least number of steps of each of the four tests of streams, and of the blocks.
STEPS, BLOCKS = 600, 4
SEED = "gate"
# The first step of a schedule.
OTHER = re.compile("sched 0")


@pytest.mark.parametrize("part", range(4))
def test_random_streams_agree(bench, qemu_72, part):
    counts = Counts()
    while counts.steps < STEPS:
        counts.add(run_stream(bench, SEED, part + 4 * counts.streams))
    assert len(counts.seen) > 5, "these streams reach too few deviations: %s" % counts.seen


@pytest.mark.parametrize("part", range(BLOCKS))
def test_runs_of_several_steps_agree(bench, qemu_version, part):
    assert run_block(bench, SEED, part).steps > 100


@pytest.mark.parametrize("name", CHECKS)
def test_directed_check_agrees(bench, qemu_72, name):
    assert run_actions(bench, CHECKS[name]).steps == len(CHECKS[name])


@pytest.mark.parametrize("name", [it.name for it in DEVIATIONS])
def test_deviation_shows_in_its_case_and_explains_nothing_else(bench, qemu_72, name):
    assert run_actions(bench, CASES[name]).seen[name] >= 1
    with pytest.raises(Difference):
        run_actions(bench, CASES[name], deviations=[it for it in DEVIATIONS if it.name != name])


@pytest.mark.parametrize("name", [it.name for it in STOPS])
def test_stop_ends_its_case_which_differs(bench, qemu_72, name):
    with pytest.raises(Ended, match=name):
        run_actions(bench, CASES[name])
    with lockstep(bench, stops=()) as run:
        for action in CASES[name][:-1]:
            run.step(action)
        with pytest.raises(Difference):
            run.step(CASES[name][-1])


def test_each_deviation_has_a_case():
    assert set(CASES) == {it.name for it in (*DEVIATIONS, *STOPS)}


def test_qemu_halts_at_wfi(bench, qemu_72):
    with lockstep(bench) as run:
        assert run.step(instruction("wfi")).trap is None
        run.emulator.write_memory(run.before["pc"], (0x10500073).to_bytes(4, "little"))
        run.emulator.remote.socket.settimeout(0.5)
        with pytest.raises(RemoteError):
            run.emulator.step(run.before)


@pytest.mark.parametrize("refreshes", [True, False])
def test_qemu_keeps_the_old_lower_bound_of_a_tor_entry(bench, qemu_72, refreshes):
    """The client writes pmpcfg before each step, after which QEMU computes the bound again."""
    actions = [VECTOR, write("pmpaddr0", RAM + 0x8000 >> 2), write("pmpaddr1", RAM + 0x9000 >> 2), write("pmpcfg0", 0x0800), *OPEN,
               write("pmpaddr0", RAM + 0x8800 >> 2), *below(), access("lw", RAM + 0x8400)]
    with lockstep(bench) as run:
        run.refreshes = refreshes
        for action in actions[:-1]:
            run.step(action)
        if refreshes:
            assert run.step(actions[-1]).trap is None
        else:
            with pytest.raises(Difference):
                run.step(actions[-1])


@pytest.mark.parametrize("side", FAULTY, ids=lambda it: it.__name__)
def test_a_false_value_is_noticed(bench, qemu_72, side):
    with pytest.raises(Difference):
        for part in (1, 2, 4, 5):
            run_stream(bench, SEED, part, side=side)


@pytest.mark.parametrize("seed", ["gate", "gate again"])
def test_schedules_of_two_harts_agree(bench, qemu_version, seed):
    assert compare_schedules(bench, seed, 1000) >= 1000


def test_another_schedule_of_two_harts_is_noticed(bench, qemu_version, monkeypatch):
    ask = Pair.ask
    monkeypatch.setattr(Pair, "ask", lambda self, lines, replies: ask(self, [OTHER.sub("sched 1", it) for it in lines], replies))
    with pytest.raises(Difference):
        compare_schedules(bench, "gate", 1000)
