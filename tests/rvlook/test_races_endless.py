"""`races` on programs with endless loops: the final states against a model that enumerates all schedules, the time limit, and the report of an
incomplete search."""
import itertools
import random
import time

import pytest
from support.limits import HANG

from models import final_states as model

SLACK = 15  # seconds of processor time beyond a limit; a search that ignores it takes more
WATCHED = ("80011000:16", "0.t0", "1.t0")
REGISTERS = ((0, 5), (1, 5))
NOP = ("addi", 0, 0, 0)
STORES = (("sw", 6, 0), ("sw", 7, 0))
VALUES = [("addi", 6, 0, 800), ("addi", 7, 0, 16)]

# Bodies of hart 0: each ends in `j .`, waits for a value, or never ends.
VICTIMS = {
    "one load": [("lw", 5, 0), ("jal", 1)],
    "two loads": [("lw", 5, 0), ("lw", 6, 0), ("jal", 2)],
    "load and store": [("lw", 5, 0), ("sw", 5, 4), ("addi", 0, 0, 0), ("jal", 2)],
    "waits for 16": [("addi", 6, 0, 16), ("lw", 5, 0), ("beq", 5, 6, 4), ("jal", 1), ("jal", 4)],
    "never ends": [("xori", 5, 5, 1), ("sw", 5, 8), ("jal", 0)],
}


def loops():
    """Yields bodies of hart 1: all loops of 1 to 6 instructions with one or two stores at all positions, after 0 to 2 nops."""
    for length, nops in itertools.product(range(1, 7), range(3)):
        for one, two in itertools.combinations_with_replacement(range(max(length - 1, 1)), 2):
            body = [NOP] * (length - 1)
            if body:
                body[one], body[two] = STORES[0], STORES[1]
            start = nops + len(VALUES)
            yield VALUES + [NOP] * nops + body + [("jal", start)]


def random_body(rng):
    """Returns a body with an endless loop of 1 to 6 instructions, at a random offset."""
    choices = (NOP, ("sw", 6, 0), ("sw", 7, 0), ("sw", 5, 4), ("sw", 6, 8), ("sw", 5, 12), ("lw", 5, 0), ("lw", 5, 4), ("xori", 5, 5, 1),
               ("xori", 7, 7, 3), ("addi", 5, 0, 1))
    before = [("addi", 6, 0, rng.randrange(1, 3)), *rng.choices(choices, k=rng.randrange(3))]
    body = rng.choices(choices, k=rng.randrange(6))
    end = [("jal", len(before))]
    if body and rng.random() < 0.3:  # a loop that a value of the other hart ends
        at = rng.randrange(len(body))
        body[at] = ("beq", 5, rng.choice((0, 6)), len(before) + len(body) + 1)
        end.append(("jal", len(before) + len(body) + 1))
    return before + body + end


def reported(ends):
    """Returns the final states of `races` in the form of the model."""
    found = set()
    for it in ends.ends:
        memory, *registers = it.values
        words = tuple(int.from_bytes(memory[at:at + 4], "little") for at in range(0, 16, 4))
        found.add((it.harts, words, tuple(registers)))
    return found


def check(final_states, program, **options):
    """Compares the final states of a program with those of the model."""
    search, ends = final_states(model.image_of(program), *WATCHED, **options)
    wanted, found = model.final_states(program, REGISTERS), reported(ends)
    assert found == wanted, "%s %s\nmissing: %s\nnot final: %s" % (options, program, sorted(wanted - found, key=str)[:3],
                                                                     sorted(found - wanted, key=str)[:3])
    assert search.is_whole() and not ends.is_cut


@pytest.mark.parametrize("victim", VICTIMS)
def test_final_states_with_each_endless_loop_are_those_of_all_schedules(final_states, victim):
    for number, body in enumerate(loops()):
        check(final_states, model.linked(VICTIMS[victim], body), plain=number % 8 == 0)


@pytest.mark.parametrize("chunk", range(4))
def test_final_states_of_random_endless_loops_are_those_of_all_schedules(final_states, chunk):
    rng = random.Random(chunk)
    for _ in range(30):
        program = model.linked(random_body(rng), random_body(rng))
        check(final_states, program)
        check(final_states, program, plain=True)


def test_final_states_with_one_endless_loop_are_those_of_all_schedules(final_states):
    check(final_states, model.linked(VICTIMS["one load"], VALUES + [NOP, *STORES, ("jal", 3)]))


def test_value_that_one_hart_alone_changes_is_reported(final_states):
    check(final_states, model.linked([("jal", 0)], VALUES + [("sw", 6, 8), ("sw", 7, 8), ("jal", 2)]))


def test_values_of_two_independent_endless_loops_are_combined(final_states):
    first, second = ([("addi", 6, 0, 1), ("sw", 6, at), ("sw", 0, at), ("jal", 1)] for at in (0, 8))
    check(final_states, model.linked(first, second))


def test_there_are_five_hundred_programs():
    assert len(list(loops())) * len(VICTIMS) + 120 >= 500


# ---- the two programs in C

@pytest.mark.parametrize("name", ["endless_attacker", "endless_attacker_nop"])
def test_value_of_an_ended_hart_is_reported_although_the_other_never_ends(objects, program, name):
    status, found = objects("races", "--harts", "2", "--ram", "262144", *program(name), "--outcome", "seen", "--forbid", "seen == 800")
    ends = [it for it in found if it["object"] == "final_state"]
    assert status == 1
    assert sorted(it["values"]["seen"] for it in ends) == [0, 16, 800]
    assert {(it["harts"][0]["how"], it["harts"][1]["how"]) for it in ends} == {("ended", "runs on")}
    assert found[-1]["complete"] and found[-1]["forbidden"]


# ---- the time limit

COUNTS = [("addi", 5, 5, 1), ("sw", 5, 0), ("jal", 0)]  # no state of it comes again
LONG = [("addi", 6, 6, 1), ("jal", 0)]


def write(tmp_path, program):
    """Writes the image of a program; returns its path."""
    path = tmp_path / "program"
    path.write_text(model.image_of(program).hex() + "\n")
    return path


@pytest.mark.parametrize("first, second", [(COUNTS, COUNTS), (LONG, COUNTS), (LONG, LONG)], ids=["two counters", "one move", "two moves"])
def test_time_limit_holds(rvlook, tmp_path, first, second, seconds=3):
    path = write(tmp_path, model.linked(first, second))
    done = rvlook("races", "--monitor", "--harts", "2", "--ram", "131072", path, "--seconds", seconds, "--steps", "1000000000",
                  "--forbid", "80011000 == 70000000", most=seconds + SLACK)
    assert "stopped by --seconds" in done.stdout
    assert done.returncode != 0


def test_time_limit_holds_in_one_move(rvlook, tmp_path, seconds=1):
    path = write(tmp_path, model.linked(LONG, LONG))
    done = rvlook("races", "--monitor", "--harts", "2", "--ram", "131072", path, "--seconds", seconds, "--steps", "1000000000",
                  most=seconds + SLACK)
    assert "stopped by --seconds" in done.stdout


def test_time_limit_holds_while_final_states_are_replayed(final_states, monkeypatch):
    from rvlook.finders.races import replay as races_replay, text as races_text
    monkeypatch.setattr(races_replay.Replays, "check", lambda *_: time.sleep(60))
    data = model.image_of(model.linked(VICTIMS["one load"], VALUES + [*STORES, ("jal", 2)]))
    start = time.monotonic()
    search, ends = final_states(data, *WATCHED, seconds=HANG)
    search.limit.seconds = time.monotonic() - start + 1  # one second is left for the replays
    races_text.replay(search, ends, [], jobs=1)
    assert ends.is_cut and not ends.ends
    assert not races_text.is_whole(search, ends)


def test_wait_for_the_state_of_a_loop_is_bounded():
    from rvlook.finders.races import loop as races_loop
    from rvlook.errors import RvlookError

    class Round:  # a hart whose state is its number of steps, in a loop of four
        hart, context, digest, registers = 0, 0, 0, ()

        def __init__(self, *_):
            self.steps_done = self.pc = 0

    class Steps:
        @staticmethod
        def look(_):
            return None

        @staticmethod
        def step(work, *_):
            work.steps_done, work.pc = work.steps_done + 1, (work.pc + 1) % 4
            assert work.steps_done < 1000, "it is never given up"

    work, old = Round(), races_loop.HartRun
    work.steps_done = 12
    races_loop.HartRun = Round
    try:
        assert races_loop.first_arrival(Steps, None, work, (3, 0, 0, ()), 5).steps_done == 7
        with pytest.raises(RvlookError):
            races_loop.first_arrival(Steps, None, work, (9, 0, 0, ()), 0)
    finally:
        races_loop.HartRun = old


def test_search_is_bounded_on_the_attacker_after_some_nops(final_states):
    for nops in range(6):
        body = VALUES + [NOP] * nops + [*STORES, ("jal", 2 + nops)]
        search, _ = final_states(model.image_of(model.linked(VICTIMS["one load"], body)), *WATCHED, seconds=20)
        assert search.is_whole(), "%d nops" % nops


# ---- the report of an incomplete search

def test_hart_that_counts_forever_makes_the_result_incomplete(final_states, monkeypatch):
    from rvlook.finders.races import machine as races_machine, search as races
    monkeypatch.setattr(races, "MAX_MOVES_ALONE", 20)
    monkeypatch.setattr(races_machine, "MAX_RUN_STEPS", 64)
    search, ends = final_states(model.image_of(model.linked(VICTIMS["one load"], COUNTS)), *WATCHED, steps=200)
    assert not search.is_whole()
    assert {it.values[1] for it in ends.ends if it.harts[0][0] == "ended"} >= set(range(10))


def test_forbidden_condition_is_not_decided_if_a_hart_was_given_up(rvlook, tmp_path):
    path = write(tmp_path, model.linked([("jal", 0)], LONG))
    done = rvlook("races", "--monitor", "--harts", "2", "--ram", "131072", path, "--steps", "1000", "--forbid", "80011000 == 5")
    assert done.returncode != 0
    assert "--forbid is undecided" in done.stderr
    assert "Covered: all" not in done.stdout


@pytest.mark.parametrize("plain", [False, True])
def test_limit_of_steps_ends_an_endless_loop_where_the_limit_is(final_states, plain):
    body = VALUES + [NOP, *STORES, ("jal", 3)]
    for limit in range(8, 14):
        _, ends = final_states(model.image_of(model.linked([("jal", 0)], body)), "80011000", "1.t1", limit=limit, plain=plain)
        at = limit - 2 - 3  # steps in the loop
        assert [it.harts[1] for it in ends.ends] == [("ended", model.ENTRY + 4 * (3 + 3 + at % 3))], limit
        assert int.from_bytes(ends.ends[0].values[0], "little") == (16, 800, 16)[at % 3] if at > 1 else True


def test_part_after_the_first_round_of_an_endless_loop_has_its_final_states(final_states):
    data = model.image_of(model.linked(VICTIMS["one load"], VALUES + [*STORES, ("jal", 2)]))
    late = {it.values[1] for it in final_states(data, *WATCHED, first=100)[1].ends}
    assert late >= {16, 800}


def test_bound_of_preemptions_keeps_the_final_states_that_need_none(final_states):
    program = model.linked(VICTIMS["one load"], VALUES + [*STORES, ("jal", 2)])
    whole, bounded = (reported(final_states(model.image_of(program), *WATCHED, **bounds)[1]) for bounds in ({}, {"preemptions": 0}))
    assert bounded <= whole
    assert {it[2][0] for it in bounded} == {0, 16, 800}  # to leave a hart in its endless loop is no preemption


def test_search_without_a_time_limit_is_bounded(final_states, monkeypatch):
    from rvlook.finders.races import search as races
    monkeypatch.setattr(races, "MAX_STATES", 3)
    search, _ = final_states(model.image_of(model.linked(VICTIMS["one load"], VALUES + [NOP, *STORES, ("jal", 3)])), *WATCHED)
    assert search.why_cut == "the limit of 3 states"
    assert not search.is_whole()
