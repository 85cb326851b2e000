"""Does many steps of a timeline in one exchange, and finds where its harts do nothing any more."""
from __future__ import annotations

import functools
import re
from typing import Callable, Iterable, Iterator, Mapping, Optional, Tuple

from rvlook.gdb.stops import NO_TRAP, Halt, Stops
from rvlook.protocol.replies import Ran, RanTrap, step_of
from rvlook.protocol.run import HALTED_AFTER
from rvlook.protocol.timeline import MOST_STEPS, Action, Line, ScheduledSteps, Timeline, actions_between, rotated, steps_within

BLOCK = 4096  # steps of an exchange
LONGEST = 100  # the most bytes of a reply to `run`
RUNS, MOST_QUESTIONS = 256, 16  # runs in one exchange, and queries after each

RanState = Tuple[str, str, str, Optional[RanTrap]]  # pc, mode, world and trap


def runs_of(turns: str, count: int, is_single: bool) -> list[tuple[int, int]]:
    """Divides `count` steps of a schedule into runs of one hart. Returns the hart and the number of steps of each; 1 step each if `is_single`."""
    if len(set(turns)) == 1 and not is_single:
        return [(int(turns[0]), count)]
    rounds, remaining_steps = divmod(count, len(turns))
    pattern = "0|1" if is_single else "0+|1+"
    full_round, last_round = ([(int(match[0][0]), len(match[0])) for match in re.finditer(pattern, digits)]
                              for digits in (turns, turns[:remaining_steps]))
    return full_round * rounds + last_round


def commands_of_runs(runs: Iterable[tuple[int, int]], chosen: int) -> Iterator[str]:
    """Yields the commands that do runs, each a hart and its number of steps; hart `chosen` is chosen before them."""
    for hart, length in runs:
        if hart != chosen:
            yield "hart %d" % hart
            chosen = hart
        yield "run %d" % length


@functools.lru_cache(maxsize=8)
def planned(turns: str, count: int, is_single: bool, chosen: int) -> tuple[list[tuple[int, int]], bytes, int]:
    """Returns the runs of a schedule, the text of their commands, and the number of lines of the replies."""
    runs = runs_of(turns, count, is_single)
    lines = list(commands_of_runs(runs, chosen))
    return runs, ("\n".join(lines) + "\n").encode(), len(lines)


def query_steps(timeline: Timeline, turns: str, count: int, is_single: bool,
                is_quiet: Callable[[bytes, int], bool] | None = None) -> list[tuple[int, int, Ran]]:
    """Does steps of a schedule, one by one or in runs, in one exchange; returns for each run its hart, its wanted steps and its reply. If a run ends
    at a stop, the steps after it are not by the schedule any more. If `is_quiet` accepts all replies, only those of the last round are decoded."""
    timeline.settle()
    runs, text, lines = planned(turns, count, is_single, timeline.hart)
    block = timeline.bench.block(text, lines)
    timeline.hart = runs[-1][0]
    timeline.add(ScheduledSteps(turns, count))
    if is_quiet and is_quiet(block, len(runs)):
        for hart in range(timeline.setup.harts) if block.count(NO_TRAP) < len(runs) else ():
            timeline.moved[hart] += 1
        runs = runs[-len(turns):]
        block = block[-LONGEST * 2 * len(runs):]
    rans = [step_of(line) for line in block.decode().splitlines() if line.startswith("ran ")][-len(runs):]
    for (hart, _), ran in zip(runs, rans):
        timeline.reach(hart, ran.mode, ran.world, ran.trap and ran.steps > 1)
    return [(hart, length, ran) for (hart, length), ran in zip(runs, rans)]


def steps_of(ahead: Timeline, actions: Iterable[Action]) -> Iterator[ScheduledSteps]:
    """Yields the steps among actions of the past, which the caller then does on the bench `ahead`. Does the commands between them there itself."""
    for action in actions:
        if isinstance(action, Line):
            ahead.choose(action.hart)
            ahead.do(action.text)
        else:
            yield action


def blocks_of(ahead: Timeline, actions: Iterable[Action]) -> Iterator[ScheduledSteps]:
    """Yields the steps that `steps_of` yields, in blocks: each block has the steps of one exchange."""
    return (steps_within(step, at, at + BLOCK) for step in steps_of(ahead, actions) for at in range(0, step.count, BLOCK))


def by_turns(timeline: Timeline, stops: Stops, turns: str, count: int) -> Iterator[Halt | None]:
    """Does steps of a schedule, each run in an exchange of its own, so that the bench passes no stop. Yields the halt after each run, or None."""
    end = timeline.position + count
    while timeline.position < end:
        hart, length = int(turns[0]), min(end - timeline.position, MOST_STEPS)
        if len(set(turns)) > 1:
            length = min(length, len(turns) - len(turns.lstrip(turns[0])))
        before = timeline.worlds[hart]
        ran = timeline.run(hart, 1 if stops.is_single else length, turns)
        turns = rotated(turns, ran.steps)
        yield stops.halt_after(timeline, hart, ran, before) if stops.may_meet(timeline, ran, before) else None


def judged(timeline: Timeline, stops: Stops, hart: int, count: int) -> list[tuple[int, Ran, bool | None]]:
    """Runs a hart alone for at most `count` steps, in one exchange of several runs, with the queries that decide conditions after each. Returns for
    each run the steps up to its end, its reply, and whether there is a halt, or None if the replies do not decide."""
    timeline.settle()
    timeline.choose(hart)
    questions = list(stops.questions)[-MOST_QUESTIONS:]
    runs = min(RUNS, count)
    lines = ["run %d" % max(1, count // RUNS), *questions]
    replies = timeline.bench.block(("\n".join(lines * runs) + "\n").encode(), len(lines) * runs).decode().splitlines()
    verdicts, steps_done = [], 0
    for first in range(0, len(replies), len(lines)):
        ran = step_of(replies[first])
        steps_done += ran.steps
        timeline.reach(hart, ran.mode, ran.world, ran.trap and ran.steps > 1)
        verdicts.append((steps_done, ran, stops.verdict(timeline, ran, dict(zip(questions, replies[first + 1:first + len(lines)])))))
    timeline.add(ScheduledSteps(str(hart), steps_done))
    return verdicts


def state_of(ran: Ran) -> RanState:
    """Returns the state by which a halted hart is detected."""
    return ran.pc, ran.mode, ran.world, ran.trap


def ends_of(steps: Iterable[tuple[int, int, Ran]]) -> dict[int, RanState] | None:
    """Returns the last state of each hart if all harts have halted: if their last HALTED_AFTER states are equal. Else returns None."""
    states_by_hart: dict[int, list[RanState]] = {}
    for hart, _, ran in steps:
        states_by_hart.setdefault(hart, []).append(state_of(ran))
    if any(len(states) < HALTED_AFTER or len(set(states[-HALTED_AFTER:])) > 1 for states in states_by_hart.values()):
        return None
    return {hart: states[-1] for hart, states in states_by_hart.items()}


def first_equal(timeline: Timeline, first: int, ends: Mapping[int, RanState]) -> int:
    """Returns the first step after `first` from which all harts are halted. `ends` has the present state of each hart, in which it is halted."""
    end = timeline.position
    with timeline.again(block_before(timeline, first, ends)) as ahead:
        since: dict[int, int] = {}  # the step since which a hart has been in its end state without a change
        for block in blocks_of(ahead, actions_between(timeline.past, ahead.position, end)):
            position = ahead.position
            for hart, _, ran in query_steps(ahead, block.turns, block.count, is_single=True):
                position += 1
                if state_of(ran) != ends[hart]:
                    since.pop(hart, None)
                else:
                    since.setdefault(hart, position)
            if len(since) == len(ends) and position >= max(since.values()) + HALTED_AFTER * len(block.turns):
                return max(since.values())
        return max(since.values(), default=end)


def block_before(timeline: Timeline, first: int, ends: Mapping[int, RanState]) -> int:
    """Returns a step shortly before the result of `first_equal`: the end of the last block after which the hart has another state."""
    if len(ends) > 1:
        return first
    (hart, state), = ends.items()
    with timeline.again(first) as ahead:
        ahead.choose(hart)
        replies = ahead.do_all(["run %d" % BLOCK] * ((timeline.position - first) // BLOCK))
        states = [state_of(step_of(reply)) for reply, in replies]
    different = [number for number, block_state in enumerate(states) if block_state != state]
    return first + BLOCK * different[-1] if different else first
