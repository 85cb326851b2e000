"""Runs harts back under a debugger: to the step before, or to the last stop before, which is searched on other benches that repeat parts of
the past."""
from __future__ import annotations

from typing import Any, Iterable, Iterator, Sequence

from rvlook.gdb.lookahead import blocks_of, by_turns, judged, query_steps, steps_of
from rvlook.gdb.moves import Moves
from rvlook.gdb.stops import INTERRUPTED, PC, Halt
from rvlook.protocol.replies import Ran
from rvlook.protocol.timeline import MOST_STEPS, Action, ScheduledSteps, Timeline, actions_between

FIRST_PART, MORE_BACK = 4096, 8  # steps of the first part that is searched, and the factor for the next
MOST_BY_TURNS = 1 << 18  # the most steps of a part with two harts, or of single steps
FAR, AHEAD = 200000, 3  # the distance from reset from which earlier benches are prepared, and their number
MOST_READY = 6  # the most benches that wait at earlier steps
AT_RESET = "replaylog:begin;"  # the stop reason that tells a debugger that there is no earlier step


class Interrupted(Exception):
    """Raised if Ctrl-C came during the search for a stop."""


class Back:
    """Moves the harts back for a debugger. Caches the stops of the part that was searched last."""

    def __init__(self, moves: Moves) -> None:
        self.moves, self.first, self.end = moves, 0, 0  # `first`, `end`: the steps between which stops were searched last
        self.key: tuple[Any, ...] | None = None  # what the cached stops depend on; None: nothing is cached
        self.cached_stops: list[tuple[int, Halt]] = []  # the stops between `first` and `end`, each with the number of its step

    def discard(self) -> None:
        """Discards the cached stops, since the steps may change."""
        self.key, self.cached_stops = None, []

    def step(self, hart: int) -> Halt:
        """Goes before the last step of a hart."""
        moves = self.moves
        position = moves.timeline.step_before(hart)
        if position is None:
            return Halt(hart, AT_RESET)
        moves.go(position)
        self.prepare(range(position - 1, position - 1 - AHEAD, -1))
        return Halt(hart)

    def prepare(self, positions: Iterable[int]) -> None:
        """Starts benches that go to steps which may be needed next, if the way from reset is so long that it takes time."""
        ready = self.moves.ready
        for position in positions:
            if position > FAR and position not in ready:
                ready[position] = self.moves.timeline.again(position)
        while len(ready) > MOST_READY:
            ready.pop(min(ready)).close()

    def check_interrupt(self) -> None:
        """Raises Interrupted if Ctrl-C came."""
        if self.moves.link.interrupted():
            raise Interrupted

    def go(self, hart: int, harts: Sequence[int]) -> Halt:
        """Goes to the last stop of these harts before the present step. Stays at the present step if Ctrl-C comes before the stop is found."""
        try:
            return self.go_to_stop(hart, harts)
        except Interrupted:
            self.discard()
            return Halt(hart, signal=INTERRUPTED)

    def go_to_stop(self, hart: int, harts: Sequence[int]) -> Halt:
        """Goes to the last stop of these harts before the present step; or stays at a watchpoint there, whose access the debugger undoes."""
        moves, present = self.moves, self.moves.timeline.position
        by_turns_alone = moves.stops.is_single or moves.timeline.setup.harts > 1
        key = (moves.stops.key(moves.timeline), tuple(harts))
        if key != self.key or not self.first <= present <= self.end:
            self.key, self.first, self.end, self.cached_stops = key, present, present, []
        size = FIRST_PART
        while not self.cached_before(present) and self.first > 0:
            first = max(0, self.first - size)
            self.cached_stops = self.stops_between(first, self.first, harts) + self.cached_stops
            self.first, size = first, size * MORE_BACK if not by_turns_alone else min(size * MORE_BACK, MOST_BY_TURNS)
            self.check_interrupt()
        halts = self.cached_before(present)
        if halts:
            position, halt = halts[-1]
            moves.go(position)
            self.prepare(position for position, _ in halts[-2:-2 - AHEAD:-1])
            if halt.message:
                moves.link.show(halt.message)
            return halt
        moves.go(0)
        at_break = present and moves.stops.is_break(moves.timeline, moves.view.registers(hart)[PC])  # a breakpoint at the first instruction
        return Halt(hart, "" if at_break else AT_RESET)

    def cached_before(self, present: int) -> list[tuple[int, Halt]]:
        """Returns the cached stops before step `present`, and a watchpoint at it."""
        return [(position, halt) for position, halt in self.cached_stops if position < present + bool(halt.reason)]

    def stops_between(self, first: int, end: int, harts: Sequence[int]) -> list[tuple[int, Halt]]:
        """Searches the stops of these harts after step `first`, up to step `end`; returns each with the number of its step."""
        moves = self.moves
        halts: dict[int, Halt] = {}
        actions = list(actions_between(moves.timeline.past, first, end))
        if not moves.stops.is_single and not self.may_stop(first, actions):
            return []
        with moves.timeline.again(first) as ahead:
            ahead.set_stops(moves.timeline.stops)
            for step in steps_of(ahead, actions):
                if moves.stops.is_single:
                    halts.update(self.single_stops(ahead, step))
                elif moves.stops.has_conditions and step.chosen:
                    halts.update(self.judged_stops(ahead, step))
                else:
                    halts.update(self.stops_by_turns(ahead, step))
        return sorted(((position, halt) for position, halt in halts.items() if halt.hart in harts), key=lambda it: it[0])

    def may_stop(self, first: int, actions: Sequence[Action]) -> bool:
        """Returns whether there may be a stop in actions from step `first` on. Checks steps of two harts; steps of one hart are searched at once."""
        if all(action.chosen for action in actions):
            return True
        with self.moves.timeline.again(first) as ahead:
            ahead.set_stops(self.moves.timeline.stops)
            is_quiet = self.moves.stops.is_quiet(ahead)
            return any(ran.steps < count or self.moves.stops.may_meet(ahead, ran, "") for step in steps_of(ahead, actions)
                       for _, count, ran in query_steps(ahead, step.turns, step.count, is_single=False, is_quiet=is_quiet))

    def stops_by_turns(self, ahead: Timeline, steps: ScheduledSteps) -> Iterator[tuple[int, Halt]]:
        """Yields the stops in steps of the past, with an exchange for each run."""
        for halt in by_turns(ahead, self.moves.stops, steps.turns, steps.count):
            self.check_interrupt()
            if halt:
                yield ahead.position, halt

    def judged_stops(self, ahead: Timeline, steps: ScheduledSteps) -> Iterator[tuple[int, Halt]]:
        """Yields the stops in steps of one hart with conditions, with many runs in one exchange."""
        hart, end = int(steps.turns), ahead.position + steps.count
        while ahead.position < end:
            self.check_interrupt()
            position = ahead.position
            for steps_done, ran, verdict in judged(ahead, self.moves.stops, hart, min(end - position, MOST_STEPS)):
                halt = Halt(hart) if verdict else None
                if verdict is None:
                    halt = self.halt_there(ahead, position + steps_done, hart, ran, before="")
                if halt:
                    yield position + steps_done, halt

    def single_stops(self, ahead: Timeline, steps: ScheduledSteps) -> Iterator[tuple[int, Halt]]:
        """Yields the stops in steps of the past that are checked one by one, with many steps in one exchange."""
        stops = self.moves.stops
        for block in blocks_of(ahead, [steps]):
            self.check_interrupt()
            position, worlds = ahead.position, list(ahead.worlds)
            for hart, _, ran in query_steps(ahead, block.turns, block.count, is_single=True):
                position += 1
                if stops.may_meet(ahead, ran, worlds[hart]):
                    halt = self.halt_there(ahead, position, hart, ran, worlds[hart])
                    if halt:
                        yield position, halt
                worlds[hart] = ran.world

    def halt_there(self, ahead: Timeline, position: int, hart: int, ran: Ran, before: str) -> Halt | None:
        """Returns the halt after a step, or None. Uses another bench if the halt depends on registers or memory at that step."""
        stops = self.moves.stops
        if not stops.needs_query(ran):
            return stops.halt_after(ahead, hart, ran, before)
        with ahead.again(position) as bench_at_step:
            bench_at_step.set_stops(self.moves.timeline.stops)
            return stops.halt_after(bench_at_step, hart, ran, before)
