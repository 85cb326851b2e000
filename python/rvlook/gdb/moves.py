"""Runs harts forward under a debugger. Steps are done in few exchanges; if the bench passes a stop, another bench is brought to the stop by
the timeline.

Also sets pc for a debugger. rvbench has no command for it, so a jump instruction is written at pc and executed by one step. Then the bytes that
were there are restored."""
from __future__ import annotations

import struct
import time
from collections import deque
from typing import Container, Deque, NamedTuple, Sequence

from rvlook.errors import RvlookError
from rvlook.gdb.link import Link
from rvlook.gdb.lookahead import by_turns, ends_of, first_equal, judged, query_steps
from rvlook.gdb.stops import INTERRUPTED, PC, Halt, Stops, signal_of
from rvlook.gdb.view import CachedView
from rvlook.protocol import names
from rvlook.protocol.replies import Ran, bytes_of, poke_commands, value_of
from rvlook.protocol.run import HALTED_AFTER
from rvlook.protocol.schedule import TURN, alternating
from rvlook.protocol.timeline import MOST_STEPS, Action, ScheduledSteps, Timeline, actions_between

FIRST_RUN, MORE = 1024, 4  # steps of the first exchange of a continue, and the factor by which the next one may be longer
SHORT, LONG = 0.005, 0.02  # seconds: an exchange that took less is followed by a longer one, one that took more by a shorter one
MOST_BY_TURNS = 1 << 17  # the most steps of a part with a reply per step, or with a schedule
DISCARDED = "[the history after step %d is discarded]"
CAREFUL_STEPS = 4096  # steps with one exchange per run, after a stop that turned out to be none
REACH = 1 << 20  # bytes that a jump spans in each direction
JAL = 0x6F  # jal zero
SET = "[pc is set to %08x by a jump that was executed as step %d]"


class Start(NamedTuple):
    """The start of some steps."""
    position: int  # steps before it
    future: Deque[Action]  # the actions that follow
    worlds: list[str]  # the world of each hart; the caller updates it after each step


class Moves:
    """Runs the harts forward for a debugger, and brings them to earlier steps."""

    def __init__(self, timeline: Timeline, link: Link) -> None:
        self.timeline, self.view, self.link, self.stops = timeline, CachedView(timeline), link, Stops()  # `link`: the connection
        self.schedule = timeline.setup.schedule or alternating(TURN)  # the schedule of the harts that run
        self.ready: dict[int, Timeline] = {}  # benches that wait at earlier steps, by their positions
        self.follower: Timeline | None = None  # a bench that follows `timeline` to stops that `timeline` has passed; None without one
        self.careful_steps = 0  # steps that still have one exchange per run
        self.notes: list[str] = []  # the notes for the user, not shown yet
        self.stops_after_watch = False  # whether the debugger expects a watchpoint to halt after the access

    def close(self) -> None:
        """Ends all benches."""
        self.discard(0)
        self.timeline.close()

    def discard(self, position: int) -> None:
        """Ends the other benches that are at step `position` or after it, since their history may no longer be valid."""
        for ready in [key for key in self.ready if key >= position]:
            self.ready.pop(ready).close()
        if self.follower and self.follower.position >= position:
            self.follower.close()
            self.follower = None

    def go(self, position: int) -> None:
        """Goes to an earlier step: replaces the bench by one that waits there, by the following bench, or by a new one."""
        if position == self.timeline.position:
            return
        timeline = self.ready.pop(position, None) or self.followed(position) or self.timeline.again(position)
        timeline.take_future(self.timeline)
        timeline.set_stops(self.timeline.stops)
        self.timeline.close()
        self.timeline, self.view = timeline, CachedView(timeline)
        self.discard(position)

    def apply(self, lines: Sequence[str]) -> None:
        """Runs commands of the user that change registers or bytes. They become part of the history, and the future is discarded."""
        self.discard(self.timeline.position)
        had_command = self.timeline.has_command
        self.timeline.do_all(lines)
        if had_command and not self.timeline.has_command:
            self.notes.append(DISCARDED % self.timeline.position)

    def show_notes(self) -> None:
        """Shows the pending notes in the debugger."""
        for note in self.notes:
            self.link.show(note)
        self.notes = []

    def redo(self) -> None:
        """Repeats the commands of the future at this step."""
        if self.timeline.redo():
            self.discard(self.timeline.position)

    def followed(self, position: int) -> Timeline | None:
        """Returns the following bench, brought to a step; None if it is past that step."""
        follower = self.follower if self.follower and self.follower.position <= position else None
        if follower:
            follower.follow(actions_between(self.timeline.past, follower.position, position))
            self.follower = None
        return follower

    def follow(self) -> None:
        """Brings the following bench to the present step, or starts one there."""
        if self.follower:
            self.follower.settle()
            self.follower.follow(actions_between(self.timeline.past, self.follower.position, self.timeline.position))
        else:
            self.follower = self.timeline.again(self.timeline.position)

    def turns_of(self, harts: Sequence[int]) -> str:
        """Returns the schedule of these harts from the next step on: the digits of the harts that step in turn."""
        return str(harts[0]) if len(harts) == 1 else self.timeline.turns_of(self.schedule)

    def turn_of(self, hart: int) -> str:
        """Returns the schedule if its next step is of this hart; else the hart alone."""
        turns = self.timeline.turns_of(self.schedule) if self.timeline.setup.harts > 1 else ""
        return turns if turns.startswith(str(hart)) else str(hart)

    # one step

    def step(self, hart: int, others: Sequence[int], addresses: Container[int] = ()) -> Halt:
        """Steps a hart once, or until its pc is not among `addresses`. The other harts run by the schedule meanwhile. Returns the halt."""
        last_ran, equal_steps = None, 0
        while True:
            self.redo()
            turns = self.turns_of([hart, *others])
            halt = self.exactly(turns, turns.index(str(hart))) if str(hart) in turns else None
            if halt:
                return self.halt_at(halt)
            before = self.timeline.worlds[hart]
            ran = self.view.step(hart, self.turn_of(hart))
            halt = self.stops.halt_after(self.timeline, hart, ran, before) if ran.why != "done" else None
            if halt and halt.reason:
                return self.halt_at(halt)
            self.show_step(ran, before)
            equal_steps = equal_steps + 1 if ran == last_ran else 0
            last_ran = ran
            if halt or ran.trap or int(ran.pc, 16) not in addresses or self.stops.is_break(self.timeline, ran.pc):
                return Halt(hart)
            if equal_steps >= HALTED_AFTER:
                return self.halt_at(self.halted([hart], hart, ran))
            if self.link.interrupted():
                return Halt(hart, signal=INTERRUPTED)

    def show_step(self, ran: Ran, before: str) -> None:
        """Shows the trap of a step, and its switch to another world."""
        if ran.trap:
            self.link.show("[%s, %s]" % (names.cause_name(ran.trap.cause), ran.trap.value))
        if ran.world != before:
            self.link.show("[switch to %s]" % ran.world)

    # many steps

    def go_on(self, harts: Sequence[int]) -> Halt:
        """Runs these harts by the schedule, to a stop, to Ctrl-C, or until all have halted."""
        size, by_turns, self.careful_steps = FIRST_RUN, len(harts) > 1 or self.stops.is_single, 0  # `size`: steps of the next exchange
        while True:
            self.redo()
            if by_turns or self.stops.watches or self.stops.has_conditions:
                self.follow()
            first, began, room = self.timeline.position, time.monotonic(), self.timeline.steps_to_command()
            size = size if by_turns or not self.stops.has_conditions else MOST_STEPS  # each breakpoint that is met ends a part
            halt = self.advance(self.turns_of(harts), min(size, room or size))
            if not halt and room is None and not self.careful_steps > 0:
                halt = self.end_of(harts, first)
            if halt:
                return self.halt_at(halt)
            if self.link.interrupted():
                return Halt(harts[0], signal=INTERRUPTED)
            took = time.monotonic() - began
            if took < SHORT:
                size = min(size * MORE, MOST_BY_TURNS if by_turns else MOST_STEPS)
            elif took > LONG:
                size = max(FIRST_RUN, size // 2)

    def advance(self, turns: str, count: int) -> Halt | None:
        """Runs at most `count` steps; returns the halt if there is one before."""
        if len(set(turns)) == 1 and not self.stops.is_single and not self.stops.has_conditions or self.careful_steps > 0:
            self.careful_steps -= count
            return self.exactly(turns, count, LONG)
        start, steps_done = self.start(), 0
        if len(set(turns)) == 1 and not self.stops.is_single:
            for steps_done, ran, verdict in judged(self.timeline, self.stops, int(turns[0]), count):
                if verdict is not False:
                    return self.met_at(start, ScheduledSteps(turns, steps_done), int(turns[0]), ran)
            return None
        for hart, wanted, ran in query_steps(self.timeline, turns, count, self.stops.is_single, self.stops.is_quiet(self.timeline)):
            steps_done += ran.steps
            if ran.steps < wanted or self.stops.may_meet(self.timeline, ran, start.worlds[hart]):
                return self.met_at(start, ScheduledSteps(turns, steps_done), hart, ran)
            start.worlds[hart] = ran.world
        return None

    def start(self) -> Start:
        """Returns the present step as the start of further steps."""
        return Start(self.timeline.position, deque(self.timeline.future), list(self.timeline.worlds))

    def met_at(self, start: Start, steps: ScheduledSteps, hart: int, ran: Ran) -> Halt | None:
        """Returns the halt after `steps` from `start`, or None; brings the bench back if it went further. `ran` is the reply to the last run."""
        if self.timeline.position != start.position + steps.count:
            self.go(start.position + steps.count)
            self.timeline.future = start.future
            self.timeline.spend(steps)
        self.careful_steps = CAREFUL_STEPS
        return self.stops.halt_after(self.timeline, hart, ran, start.worlds[hart])

    def exactly(self, turns: str, count: int, seconds: float | None = None) -> Halt | None:
        """Does at most `count` steps of a schedule, with an exchange for each run, for at most `seconds`; returns the halt, or None."""
        began = time.monotonic()
        for halt in by_turns(self.timeline, self.stops, turns, count):
            if halt or seconds and time.monotonic() > began + seconds:
                return halt
        return None

    def halt_at(self, halt: Halt) -> Halt:
        """Shows the message of a halt, and returns the halt. Goes back before the access of a watchpoint, as gdb on RISC-V expects; lldb does not."""
        if halt.message:
            self.link.show(halt.message)
        if halt.reason and not self.stops_after_watch:
            self.go(self.timeline.position - 1)
        return halt

    def end_of(self, harts: Sequence[int], first: int) -> Halt | None:
        """Returns the halt at the first step after `first` from which these harts are halted, or None."""
        turns, start = self.turns_of(harts), self.start()
        answered_steps = query_steps(self.timeline, turns, HALTED_AFTER * len(turns), is_single=True)
        for steps_done, (hart, _, ran) in enumerate(answered_steps, 1):
            if self.stops.may_meet(self.timeline, ran, start.worlds[hart]):
                halt = self.met_at(start, ScheduledSteps(turns, steps_done), hart, ran)
                if halt or steps_done < len(answered_steps):
                    return halt
            start.worlds[hart] = ran.world
        ends = ends_of(answered_steps)
        if ends is None:
            return None
        self.go(first_equal(self.timeline, first, ends))
        return self.halted(harts, answered_steps[-1][0], answered_steps[-1][2])

    def halted(self, harts: Sequence[int], hart: int, ran: Ran) -> Halt:
        """Returns the halt, on `hart`, of harts that make no progress: they repeat one step, whose reply is `ran`."""
        cause = ran.trap and ran.trap.cause
        who = "hart %d halts" % hart if len(harts) == 1 else "all harts halt"
        text = "[%s at %s%s]" % (who, ran.pc, ": " + names.cause_name(cause) if cause else "")
        if ran.world == "bare" and int(self.view.registers(hart)[17], 16) == names.KEY:
            text += "\n[a7 holds the key of monitor calls, but there is no monitor; start with ./rvlook gdb --monitor]"
        return Halt(hart, signal=signal_of(ran.trap), message=text)


def jump_word(distance: int) -> int:
    """Encodes `jal zero, distance` (Unprivileged 2.5); the distance is even and within REACH."""
    bits = distance & 0x1FFFFF
    return (bits >> 20 & 1) << 31 | (bits >> 1 & 0x3FF) << 21 | (bits >> 11 & 1) << 20 | (bits >> 12 & 0xFF) << 12 | JAL


def set_pc(moves: Moves, target: int) -> None:
    """Sets pc of the selected hart by a step of its own, which becomes part of the history. Raises RvlookError if no jump leads there."""
    timeline = moves.timeline
    pc = value_of(timeline.ask("regs")[0][PC])
    if target == pc:
        return
    if target % 4 or not -REACH <= target - pc < REACH:
        raise RvlookError("cannot set pc to %08x: a jump reaches multiples of 4 within 1 MiB of %08x" % (target, pc))
    allowed = timeline.ask("access %s x %x 4" % (timeline.modes[timeline.hart], pc))[0][0]
    if not allowed.startswith("allowed"):
        raise RvlookError("cannot set pc: %08x, where a jump would be written, cannot be executed (%s)" % (pc, allowed))
    old_bytes = bytes_of(timeline.ask("mem %x 4" % pc)[0][0])
    jump_bytes = struct.pack("<I", jump_word(target - pc))
    moves.apply([*poke_commands(pc, jump_bytes), "step 1", *poke_commands(pc, old_bytes)])
    if value_of(timeline.ask("regs")[0][PC]) != target:
        raise RvlookError("cannot set pc to %08x: the hart took an interrupt first" % target)
    moves.notes.append(SET % (target, timeline.position))
