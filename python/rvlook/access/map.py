"""The changes of access rights in a run, and the rights after each. Under the monitor only a call or the timer's stop reprograms the PMP
entries, and both trap, so only steps that trapped are examined. On the bare bench only an instruction on a PMP register writes an entry, so
only the steps of these instructions are examined."""
from __future__ import annotations

import re
from bisect import bisect_right
from typing import Iterator, NamedTuple, Optional, Sequence

from rvlook.access.failures import Failure, refused_call
from rvlook.access.ranges import Range, Verdicts, derived_rights, meaning, table_boundaries, verdicts_of
from rvlook.protocol import names
from rvlook.protocol.reader import Need, Reader
from rvlook.protocol.replies import Enclave, Location, Ran, enclave_of, register_values, step_of
from rvlook.protocol.run import End, Run
from rvlook.protocol.stretch import Stretch
from rvlook.protocol.timeline import Timeline

CALLED = re.compile(rb"trap=(?:00000009|80000007):")  # in the reply to a step that an ecall from S or the timer interrupt ended
A0, A1 = 10, 11  # numbers of registers
ENTRY_WRITTEN = re.compile(rb" csrr\w+ x\d+, 0x3[ab][0-9a-f],")  # pmpcfg0 to pmpaddr15, by the text of dis


class Column(NamedTuple):
    """A world whose access rights are shown."""
    name: str  # the name of the column
    world: str
    hart: Optional[int]  # the hart on which the world runs; None: on no hart, so the rights are derived

    @property
    def derived(self) -> bool:
        """Returns whether the world runs on no hart, so that its access is derived from the table."""
        return self.hart is None


class Row(NamedTuple):
    """A range of RAM with the access rights to it."""
    range: Range
    what: str  # the meaning of the range; empty on the bare bench
    may: dict[str, dict[str, str]]  # rights, such as `rw-`, by the name of the column and by mode


class Event(NamedTuple):
    """A change of access rights, and the rights after it."""
    step: int  # number of the step that changed them; 0 for the reset
    hart: int  # the hart that did the step
    cause: str  # reset, pmp, timer, or the name of a call
    slot: Optional[int]  # the slot of the enclave; None if there is none
    status: Optional[str]  # the status of the call, 8 hexadecimal digits; None if it has none
    text: Optional[str]  # the instruction; None if it is not known
    pc: str  # the pc of the instruction, 8 hexadecimal digits
    mode: str  # the mode after the step
    world: str  # the world after the step
    enclaves: tuple[Enclave, ...]  # the enclave table after the step
    columns: tuple[Column, ...]  # the worlds whose rights are shown
    rows: tuple[Row, ...]  # all ranges of RAM with their rights


class RightsState(NamedTuple):
    """The state that decides access rights."""
    entries: tuple[tuple[str, ...], ...]  # the replies of `pmp` for each hart
    worlds: tuple[str, ...]  # the world of each hart
    enclaves: tuple[Enclave, ...]  # the enclave table


class Cause(NamedTuple):
    """The cause of an event. The fields that do not apply are None."""
    name: str  # reset, pmp, timer, or the name of a call
    slot: Optional[int] = None  # the slot of the enclave
    status: Optional[str] = None  # the status of the call, 8 hexadecimal digits
    text: Optional[str] = None  # the instruction


def events(run: Run) -> Iterator[Event | End]:
    """Yields an Event for the state at reset and for each change of access rights, and then the End."""
    return (event for event in events_and_refusals(run) if not isinstance(event, Failure))


def events_and_refusals(run: Run) -> Iterator[Event | Failure | End]:
    """Yields the items of `events`, and each call that the monitor refuses."""
    finder = EventFinder(run)
    with run.replay() as replay:
        yield finder.at_reset(replay)
        for item in (changed_steps(run) if run.setup.monitor else changed_entries(run)):
            event = item if isinstance(item, End) else finder.at_step(replay, *item)
            if event:
                yield event


def changed_steps(run: Run) -> Iterator[tuple[int, int] | End]:
    """Yields the number and the hart of each step that called the monitor or was stopped by the timer, and then the End."""
    for item in run.stretches():
        if isinstance(item, End):
            yield item
        elif isinstance(item, Stretch):
            for number in matching_lines(CALLED, item.data):
                yield item.first + number, item.hart


def changed_entries(run: Run) -> Iterator[tuple[int, int] | End]:
    """Yields the number and the hart of each step of a bare run that may have written a PMP entry, and then the End."""
    with Reader(run, written_entry) as reader:
        for item in run.stretches():
            if isinstance(item, End):
                yield item
            elif isinstance(item, Stretch):
                yield from ((item.first + number, item.hart) for number in reader.read(item).indices)


def written_entry(line: bytes) -> Need[bytes] | None:
    """Returns the reply of `dis` if its instruction accesses a PMP register, else None. The step needs no register."""
    return (line, (), False) if ENTRY_WRITTEN.search(line) else None


def matching_lines(pattern: re.Pattern[bytes], block: bytes) -> Iterator[int]:
    """Yields the numbers of the lines that match a pattern, each number at most once."""
    counted_to = number = 0  # the index up to which line ends are counted, and their number
    for match in pattern.finditer(block):
        number += block.count(b"\n", counted_to, match.start())
        counted_to = match.start()
        yield number


class EventFinder:
    """Finds the events among the steps, and caches the replies of `access` for PMP entries."""
    def __init__(self, run: Run) -> None:
        self.run, self.setup = run, run.setup  # the run with its configuration
        self.verdicts: dict[tuple[str, ...], list[Verdicts]] = {}  # the verdicts by the replies of `pmp`
        self.state = RightsState(entries=(), worlds=(), enclaves=())  # nothing is known yet

    def at_reset(self, replay: Timeline) -> Event:
        """Returns the event at reset."""
        self.state = self.state_of(replay, [self.run.world] * self.setup.harts)
        return self.event(step=0, hart=0, cause=Cause("reset"), location=Location(self.run.pc, self.run.mode, self.run.world))

    def at_step(self, replay: Timeline, step: int, hart: int) -> Event | Failure | None:
        """Returns the event after a step, or a refused call; None if nothing has changed."""
        bench = replay.bench
        before = bench.ask(*replay.lines_to(step - 1), *replay.lines_up_to_next(), "regs")[-1]
        pc = before[32][len("pc="):]  # the line after x0 to x31
        text = bench.one("dis " + pc).split(" ", 2)[-1]
        *_, ran_line, after = bench.ask(*replay.lines_to(step), "regs")
        ran = step_of(ran_line[0])
        state = self.state_of(replay, [*self.state.worlds[:hart], ran.world, *self.state.worlds[hart + 1:]])
        if state == self.state:
            world = state.worlds[hart]
            return refused_call(step, hart, Location(pc, ran.mode, world), register_values(after)) if world != "bare" else None
        old_state, self.state = self.state, state
        cause = cause_of(ran, old_state, hart, register_values(before), register_values(after), text)
        return self.event(step, hart, cause, Location(pc, ran.mode, ran.world))

    def state_of(self, replay: Timeline, worlds: Sequence[str]) -> RightsState:
        """Reads the PMP entries of each hart and the table of enclaves. Queries the access rights only for entries that are new."""
        bench, entries = replay.bench, []
        for hart in range(self.setup.harts):
            lines = tuple(bench.ask(*self.setup.choice(hart), "pmp")[-1])
            if lines not in self.verdicts:
                self.verdicts[lines] = verdicts_of(bench, lines, self.setup.modes, self.setup.ram)
            entries.append(lines)
        table = bench.ask(*self.setup.choice(replay.hart), "enclaves")[-1]
        return RightsState(tuple(entries), tuple(worlds), tuple(map(enclave_of, table)))

    def event(self, step: int, hart: int, cause: Cause, location: Location) -> Event:
        """Returns the event after step `step`, in the present state. `location` is the pc before the step, and mode and world after it."""
        columns = self.columns()
        return Event(step, hart, cause.name, cause.slot, cause.status, cause.text, *location, self.state.enclaves, columns, tuple(self.rows(columns)))

    def columns(self) -> tuple[Column, ...]:
        """Returns a column for the world of each hart, and one for each world that runs on no hart."""
        worlds = self.state.worlds
        running = [Column("hart %d: %s" % (hart, world) if len(worlds) > 1 else world, world, hart) for hart, world in enumerate(worlds)]
        all_worlds = ["host"] + [enclave.world for enclave in self.state.enclaves] if self.setup.monitor else []
        return tuple(running + [Column(world, world, hart=None) for world in all_worlds if world not in worlds])

    def rows(self, columns: Sequence[Column]) -> Iterator[Row]:
        """Yields the ranges between all boundaries: those of the PMP entries, and those of the table of enclaves."""
        by_hart = [self.verdicts[lines] for lines in self.state.entries]
        ends = table_boundaries(self.state.enclaves, self.setup.ram) if self.setup.monitor else set()
        for verdicts in by_hart:
            ends.update(verdict.range.first for verdict in verdicts)
            ends.add(verdicts[-1].range.end)
        boundaries = sorted(ends)
        starts = [[verdict.range.first for verdict in verdicts] for verdicts in by_hart]
        for first, end in zip(boundaries, boundaries[1:]):
            may: dict[str, dict[str, str]] = {}
            for column in columns:
                if column.hart is None:
                    may[column.name] = dict.fromkeys(self.setup.modes, derived_rights(column.world, self.state.enclaves, first))
                else:
                    index = bisect_right(starts[column.hart], first) - 1
                    may[column.name] = by_hart[column.hart][index].may
            owner = meaning(self.state.enclaves, first) if self.setup.monitor else ""
            yield Row(Range(first, end), owner, may)


def cause_of(ran: Ran, old: RightsState, hart: int, before: Sequence[int], after: Sequence[int], text: str) -> Cause:
    """Returns the cause of a step that changed the access rights. `before` and `after` have x0 to x31 before and after the step, `text` the
    instruction, and `old` the state before the step."""
    world = old.worlds[hart]
    if world == "bare":
        return Cause("pmp", text=text)
    status = "%08x" % after[A0]
    assert ran.trap is not None
    if ran.trap.cause == names.TIMER:
        return Cause("timer", int(world[1:]), status)
    call = names.call_of(before)
    assert call is not None
    if world != "host":
        return Cause(call.name, int(world[1:]), status)
    if call is names.Call.create:
        return Cause("create", slot=after[A1], status=status, text=text)
    has_entered = call in (names.Call.run, names.Call.resume)  # then a0 is the enclave's, and no status
    return Cause(call.name, slot=before[A0], status=None if has_entered else status, text=text)
