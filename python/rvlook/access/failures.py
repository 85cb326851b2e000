"""The failures of a run: each trap that is neither a call nor an interrupt, and each call that the monitor refuses. Also the failures that an
author expects (--expect), and the report of all failures. A long run is not examined step by step. mcycle counts every step and minstret only
retired instructions, so their difference counts traps. One bench does parts of the run at full speed, and reads both counters after each part. A
second bench does the parts with traps in single steps. A third one reads the registers of calls."""
from __future__ import annotations

import itertools
import re
from bisect import bisect_right
from dataclasses import dataclass, replace
from typing import Iterable, Iterator, NamedTuple, Sequence

from rvlook.errors import UsageError, note, warn
from rvlook.image.detect import PAGE, extension_of
from rvlook.output.findings import ReportedCases
from rvlook.output.printer import Json, Printer, place_text
from rvlook.protocol import names
from rvlook.protocol.bench import Bench
from rvlook.protocol.nearest import nearest
from rvlook.protocol.replies import Location, Ran, register_values, step_of
from rvlook.protocol.run import Run
from rvlook.protocol.schedule import turns_of
from rvlook.protocol.symbols import Symbols
from rvlook.protocol.timeline import Line, steps_within

STEPS_PER_PART = 1 << 16  # steps between two reads of the counters
PARTS_PER_EXCHANGE = 16  # parts in one exchange
MAX_FAILURES = 100000  # failures after which the scan ends: a handler that fails itself traps at each step
COUNTERS = ("csr b00", "csr b02", "csr 320")  # mcycle, minstret and mcountinhibit
TRAPPED = re.compile(rb"trap=[0-9a-f]")  # in the reply to a step that trapped; without a trap a hyphen follows
ILLEGAL, INTERRUPT_DIGIT = "00000002", "8"  # the cause of an illegal instruction; the first digit of the cause of each interrupt
ECALLS = ("00000008", "00000009", "0000000b")  # the causes of an ecall from U, S and M
A0, A6, A7, REGISTERS = 10, 16, 17, 32  # numbers of registers; how many there are
CALL_REGISTERS = (A0, A6, A7)  # after a call, a0 has its status; a6 and a7 name the call
WORD_MASK = 0xFFFFFFFF
MAX_SHOWN = 20  # failures that are printed; each of them counts
CAUSES = [name for cause, name in names.CAUSES.items() if cause[0] == "0" and not name.startswith("ecall")]
FAILURE_NAMES = {name.lower(): name for name in (*names.STATUSES.values(), *CAUSES, *names.MARKS.values())}


class Turn(NamedTuple):
    """Commands that change the state, and then steps of a hart."""
    commands: tuple[str, ...]  # the commands without `step`
    hart: int  # the hart that steps
    steps: int  # the number of the steps


class Trapped(NamedTuple):
    """A step that trapped, with the location of its hart before it."""
    step: int  # the number of the step in the run
    hart: int  # the hart that did it
    at: Location  # the location of the hart before the step
    ran: Ran  # the decoded reply to the step


@dataclass(frozen=True)
class Failure:
    """A trap, or a refused call of the monitor, of an instruction."""
    name: str  # the name of the cause, or of the status
    step: int  # the number of the step in which it first occurred
    hart: int  # the hart that did this step
    at: Location  # pc, mode and world of the instruction
    value: str = ""  # the value of the first trap, hexadecimal digits; empty for a call
    call: str = ""  # the refused call; empty for a trap
    count: int = 1  # how often it occurred

    @property
    def key(self) -> tuple[object, ...]:
        """Returns the fields that are equal each time the failure occurs."""
        return self.name, self.at, self.call


def failures_of(run: Run, schedule: str, steps: int) -> list[Failure]:
    """Returns the failures in the first steps of a run, by step; `schedule` orders the steps of two harts after the script. Failures of one
    instruction with the same name are one. The scan ends after MAX_FAILURES of them."""
    failures: dict[tuple[object, ...], Failure] = {}
    with run.setup.bench() as leader, run.setup.bench() as follower, run.setup.bench() as reader:
        scan = Scan(run, LaggingBench(leader), LaggingBench(follower), LaggingBench(reader))
        for failure in itertools.islice(scan.failures(parts_of(turns(run, schedule, steps))), MAX_FAILURES):
            old = failures.get(failure.key)
            failures[failure.key] = failure if old is None else replace(old, count=old.count + 1)
    return sorted(failures.values(), key=lambda it: it.step)


def turns(run: Run, schedule: str, remaining: int) -> Iterator[Turn]:
    """Yields the first `remaining` steps of a run: those of the script, and then those of the schedule, or of the selected hart if it is empty."""
    pending: list[str] = []  # commands before the next step
    for item in run.plan:
        if isinstance(item, Line):
            if item.changes_state:
                pending.append(item.text)
            continue
        for hart, count in steps_within(item, 0, remaining).by_hart():
            yield Turn((*pending, *run.setup.choice(hart)), hart, count)
            pending, remaining = [], remaining - count
    turns_after_script = turns_of(schedule) if schedule else itertools.repeat((run.hart, STEPS_PER_PART))
    while remaining > 0:
        hart, count = next(turns_after_script)
        yield Turn((*pending, *run.setup.choice(hart)), hart, min(count, remaining))
        pending, remaining = [], remaining - count


def parts_of(turns_of_run: Iterable[Turn]) -> Iterator[list[Turn]]:
    """Yields turns in parts of at most STEPS_PER_PART steps; splits turns that are longer."""
    part: list[Turn] = []
    free_steps = STEPS_PER_PART  # how many more steps the part can have
    for turn in turns_of_run:
        while turn.steps > free_steps:
            part.append(turn._replace(steps=free_steps))
            turn = Turn(commands=(), hart=turn.hart, steps=turn.steps - free_steps)
            yield part
            part, free_steps = [], STEPS_PER_PART
        part.append(turn)
        free_steps -= turn.steps
    if part:
        yield part


class LaggingBench:
    """A bench that does the parts of a run. Parts that it skips are done before the next one that it examines."""
    def __init__(self, bench: Bench) -> None:
        self.bench = bench  # the bench that does the parts
        self.skipped: list[str] = []  # the commands of skipped parts

    def skip(self, part: Sequence[Turn]) -> None:
        """Leaves out a part until the next request."""
        self.skipped += full_speed_commands(part)

    def ask(self, commands: Sequence[str]) -> list[bytes]:
        """Runs the commands of the skipped parts and then these, each with a reply of one line; returns the replies to these."""
        return self.block("".join(command + "\n" for command in commands).encode(), len(commands)).split(b"\n")[:-1]

    def block(self, text: bytes, count: int) -> bytes:
        """Runs the commands of the skipped parts, and then commands whose replies have `count` lines; returns these replies."""
        skipped, self.skipped = self.skipped, []
        self.bench.replies_to(skipped)
        return self.bench.block(text, count) if count else b""


def full_speed_commands(part: Sequence[Turn]) -> list[str]:
    """Returns the commands that do a part at full speed, without a reply for each step."""
    return [line for turn in part for line in (*turn.commands, *(["step %d" % turn.steps] if turn.steps else []))]


class Scan:
    """A scan of a run with three benches."""
    def __init__(self, run: Run, leader: LaggingBench, follower: LaggingBench, reader: LaggingBench) -> None:
        self.leader, self.follower, self.reader = leader, follower, reader  # `follower` and `reader` lag behind `leader`
        self.harts = range(run.setup.harts)  # the numbers of the harts
        self.locations = [Location(run.pc, run.mode, run.world) for _ in self.harts]  # the location of each hart
        self.traps = [0 for _ in self.harts]  # how many traps each hart has taken, by its counters
        self.position = 0  # steps so far

    def failures(self, parts: Iterator[list[Turn]]) -> Iterator[Failure]:
        """Yields each failure in the parts of the run, in the order of steps."""
        while batch := list(itertools.islice(parts, PARTS_PER_EXCHANGE)):
            replies = iter(self.leader.ask([line for part in batch for line in [*full_speed_commands(part), *self.queries(part)]]))
            for part in batch:
                command_replies = [next(replies) for _ in full_speed_commands(part)]
                if self.is_quiet([next(replies) for _ in self.queries(part)]):
                    self.follower.skip(part)
                    self.reader.skip(part)
                    self.advance(part, command_replies)
                else:
                    position, starts = self.position, self.advance(part, command_replies)
                    yield from self.examine(part, position, starts)

    def queries(self, part: Sequence[Turn]) -> list[str]:
        """Returns the commands that read the counters of each hart after a part."""
        if len(self.harts) == 1:
            return list(COUNTERS)
        return [line for hart in self.harts for line in ("hart %d" % hart, *COUNTERS)] + ["hart %d" % part[-1].hart]

    def is_quiet(self, replies: Sequence[bytes]) -> bool:
        """Returns whether no step of a part trapped, by the replies to the queries after it. If the program inhibits a counter, returns False."""
        values = [int(reply[len(b"csr b00="):], 16) for reply in replies if reply.startswith(b"csr ")]  # three of each hart, see COUNTERS
        before, self.traps = self.traps, [cycles - retired & WORD_MASK for cycles, retired in zip(values[::3], values[1::3])]
        return before == self.traps and not any(values[2::3])

    def advance(self, part: Sequence[Turn], replies: Sequence[bytes]) -> list[Location]:
        """Updates position and locations of the harts after a part, by the replies to its commands. Returns where the hart of each turn was first."""
        step_replies, starts = iter([reply for reply in replies if reply.startswith(b"ran ")]), []
        for turn in part:
            starts.append(self.locations[turn.hart])
            if turn.steps:
                self.locations[turn.hart] = location_of(next(step_replies))
                self.position += turn.steps
        return starts

    def examine(self, part: Sequence[Turn], position: int, starts: Sequence[Location]) -> Iterator[Failure]:
        """Yields the failures of a part after a position, which it does in single steps. `starts` has where the hart of each turn is before it."""
        text = b"".join("".join(line + "\n" for line in turn.commands).encode() + b"step 1\n" * turn.steps for turn in part)
        trapped_steps = list(trapped_in(part, self.follower.block(text, text.count(b"\n")), position, starts))
        ecalls = [step for step in trapped_steps if step.ran.trap and step.ran.trap.cause == names.ECALL_FROM_S]
        calls = [step for step in ecalls if step.ran.world == step.at.world != "bare"]  # those that stay in their world may be refused
        failures_of_calls = dict(zip(calls, self.refused(part, position, calls)))
        for step in trapped_steps:
            failure = failures_of_calls[step] if step in failures_of_calls else trap_of(step)
            if failure:
                yield failure

    def refused(self, part: Sequence[Turn], position: int, calls: Sequence[Trapped]) -> list[Failure | None]:
        """Returns for each call of a part the failure, or None if the monitor accepted it. Reads its registers right after its step."""
        if not calls:
            self.reader.skip(part)
            return []
        commands, call_steps = [], [call.step for call in calls]
        for turn in part:
            commands += [*turn.commands, *commands_reading(turn, position, call_steps)]
            position += turn.steps
        values = register_values(reply for reply in self.reader.ask(commands) if reply.startswith(b"x"))
        failures = []
        for n, call in enumerate(calls):
            known_registers = dict(zip(CALL_REGISTERS, values[n * len(CALL_REGISTERS):]))
            registers = [known_registers.get(number, 0) for number in range(REGISTERS)]  # only CALL_REGISTERS matter
            failures.append(refused_call(call.step, call.hart, call.at, registers))
        return failures


def trapped_in(part: Sequence[Turn], block: bytes, position: int, starts: Sequence[Location]) -> Iterator[Trapped]:
    """Yields the steps of a part that trapped, from its replies. `starts` has where the hart of each turn is before it."""
    line_ends = list(itertools.accumulate(len(turn.commands) + turn.steps for turn in part))  # by turn: the number of the line after its replies
    positions = list(itertools.accumulate((turn.steps for turn in part), initial=position))  # by turn: the position of the run before it
    for number, line_before, line in trapping_lines(block):
        index = bisect_right(line_ends, number)  # of the turn with the step that trapped
        offset = number - line_ends[index] + part[index].steps  # steps of the turn before this step
        location = location_of(line_before) if offset else starts[index]
        yield Trapped(positions[index] + offset + 1, part[index].hart, location, step_of(line.decode()))


def trapping_lines(block: bytes) -> Iterator[tuple[int, bytes, bytes]]:
    """Yields each reply to a step that trapped: its line number from 0, the line before it, and the line."""
    number = at = 0
    for match in TRAPPED.finditer(block):
        number += block.count(b"\n", at, match.start())
        at = match.start()
        start = block.rfind(b"\n", 0, at) + 1
        before = block[block.rfind(b"\n", 0, start - 1) + 1:start - 1] if start else b""
        yield number, before, block[start:block.find(b"\n", at)]


def commands_reading(turn: Turn, position: int, steps: Sequence[int]) -> list[str]:
    """Returns the commands that do a turn from a position, and read CALL_REGISTERS after those of the steps that are in the turn. `steps` has the
    numbers of steps of the run in ascending order."""
    commands, steps_done = [], 0
    for step in steps[bisect_right(steps, position):bisect_right(steps, position + turn.steps)]:
        steps_to_call = step - position
        commands += ["step %d" % (steps_to_call - steps_done), *("reg %d" % number for number in CALL_REGISTERS)]
        steps_done = steps_to_call
    return commands + (["step %d" % (turn.steps - steps_done)] if steps_done < turn.steps else [])


def location_of(line: bytes) -> Location:
    """Returns where a hart is after a step. `line` is the reply to the step."""
    ran = step_of(line.decode())
    return Location(ran.pc, ran.mode, ran.world)


def trap_of(trapped: Trapped) -> Failure | None:
    """Returns the failure of a step that trapped, or None for a call or an interrupt."""
    assert trapped.ran.trap is not None
    cause, value = trapped.ran.trap.cause, trapped.ran.trap.value
    is_call_or_interrupt = cause in ECALLS or cause.startswith(INTERRUPT_DIGIT)
    return None if is_call_or_interrupt else Failure(names.trap_name(cause, value), trapped.step, trapped.hart, trapped.at, value)


def refused_call(step: int, hart: int, at: Location, registers: Sequence[int]) -> Failure | None:
    """Returns the failure of a call that stays in its world, or None if the monitor accepted it. `registers` has x0 to x31 after the call."""
    if registers[A0] not in names.STATUSES:
        return None
    call = names.call_of(registers)
    return Failure(names.STATUSES[registers[A0]], step, hart, at, call=call.name if call else "ecall")


def failure_text(failure: Failure, symbols: Symbols) -> str:
    """Returns a failure as a line: its name, place and count."""
    times = ", %d times" % failure.count if failure.count > 1 else ""
    where = (failure.at.mode, failure.at.world, failure.step, place_text(failure.at.pc, symbols) + times)
    if failure.call:
        return "%s refused with %s in %s of %s at step %d, %s" % (failure.call, failure.name, *where)
    extension = extension_of(int(failure.value, 16)) if failure.name == names.cause_name(ILLEGAL) else None
    value = "%s, %s, see %s" % (failure.value, extension, PAGE) if extension else failure.value
    return "%s (value %s) in %s of %s at step %d, %s" % (failure.name, value, *where)


def failure_object(failure: Failure, symbols: Symbols) -> dict[str, Json]:
    """Returns a failure as the members of an object."""
    pc = int(failure.at.pc, 16)
    return {"name": failure.name, "call": failure.call or None, "value": failure.value or None, "step": failure.step, "hart": failure.hart,
            "pc": failure.at.pc, "mode": failure.at.mode, "world": failure.at.world, "symbol": symbols.name(pc), "source": symbols.source(pc),
            "count": failure.count}


class Expectation(NamedTuple):
    """A failure that the user expects."""
    text: str  # the text that the user wrote
    name: str  # the name of a cause or of a status; empty: any
    place: str = ""  # function or address of the instruction; empty: any

    def has(self, failure: Failure, symbols: Symbols) -> bool:
        """Returns whether a failure has the expected name, at the expected place."""
        pc = int(failure.at.pc, 16)
        return self.name in ("", failure.name) and (not self.place or self.place == symbols.function(pc) or symbols.address(self.place) == pc)


def expectation_of(text: str, symbols: Symbols) -> Expectation:
    """Parses the value of --expect: a cause or a status, @PLACE, or both. Raises UsageError if the name or the place is unknown."""
    name, _, place = text.partition("@")
    failure_name = FAILURE_NAMES.get(" ".join(name.replace("-", " ").lower().split()), "")
    if not failure_name and (name or not place):
        near = nearest(name, FAILURE_NAMES)
        meant = ", such as '%s'" % FAILURE_NAMES[near] if near else ""
        raise UsageError("invalid --expect '%s' (expected @PLACE or the name of a trap or a status%s)" % (text, meant))
    if place and symbols.address(place) is None:
        raise UsageError("'%s' is neither a hexadecimal address nor a symbol" % place)
    return Expectation(text, failure_name, place)


class FailureReport:
    """The report of the failures of a run. Failures that the user does not expect are findings."""
    def __init__(self, expected: Sequence[Expectation], symbols: Symbols, printer: Printer, findings: ReportedCases) -> None:
        # `expected`: the values of --expect; `findings`: the cases of the subcommand
        self.expected, self.symbols, self.printer, self.findings = expected, symbols, printer, findings

    def show(self, failures: Sequence[Failure]) -> None:
        """Prints the failures: the expected ones as notes, the others as warnings."""
        self.printer.stream.flush()
        for number, failure in enumerate(failures):
            is_expected = any(expectation.has(failure, self.symbols) for expectation in self.expected)
            text = failure_text(failure, self.symbols)
            if not is_expected:
                self.findings.add(text, text)
            if self.printer.as_json:
                self.printer.object("failure", **failure_object(failure, self.symbols), expected=is_expected)
            elif number < MAX_SHOWN and is_expected:
                note("expected: " + text)
            elif number < MAX_SHOWN:
                warn(text)
        if len(failures) > MAX_SHOWN and not self.printer.as_json:
            warn("%d more traps and refused calls are not shown; use --json" % (len(failures) - MAX_SHOWN))
        if sum(failure.count for failure in failures) >= MAX_FAILURES:
            text = "the search for traps and refused calls ended after %d of them" % MAX_FAILURES
            self.findings.add("all failures", text)
            warn(text)

    def show_missing(self, failures: Sequence[Failure]) -> None:
        """Reports each expected failure that did not occur as a finding."""
        for expectation in self.expected:
            if not any(expectation.has(failure, self.symbols) for failure in failures):
                text = "--expect '%s': it did not occur" % expectation.text
                self.findings.add(text, text)
                warn(text)
