"""A run: what its script does, step by step. The script is run once unchanged, which shows the number of steps of each `run`. From then on every
step can be done alone: a `run` is as many single steps, and `sched` is a step of the hart that each digit names."""
from __future__ import annotations

import copy
from dataclasses import dataclass, field, replace
from itertools import islice
from typing import AnyStr, Iterable, Iterator, NamedTuple, Sequence

from rvlook.protocol.bench import Bench
from rvlook.protocol.bench_line import has_reply, tokens_of
from rvlook.protocol.commands import INPUT_REPLIES, input_error
from rvlook.errors import BenchEnded, RvlookError, Unfinished
from rvlook.protocol.inputs import Image, ScriptLine
from rvlook.protocol.memory_map import MONITOR_END, RAM_BASE
from rvlook.protocol.replies import NO_TRAP, RanFields, ran_of, step_of
from rvlook.protocol.schedule import turns_of
from rvlook.protocol.stretch import Stretch
from rvlook.protocol.symbols import Symbols
from rvlook.protocol.timeline import Line, ScheduledSteps, Timeline, steps_within

STEPS_PER_EXCHANGE = 16384  # `step 1` commands that are sent to the bench at once
MAX_CACHED_STEPS = 2000000  # a longer run is not cached; the reply to a step has some 60 bytes
HALTED_AFTER = 3  # equal replies (pc, mode, world and trap) after which a hart counts as halted
SINGLE_STEP = b"step 1\n"
OUTSIDE = "rvbench: image 9"  # the error of the bench for a segment that is not in RAM


@dataclass(frozen=True)
class Setup:
    """The configuration of a run."""
    image: Image  # the image that is loaded
    lines: tuple[ScriptLine, ...] = ()  # the lines of the script
    monitor: bool = False  # whether the security monitor runs
    ram: int = 1 << 20  # bytes
    kind: str = "auto"  # the kind of the image, see --kind
    harts: int = 1  # the number of harts, 1 or 2
    limit: int = 1000000  # the most steps after the script
    schedule: str = ""  # the schedule of the harts after the script: digits that repeat; empty for the chosen hart alone
    symbols: Symbols = field(default_factory=Symbols, compare=False)  # name addresses

    @property
    def script(self) -> tuple[str, ...]:
        """Returns the lines of the script in the syntax of the bench."""
        return tuple(line.text for line in self.lines)

    def arguments(self) -> list[str]:
        """Returns the arguments of the program."""
        arguments = ["run", "--ram", str(self.ram), "--kind", self.kind]
        if self.monitor:
            arguments.append("--monitor")
        return arguments + (["--harts", str(self.harts)] if self.harts > 1 else [])

    def with_script(self, lines: Iterable[str], limit: int) -> Setup:
        """Returns the configuration with another script, and at most `limit` steps after it."""
        return replace(self, lines=tuple(ScriptLine(line, "line %d" % at, line) for at, line in enumerate(lines, 1)), limit=limit)

    def bench(self) -> Bench:
        """Starts a bench with this configuration."""
        return Bench(self.arguments(), self.image.text, self.harts)

    def choice(self, hart: int) -> list[str]:
        """Returns the command that chooses a hart, if there are several."""
        return ["hart %d" % hart] if self.harts > 1 else []

    @property
    def modes(self) -> str:
        """Returns the modes in which an access can be checked."""
        return "SU" if self.monitor else "MSU"


class End(NamedTuple):
    """The end of a run: why it ended, and where its hart was."""
    steps: int  # the number of steps of the run
    why: str  # halted or limit
    pc: str  # eight hexadecimal digits
    mode: str  # the mode of the hart
    world: str  # the world of the hart


class Run:
    """The run of a setup: the plan of its script, and its single steps with their replies."""

    def __init__(self, setup: Setup) -> None:
        self.setup, self.hart, self.length = setup, 0, 0  # `hart`: chosen after the script; `length`: steps of the script
        self.plan: list[Line | ScheduledSteps] = []  # what the script does, and the steps by a schedule after it
        self.errors: list[tuple[ScriptLine, str]] = []  # lines that rvbench rejected, with its replies
        self.mode, self.world = ("S", "host") if setup.monitor else ("M", "bare")  # mode and world of a hart at reset
        self.cached: list[Line | Stretch | End] = []  # the items that `stretches` has yielded
        self.is_cached = False  # whether `cached` has the whole run
        self.ended: str | None = None  # why the run ended, if the plan has its steps after the script
        with setup.bench() as bench:
            self.pc = bench.ask("regs")[0][32][3:]  # the pc at reset, eight hexadecimal digits
            for line in setup.lines:
                self.play(bench, line)
            if setup.schedule:
                self.add_turns(bench)

    def play(self, bench: Bench, given: ScriptLine) -> None:
        """Runs a line of the script on the bench, and adds what it does to the plan."""
        if not has_reply(given.text):
            return
        tokens = tokens_of(given.text)
        replies = bench.ask(given.text)[0]
        is_refused = bool(replies) and replies[0].startswith("error ")
        ran = ran_of(replies[0]) if replies else None
        if is_refused:
            self.errors.append((given, replies[0]))
        if ran:
            self.add_steps(str(self.hart), ran.steps)
        elif tokens and tokens[0] == "sched" and not is_refused:
            self.add_steps(tokens[1], len(tokens[1]))
            self.plan.append(Line("hart %d" % self.hart, self.hart, hidden=True))  # a `sched` does not change the chosen hart; its single steps do
        else:
            if tokens and tokens[0] == "hart" and not is_refused:
                self.hart = int(tokens[1])
            self.plan.append(Line(given.text, self.hart, tuple(replies), given=given.given))

    def add_steps(self, turns: str, count: int) -> None:
        """Adds steps of a schedule to the plan."""
        if count:
            self.plan.append(ScheduledSteps(turns, count))
            self.length += count

    def add_turns(self, bench: Bench) -> None:
        """Adds the steps after the script by the schedule, to the limit or until every hart has halted."""
        remaining = self.setup.limit
        last_replies, equal = [b""] * self.setup.harts, [0] * self.setup.harts  # `equal`: equal replies in succession
        for hart, turn in turns_of(self.setup.schedule):
            count = min(turn, remaining)
            if not count or min(equal) >= HALTED_AFTER:
                break
            replies = bench.block(b"hart %d\n" % hart + SINGLE_STEP * count, 1 + count).splitlines()[1:]
            repeated = equal_at_end(replies)
            is_same = repeated == count and replies[0] == last_replies[hart]
            last_replies[hart], equal[hart] = replies[-1], repeated + (equal[hart] if is_same else 0)
            self.hart = hart
            remaining -= count
        self.add_steps(self.setup.schedule, self.setup.limit - remaining)
        self.ended = "halted" if min(equal) >= HALTED_AFTER else "limit"

    def with_lines(self, step: int, lines: Sequence[str]) -> Run:
        """Returns a run that also has these lines, right after a step; the lines of the script stay at their steps."""
        other = copy.copy(self)
        other.plan, other.cached, other.is_cached = [], [], False
        position, is_missing = 0, True  # steps in the plan so far; whether the lines are still to be added
        for item in self.plan:
            count = item.count if isinstance(item, ScheduledSteps) else 0
            if isinstance(item, ScheduledSteps) and is_missing and position < step <= position + count:
                before, after = steps_within(item, 0, step - position), steps_within(item, step - position, count)
                other.plan += [before, *hidden_lines(lines, before.last), *([after] if after.count else [])]
                is_missing = False
            else:
                other.plan.append(item)
            position += count
        if is_missing:
            if step > position:
                other.plan.append(ScheduledSteps(str(self.hart), step - position))
            other.plan += hidden_lines(lines, self.hart)
            other.setup = replace(self.setup, limit=max(0, self.setup.limit - (step - position)))
        return other

    def stretches(self) -> Iterator[Line | Stretch | End]:
        """Yields the run: Line for a line of the script, Stretch for single steps, and End. A run that is not too long is run once."""
        if self.is_cached:
            yield from self.cached
            return
        is_short = self.length + self.setup.limit <= MAX_CACHED_STEPS
        cached = self.cached = []
        locations: list[RanFields] = [(self.pc.encode(), self.mode.encode(), self.world.encode(), NO_TRAP)] * self.setup.harts
        for item in self.single_steps():
            if isinstance(item, Stretch):
                item.before, locations[item.hart] = locations[item.hart], item.last
            if is_short:
                cached.append(item)
            yield item
        self.cached, self.is_cached = cached, is_short

    def reply(self, step: int) -> str:
        """Returns the reply of the bench to a single step."""
        for item in self.cached:
            if isinstance(item, Stretch) and item.first <= step < item.first + item.count:
                return item.data.splitlines()[step - item.first].decode()
        with self.replay() as replay:
            replay.go(step - 1)
            return replay.go(step) or ""

    def single_steps(self) -> Iterator[Line | Stretch | End]:
        """Yields the run as `stretches` does, without the locations before the stretches. Runs it on a new bench in single steps."""
        with self.setup.bench() as bench:
            position, hart = 0, 0
            last = ("ran 0 pc=%s mode=%s world=%s why=done trap=-" % (self.pc, self.mode, self.world)).encode()
            for item in self.plan:
                if isinstance(item, Line):
                    if item.changes_state:
                        bench.ask(item.text)
                    hart = item.hart
                    yield item
                    continue
                for step in single_steps(bench, position, hart, item):
                    hart, last, position = step.hart, step.data, position + step.count
                    yield step
            yield from self.tail(bench, position, hart, last)

    def tail(self, bench: Bench, position: int, hart: int, last: bytes) -> Iterator[Stretch | End]:
        """Yields the steps after the script, until the hart has halted or the limit is reached, and then the end. `last` is the reply before them.
        The last replies of an exchange are held back: if they begin HALTED_AFTER equal ones, only the first of these is a step of the run."""
        held_replies, held_steps, remaining = b"", 0, 0 if self.ended else self.setup.limit
        why = self.ended or "limit"
        while remaining > 0 and why == "limit":
            count = min(remaining, STEPS_PER_EXCHANGE)
            remaining -= count
            data = held_replies + bench.block(SINGLE_STEP * count, count)
            equal = equal_lines_at_end(data)
            if equal >= HALTED_AFTER:
                why, pending_steps = "halted", equal - 1
            else:
                pending_steps = HALTED_AFTER - 1 if remaining else 0
            end_of_part = begin_of_last(pending_steps, data)
            data, held_replies = data[:end_of_part], data[end_of_part:]
            yielded_steps, held_steps, last = held_steps + count - pending_steps, pending_steps, data or last
            yield Stretch(position + 1, hart, data, yielded_steps)
            position += yielded_steps
        ran = step_of(last.splitlines()[-1].decode())
        yield End(position, why, ran.pc, ran.mode, ran.world)

    def replay(self) -> Timeline:
        """Starts the run again from reset."""
        return Timeline(self.setup, future=(action for action in self.plan if isinstance(action, ScheduledSteps) or action.changes_state))


def equal_at_end(lines: Sequence[AnyStr]) -> int:
    """Returns how many lines at the end are equal to the last one, at least 1."""
    count = 1
    while count < len(lines) and lines[-1 - count] == lines[-1]:
        count += 1
    return count


def equal_lines_at_end(data: bytes) -> int:
    """Does what `equal_at_end` does, for replies to single steps in one text. It relies on this: no such reply is the end of another one."""
    start = begin_of_last(1, data)
    line, count = data[start:], 1
    while start and data.endswith(line, 0, start):
        start -= len(line)
        count += 1
    return count


def begin_of_last(count: int, data: bytes) -> int:
    """Returns the offset at which the last `count` lines of a text begin. Each line ends with a line feed."""
    at = len(data)
    for _ in range(count):
        at = data.rfind(b"\n", 0, at - 1) + 1
    return at


def hidden_lines(lines: Iterable[str], hart: int) -> list[Line]:
    """Returns commands as lines that the script does not have. `hart` is the chosen hart before them."""
    hidden = []
    for line in lines:
        if line.startswith("hart "):
            hart = int(line[5:])
        hidden.append(Line(line, hart, hidden=True))
    return hidden


def single_steps(bench: Bench, position: int, hart: int, steps: ScheduledSteps) -> Iterator[Stretch]:
    """Does steps of a schedule one by one; yields a stretch for each turn. `position` is the number of steps before; `hart` is chosen before."""
    for first_step in range(0, steps.count, STEPS_PER_EXCHANGE):
        turns, texts = list(steps_within(steps, first_step, first_step + STEPS_PER_EXCHANGE).by_hart()), []
        for next_hart, count in turns:
            texts += [b"hart %d\n" % next_hart if next_hart != hart else b"", SINGLE_STEP * count]
            hart = next_hart
        text = b"".join(texts)
        block = bench.block(text, text.count(b"\n"))
        lines = iter([block] if len(texts) == 2 and not texts[0] else [line for line in block.splitlines(keepends=True) if line.startswith(b"ran ")])
        for next_hart, count in turns:
            yield Stretch(position + 1, next_hart, b"".join(islice(lines, count)), count)
            position += count


def run_of(setup: Setup) -> Run:
    """Returns the run of a configuration; raises RvlookError or Unfinished if the bench ends."""
    try:
        return Run(setup)
    except BenchEnded as error:
        raise error_of(setup, error) from None


def error_of(setup: Setup, error: BenchEnded) -> RvlookError:
    """Returns the error for a bench that ended, with its meaning if it refused the image."""
    message = str(error)
    if message not in INPUT_REPLIES:
        return Unfinished("%s: %s" % (setup.image.name, message))
    return RvlookError("cannot load '%s': %s: %s" % (setup.image.name, message, segment_outside(setup, message) or input_error(message)[0]))


def segment_outside(setup: Setup, message: str) -> str | None:
    """Returns a text about the first segment that is not in RAM; None if that is not the error, or if the image is no ELF file."""
    first, end = MONITOR_END if setup.monitor else RAM_BASE, RAM_BASE + setup.ram
    outside = next((segment for segment in setup.image.segments() if segment.address < first or segment.address + segment.in_memory > end), None)
    if message != OUTSIDE or outside is None or first >= end:
        return None
    return ("the segment %08x-%08x is outside the memory of programs, %08x-%08x; link it there, or use a larger --ram"
            % (outside.address, outside.address + outside.in_memory - 1, first, end - 1))
