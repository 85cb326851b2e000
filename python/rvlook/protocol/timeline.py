"""A bench and its history since reset. Equal commands give equal runs, so an earlier step is reached by repeating the commands on another bench.
Steps are counted over all harts."""
from __future__ import annotations

import re
from collections import deque
from dataclasses import dataclass, field
from functools import cached_property
from typing import Iterable, Iterator, Sequence, TYPE_CHECKING, Union

from rvlook.protocol.bench import Closing
from rvlook.protocol.bench_line import has_reply, tokens_of
from rvlook.protocol.replies import Ran, step_of

if TYPE_CHECKING:
    from rvlook.protocol.run import Setup

STATE_COMMANDS = ("poke", "setreg", "timer")  # commands that change the state without a step
UNDONE_BY = {"break": "clear", "watch": "unwatch", "clear": "break", "unwatch": "watch"}  # the command that undoes another one
MAX_DIGITS = 64  # the most digits of one `sched`
MOST_STEPS = 1000000  # the most steps of one `step` or `run`


@dataclass(frozen=True)
class ScheduledSteps:
    """Steps of the harts in an order, the schedule."""
    turns: str  # digits that name the hart of each step, and repeat
    count: int  # number of steps

    @property
    def chosen(self) -> list[str]:
        """Returns the command that chooses the hart if all steps are of one hart; else an empty list, since `sched` needs no chosen hart."""
        return ["hart " + self.turns[0]] if len(set(self.turns)) == 1 else []

    @property
    def last(self) -> int:
        """Returns the hart of the last step."""
        return int(self.turns[(self.count - 1) % len(self.turns)])

    def by_hart(self) -> Iterator[tuple[int, int]]:
        """Yields the steps as turns, each a hart and the number of steps that it does in a row, at most MOST_STEPS."""
        turns = [self.turns] if self.chosen else re.findall("0+|1+", self.turns)
        remaining = self.count
        while remaining:
            for turn in turns:
                count = min(remaining, MOST_STEPS if self.chosen else len(turn))
                if count:
                    yield int(turn[0]), count
                remaining -= count

    def lines(self) -> list[str]:
        """Returns the commands that do the steps, to be sent after those of `chosen`."""
        if self.chosen:
            return ["step %d" % count for _, count in self.by_hart()]
        digits = self.turns * (MAX_DIGITS // len(self.turns))
        whole_lines, remaining_steps = divmod(self.count, len(digits))
        return ["sched " + digits] * whole_lines + (["sched " + digits[:remaining_steps]] if remaining_steps else [])


@dataclass(frozen=True)
class Line:
    """A line of a script that does no step."""
    text: str  # the text in the syntax of the bench
    hart: int  # the hart that is chosen after the line
    replies: tuple[str, ...] = field(default=(), compare=False)  # the replies to the line
    hidden: bool = field(default=False, compare=False)  # whether the script does not have the line, so that reports leave it out
    given: str = field(default="", compare=False)  # the line as the script has it, with symbols

    @property
    def is_refused(self) -> bool:
        """Returns whether the bench refused the line."""
        return bool(self.replies) and self.replies[0].startswith("error ")

    @cached_property
    def command(self) -> str:
        """Returns the command; empty if it was refused."""
        return "" if self.is_refused else tokens_of(self.text)[0]

    @property
    def changes_state(self) -> bool:
        """Returns whether the command changes what a step does."""
        return self.command == "hart" or self.command in STATE_COMMANDS

    @property
    def chosen(self) -> list[str]:
        """Returns the command that chooses the hart."""
        return ["hart %d" % self.hart]

    def lines(self) -> list[str]:
        """Returns the command, to be sent after that of `chosen`; an empty list for `hart`, which `chosen` already does."""
        return [] if self.command == "hart" else [self.text]


Action = Union[ScheduledSteps, Line]  # a part of the history of a bench


def rotated(turns: str, count: int) -> str:
    """Returns a schedule as it continues after `count` of its steps."""
    offset = count % len(turns)
    return turns[offset:] + turns[:offset]


def actions_between(past: Iterable[Action], first: int, end: int) -> Iterator[Action]:
    """Yields the actions after step `first` up to step `end`. Commands right after `end` are among them, and commands right after `first` are not."""
    position = 0
    for action in past:
        if isinstance(action, Line):
            if first < position <= end:
                yield action
            continue
        steps = steps_within(action, max(0, first - position), end - position)
        if steps.count:
            yield steps
        position += action.count


def steps_within(steps: ScheduledSteps, first: int, end: int) -> ScheduledSteps:
    """Returns the steps from number `first` on up to, and not with, number `end`; the first of them has the number 0."""
    return ScheduledSteps(rotated(steps.turns, first), max(0, min(steps.count, end) - first))


def commands_of(past: Iterable[Action], chosen: int, hart: int) -> Iterator[str]:
    """Yields the commands that repeat actions; hart `chosen` is chosen before, and `hart` after them."""
    choice = ["hart %d" % chosen]
    for action in past:
        if action.chosen and action.chosen != choice:
            choice = action.chosen
            yield from choice
        yield from action.lines()
    if choice != ["hart %d" % hart]:
        yield "hart %d" % hart


def agree(first: str, second: str, count: int) -> bool:
    """Returns whether two schedules agree for a number of steps."""
    period = len(first) * len(second)
    return first == second or all(first[n % len(first)] == second[n % len(second)] for n in range(min(count, period)))


class Timeline(Closing):
    """A bench after the actions in `past`. `future` has the actions that follow: those of a run, or those that were done before the user went
    back. It stays as long as the user repeats its actions. The caller sends what `lines_to` and `lines_up_to_next` return."""

    def __init__(self, setup: Setup, past: Iterable[Action] = (), hart: int = 0, future: Iterable[Action] = ()) -> None:
        self.setup = setup  # the setup of the bench
        self.past: list[Action] = []  # the actions so far
        self.future: deque[Action] = deque(future)  # the actions that follow
        self.stops: dict[str, None] = {}  # the commands that set breakpoints and watchpoints
        self.position = self.hart = self.changes = 0  # steps so far; chosen hart; actions so far that may have changed a register or a byte
        mode, world = ("S", "host") if setup.monitor else ("M", "bare")
        # these lists have a value for each hart; `moved` counts actions that may have changed its world
        self.modes, self.worlds, self.moved = [mode] * setup.harts, [world] * setup.harts, [0] * setup.harts
        self.bench = setup.bench()  # the bench that does the actions
        self.unread_commands: list[tuple[str, int]] = []  # commands whose replies are not read yet, and their harts
        self.follow(past, hart)

    @staticmethod
    def of_script(setup: Setup) -> Timeline:
        """Returns the timeline after the script."""
        timeline = Timeline(setup)
        for line in setup.script:
            if has_reply(line):
                timeline.do(line)
        return timeline

    def close(self) -> None:
        """Ends the process of the bench."""
        self.bench.close()

    # queued commands

    def follow(self, past: Iterable[Action], hart: int | None = None) -> None:
        """Sends the commands that repeat actions of another timeline; `settle` reads the replies. `hart` is chosen after them; None: as before."""
        past = list(past)
        lines = list(commands_of(past, self.hart, self.hart if hart is None else hart))
        for line in lines:
            if line.startswith("hart "):
                self.hart = int(line[5:])
            self.unread_commands.append((line, self.hart))
        for action in past:
            self.add(action)
        if lines:
            self.bench.begin(*lines)

    def settle(self) -> None:
        """Reads the replies to the commands that `follow` sent. Sets mode and world of each hart from its last reply; notes if any hart trapped."""
        unread, self.unread_commands = self.unread_commands, []
        counts = [self.setup.harts if line.startswith("sched") else 1 for line, _ in unread]
        block = self.bench.block(b"", sum(counts)).decode("latin-1") if unread else ""
        if block.count("trap=") > block.count("trap=-"):
            self.moved = [position + 1 for position in self.moved]
        replies, harts_without_step = block.splitlines(), set(range(self.setup.harts))
        while unread and harts_without_step:  # from the last command back
            (line, hart), count = unread.pop(), counts.pop()
            reply, replies = replies[-count:], replies[:-count]
            if line.startswith(("step", "sched")):
                self.update_harts(line, hart, reply)
                harts_without_step -= {hart} if line.startswith("step") else set(harts_without_step)

    # commands

    def ask(self, *commands: str) -> list[list[str]]:
        """Sends commands that change nothing; returns the lines of the reply to each."""
        if self.unread_commands:
            self.settle()
        return self.bench.ask(*commands)

    def do(self, line: str) -> list[str]:
        """Runs a command, and records it if it changes something; returns its reply."""
        return self.do_all([line])[0]

    def do_all(self, lines: Sequence[str], turns: str | None = None) -> list[list[str]]:
        """Runs commands in one exchange, and records changes; returns the replies. `turns` is the schedule of the steps; None: of the hart alone."""
        replies = self.ask(*lines)
        for line, reply in zip(lines, replies):
            if reply and not reply[0].startswith("error "):
                name = tokens_of(line)[0]
                if name == "hart":
                    self.hart = int(tokens_of(line)[1])
                self.update_harts(line, self.hart, reply)
                self.record(name, line, reply, turns)
        return replies

    def do_at_once(self, line: str, questions: Iterable[str], count: int, turns: str | None = None) -> list[str]:
        """Runs a command that has one line of reply, and then queries, in one exchange; returns all `count` lines of the replies."""
        if self.unread_commands:
            self.settle()
        replies = self.bench.block("\n".join([line, *questions, ""]).encode(), count).decode("latin-1").splitlines()
        self.update_harts(line, self.hart, replies)
        self.record(line.split()[0], line, replies, turns)
        return replies

    def choose(self, hart: int) -> None:
        """Chooses the hart that the next commands concern."""
        if hart != self.hart:
            self.do("hart %d" % hart)

    def run(self, hart: int, count: int, turns: str | None = None) -> Ran:
        """Runs a hart for at most `count` steps, up to a stop; returns the reply. `turns` is the schedule of the steps; None: of the hart alone."""
        self.choose(hart)
        return step_of(self.do_all(["run %d" % min(count, MOST_STEPS)], turns)[0][0])

    # the record of actions

    def update_harts(self, line: str, hart: int, replies: Sequence[str]) -> None:
        """Updates mode and world of the harts after a `step`, `run` or `sched`, from its reply."""
        if line.startswith(("step", "run")):
            ran = step_of(replies[0])
            self.reach(hart, ran.mode, ran.world, ran.trap and ran.steps > 1)
        elif line.startswith("sched"):  # one line of reply for each hart
            for number, reply in enumerate(replies):
                mode, world, trap = (field.partition("=")[2] for field in reply.split()[4:7])
                self.reach(number, mode, world, trap != "-")

    def reach(self, hart: int, mode: str, world: str, trapped: object) -> None:
        """Sets mode and world of a hart. If the hart trapped on the way, it may have been in other worlds."""
        self.moved[hart] += bool(trapped or world != self.worlds[hart])
        self.modes[hart], self.worlds[hart] = mode, world

    def record(self, name: str, line: str, replies: Sequence[str], turns: str | None = None) -> None:
        """Records a command as an action, or as a breakpoint or watchpoint."""
        if name in ("step", "run"):
            self.add(ScheduledSteps(turns or str(self.hart), step_of(replies[0]).steps))
        elif name == "sched":
            self.add(ScheduledSteps(line.split()[1], len(line.split()[1])))
        elif name in STATE_COMMANDS:
            self.add(Line(line, self.hart))
        elif name in ("break", "watch"):
            self.stops["%s %x" % (name, int(line.split()[1], 16))] = None
        elif name in UNDONE_BY:
            self.stops.pop("%s %x" % (UNDONE_BY[name], int(line.split()[1], 16)), None)

    def add(self, action: Action) -> None:
        """Appends an action to the past; joins steps that continue the schedule."""
        self.changes += 1
        self.spend(action)
        previous = self.past[-1] if self.past else None
        if isinstance(action, ScheduledSteps):
            self.position += action.count
            if isinstance(previous, ScheduledSteps) and rotated(previous.turns, previous.count) == action.turns:
                self.past[-1] = ScheduledSteps(previous.turns, previous.count + action.count)
                return
        self.past.append(action)

    def spend(self, action: Action) -> None:
        """Removes from the future what was just done; drops all of the future if it begins with another action."""
        if isinstance(action, Line):
            if not self.future or self.future.popleft() != action:
                self.future.clear()
            return
        while self.future and action.count:
            next_action = self.future.popleft()
            common_steps = min(action.count, next_action.count) if isinstance(next_action, ScheduledSteps) else 0
            if isinstance(next_action, Line) or not common_steps or not agree(action.turns, next_action.turns, common_steps):
                self.future.clear()
                return
            if common_steps < next_action.count:
                self.future.appendleft(steps_within(next_action, common_steps, next_action.count))
            action = steps_within(action, common_steps, action.count)

    # the way forward

    def lines_to(self, step: int) -> list[str]:
        """Returns the commands of the future up to a step, without the commands right after the step. After the future the chosen hart continues."""
        lines: list[str] = []
        while self.position < step:
            next_action = self.future[0] if self.future else ScheduledSteps(str(self.hart), step - self.position)
            lines += self.repeated(next_action if isinstance(next_action, Line) else steps_within(next_action, 0, step - self.position))
        return lines

    def lines_up_to_next(self) -> list[str]:
        """Returns the commands of the future before its next step, and the choice of the hart of that step."""
        lines: list[str] = []
        while self.future:
            next_action = self.future[0]
            if not isinstance(next_action, Line):
                return lines + self.choice(int(next_action.turns[0]))
            lines += self.repeated(next_action)
        return lines

    def repeated(self, action: Action) -> list[str]:
        """Records an action as done; returns the commands that do it, which the caller sends."""
        lines = [*self.choice(action.hart), *action.lines()] if isinstance(action, Line) else \
            [line for hart, count in action.by_hart() for line in (*self.choice(hart), "step %d" % count)]
        self.add(action)
        return lines

    def choice(self, hart: int) -> list[str]:
        """Returns the command that chooses a hart, if another one is chosen."""
        before, self.hart = self.hart, hart
        return [] if hart == before else ["hart %d" % hart]

    def go(self, step: int) -> str | None:
        """Goes right after a step of the future; returns the reply to the last command, or None."""
        lines = self.lines_to(step)
        return self.bench.ask(*lines)[-1][0] if lines else None

    def go_before(self, step: int) -> None:
        """Goes right before a step of the future: does the step before it, and the commands between them."""
        self.bench.ask(*self.lines_to(step - 1), *self.lines_up_to_next())

    @property
    def has_command(self) -> bool:
        """Returns whether the future has a command."""
        return any(isinstance(action, Line) for action in self.future)

    def steps_to_command(self) -> int | None:
        """Returns the number of steps before the first command of the future; None if the future has no command."""
        count = 0
        for action in self.future:
            if isinstance(action, Line):
                return count
            count += action.count
        return None

    def redo(self) -> bool:
        """Repeats the commands of the future at this step; returns whether there were any."""
        has_repeated = False
        while self.future:
            next_action = self.future[0]
            if not isinstance(next_action, Line):
                break
            has_repeated = True
            self.choose(next_action.hart)
            self.do(next_action.text)
        return has_repeated

    # the way back

    def again(self, position: int) -> Timeline:
        """Returns another timeline at an earlier step, without breakpoints and watchpoints. It has a bench of its own, which runs from reset."""
        return Timeline(self.setup, actions_between(self.past, -1, position), self.hart)  # -1: with the commands before the first step

    def take_future(self, old: Timeline) -> None:
        """Sets the future: what another timeline with the same past did after this step, and its own future."""
        self.future = deque([*actions_between(old.past, self.position, old.position), *old.future])

    def set_stops(self, wanted: Iterable[str]) -> None:
        """Sets the breakpoints and watchpoints that these commands set, and removes all others."""
        self.do_all(["%s %s" % (UNDONE_BY[stop.split()[0]], stop.split()[1]) for stop in self.stops if stop not in wanted])
        self.do_all([command for command in wanted if command not in self.stops])

    def is_break(self, pc: str) -> bool:
        """Returns whether a breakpoint is set at pc, hexadecimal digits."""
        return "break %x" % int(pc, 16) in self.stops

    # schedules

    def turns_of(self, schedule: str) -> str:
        """Returns a schedule as it continues after the last steps by it. Steps of one hart alone may have come after them."""
        for action in reversed(self.past):
            if isinstance(action, ScheduledSteps) and len(action.turns) == len(schedule) and action.turns in schedule * 2:
                return rotated(action.turns, action.count)
        return schedule

    def step_before(self, hart: int) -> int | None:
        """Returns the position right before the last step of a hart, or None if the hart did no step."""
        position = self.position
        for action in reversed(self.past):
            if isinstance(action, ScheduledSteps):
                for distance in range(1, min(len(action.turns), action.count) + 1):
                    if int(action.turns[(action.count - distance) % len(action.turns)]) == hart:
                        return position - distance
                position -= action.count
        return None
