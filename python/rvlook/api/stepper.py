"""Moves a machine forward: to a breakpoint, a watched byte, an endless loop or a limit, by one hart or by a schedule of two."""
from __future__ import annotations

from itertools import chain, islice
from typing import Dict, Iterable, Iterator, List, NamedTuple, Optional, Sequence, Tuple

from rvlook.api.values import NotReached, Trap
from rvlook.errors import RvlookError
from rvlook.output.printer import place_text
from rvlook.protocol.bench import Closing
from rvlook.protocol.console import ENDED, WRITTEN, Console, consoles_of
from rvlook.protocol.commands import line_error
from rvlook.protocol.replies import Ran, RanTrap, step_of
from rvlook.protocol.run import HALTED_AFTER, Setup
from rvlook.protocol.schedule import LONGEST, turns_of
from rvlook.protocol.timeline import Action, Timeline

LIMIT = 10000000  # steps of one call, unless the caller gives another limit
LIMIT_BY_SCHEDULE = 200000  # the same with a schedule, whose steps take longer
LONG_BATCH = 1024  # turns of a schedule in one exchange
TURNS = 64  # turns of a schedule, after which the harts are checked for an endless loop, and many turns are done at once
PART, MORE = 1000, 4  # steps before a hart is first checked for an endless loop, and the factor for the steps up to the next check
LOOP = "jal x0, 0"  # the text of an instruction that jumps to itself
UNTIL_THE_END = 0  # a breakpoint at an address without RAM, where a trap without a handler leads


class MadeCall(NamedTuple):
    """A call that the test has made as the host."""
    saved_registers: Dict[int, int]  # number and earlier value of each register that the call used
    left_at: int  # the address after its ecall
    slot: int  # a0 of the call
    has_entered: bool = False  # whether the call has entered an enclave


class Snapshot(NamedTuple):
    """A point of a run, to which `restore` returns."""
    past: Tuple[Action, ...]  # all actions since reset
    hart: int  # the hart that is selected
    scheduled: int = 0  # steps that the schedule has done
    consoles: Tuple[Tuple[int, str, Optional[int]], ...] = ()  # of each: the characters written, the line that has not ended, and the status
    lines: Tuple[str, ...] = ()  # complete lines of the consoles
    trap: Optional[Trap] = None  # the last one; None without one
    calls: Tuple[Tuple[int, MadeCall], ...] = ()  # the call under way of each hart


class Stepper(Closing):
    """A machine that can be moved forward by steps, runs and turns of a schedule."""

    def __init__(self, setup: Setup, schedule: str, at: Optional[Snapshot]) -> None:
        self.setup, self.schedule = setup, schedule  # digits of harts; empty: only the selected hart steps
        self.consoles: List[Console] = consoles_of(setup.symbols)  # that the program has
        self.lines: List[str] = []  # complete lines of the consoles
        self.calls: Dict[int, MadeCall] = {}  # the call under way, by hart
        self.trap: Optional[Trap] = None  # the last one since the last call that moved the machine; None without one
        self.scheduled = 0  # steps that the schedule has done
        self.turns: Iterator[Tuple[int, int]] = turns_of(schedule) if schedule else iter(())  # hart and steps of the next turns
        # the simulator, and all that was done since reset
        self.timeline = Timeline.of_script(setup) if at is None else Timeline(setup, at.past, at.hart)
        if at is not None:
            self.take_over(at)

    def close(self) -> None:
        """Ends the simulator."""
        self.timeline.close()

    def ask(self, *commands: str) -> List[List[str]]:
        """Sends commands of docs/COMMANDS.md that change nothing; returns the lines of each reply. Raises RvlookError for an error."""
        if self.timeline.bench.stdin.closed:
            raise RvlookError("the machine is closed; read it inside its 'with' block, and copy a structure by values()")
        return checked(commands, self.timeline.ask(*commands))

    def do(self, *commands: str) -> List[List[str]]:
        """Sends commands of docs/COMMANDS.md; returns the lines of each reply. Raises RvlookError for an error."""
        self.ask()
        return checked(commands, self.timeline.do_all(commands))

    # ---- the state

    @property
    def pc(self) -> int:
        """The address of the next instruction of the selected hart."""
        return int(self.ask("regs")[0][32][3:], 16)  # the line after x0 to x31 is `pc=ADDRESS`

    @property
    def where(self) -> str:
        """The address of the next instruction with its symbol and source line, as text."""
        return place_text("%08x" % self.pc, self.setup.symbols)

    @property
    def world(self) -> str:
        """The world of the selected hart: `host`, `e0` to `e12`, or `bare`."""
        self.ask()
        return self.timeline.worlds[self.timeline.hart]

    @property
    def mode(self) -> str:
        """The mode of the selected hart: `M`, `S` or `U`."""
        self.ask()
        return self.timeline.modes[self.timeline.hart]

    @property
    def steps(self) -> int:
        """The number of steps of all harts since reset."""
        return self.timeline.position

    @property
    def hart(self) -> int:
        """The selected hart, 0 or 1. It can be set."""
        return self.timeline.hart

    @hart.setter
    def hart(self, number: int) -> None:
        """Selects a hart. Raises RvlookError if there is none."""
        self.do("hart %d" % number)

    @property
    def console(self) -> str:
        """The text that host and enclave have printed, without the last line end."""
        self.read_consoles()
        return "\n".join(self.lines + [console.pending for console in self.consoles if console.pending])

    @property
    def status(self) -> Optional[int]:
        """The exit status of the program, once it has called finish(status); else None."""
        return next((console.status for console in self.consoles if console.status is not None), None)

    def read_consoles(self) -> None:
        """Reads the new characters of each console."""
        for console in self.consoles:
            self.lines += console.read(self.ask)

    # ---- forward

    def advance(self, breaks: Iterable[int], watched: Sequence[int] = (), limit: Optional[int] = None) -> Ran:
        """Runs up to one of the breakpoints, after an access to a watched byte, or up to the end of the program. `why` of the result is `break`,
        `watch:ADDRESS`, `halted` for an endless loop, or `done` at the limit in steps."""
        places = set(breaks)
        self.ask()
        self.set_stops(places, watched)
        remaining, run_steps, turns, leap_after = self.limit_of(limit), PART, 0, TURNS
        ran = Ran(steps=0, pc="", mode="", world="", why="done", trap=None)
        self.trap = None
        while remaining > 0:
            is_long = bool(self.schedule) and turns == leap_after
            if is_long:
                leap_steps = self.leap(places, remaining)
                remaining, turns, leap_after = max(1, remaining - leap_steps), 0, TURNS if leap_steps > LONG_BATCH else 2 * leap_after
            ran = self.turn(min(remaining, run_steps))
            remaining -= max(1, ran.steps)
            if ran.why.startswith("watch:"):
                if int(ran.why[len("watch:"):], 16) in watched or self.has_finished():
                    break
                continue
            if ran.why == "break" or int(ran.pc, 16) in places:  # a `run` whose last step leads to a breakpoint replies `done`
                ran = ran._replace(why="break")
                break
            turns, run_steps = turns + 1, run_steps * MORE
            if self.is_halted(ran, is_long or turns % TURNS == 0):
                ran = ran._replace(why="halted")
                break
        self.read_consoles()
        return ran

    def set_stops(self, places: Iterable[int], watched: Iterable[int]) -> None:
        """Sets these breakpoints and watchpoints, and the watchpoints that show that a console is written to."""
        console_addresses = {console.address + offset for console in self.consoles for offset in (WRITTEN, ENDED)}
        watches = ["watch %x" % address for address in sorted({*watched, *console_addresses})]
        self.timeline.set_stops(["break %x" % place for place in sorted(places)] + watches)

    def has_finished(self) -> bool:
        """Reads the consoles; returns whether the program has called finish(status)."""
        self.read_consoles()
        return self.status is not None

    def limit_of(self, limit: Optional[int]) -> int:
        """Returns the most steps of one call: the limit of the caller, or the default."""
        default = LIMIT_BY_SCHEDULE if self.schedule else LIMIT
        return default if limit is None else limit

    def turn(self, most: int) -> Ran:
        """Does at most this many steps of the selected hart. With a schedule, the steps are of its next turn, which may end before."""
        if not self.schedule:
            return self.note_trap(self.timeline.run(self.hart, most))
        hart, count = next(self.turns)
        ran = self.timeline.run(hart, min(count, most))
        self.scheduled += ran.steps
        if ran.steps < count:  # the turn goes on later
            self.turns = chain([(hart, count - ran.steps)], self.turns)
        return self.note_trap(ran)

    def next_harts(self, count: int) -> str:
        """Returns the harts of the next steps of the schedule as digits, and goes on in the schedule."""
        digits = ""
        while len(digits) < count:
            hart, steps = next(self.turns)
            digits += str(hart) * steps
        if len(digits) > count:
            self.turns = chain([(int(digits[-1]), len(digits) - count)], self.turns)
        return digits[:count]

    def leap(self, places: Iterable[int], most: int) -> int:
        """Does turns of the schedule in long exchanges, up to the turn that leads to a stop; another machine finds it. Returns the number of
        steps, which is at most `most`."""
        steps_done = 0
        with self.timeline.again(self.steps) as ahead:
            ahead.set_stops(list(self.timeline.stops))
            while True:
                batch = list(islice(self.turns, LONG_BATCH))
                rans = runs_of(ahead, batch)
                before_stop = next((n for n, ran in enumerate(rans) if ran.why != "done" or int(ran.pc, 16) in places), len(batch))
                before_stop = before_stop if steps_done + sum(ran.steps for ran in rans) <= most else 0  # turns of the batch before the stop
                self.turns = chain(batch[before_stop:], self.turns)
                self.step_by("".join(str(hart) * steps for hart, steps in batch[:before_stop]))
                steps_done += sum(ran.steps for ran in rans[:before_stop])
                if before_stop < len(batch) or self.are_all_in_loops():
                    return steps_done

    def step_by(self, digits: str) -> None:
        """Does a step of the hart that each digit names, as the schedule has it, and keeps the last trap."""
        schedules = [digits[n:n + LONGEST] for n in range(0, len(digits), LONGEST)]  # the operands of `sched`
        for n in range(0, len(schedules), LONG_BATCH):
            position, batch = self.timeline.position, schedules[n:n + LONG_BATCH]
            replies = self.do(*["sched " + digits for digits in batch])
            last_with_trap = max((number for number, lines in enumerate(replies) if not all(line.endswith("trap=-") for line in lines)), default=None)
            if last_with_trap is not None:
                self.trap = self.last_trap(position + LONGEST * last_with_trap, batch[last_with_trap])
        if digits:
            self.do("hart " + digits[-1])
        self.scheduled += len(digits)

    def last_trap(self, position: int, digits: str) -> Optional[Trap]:
        """Returns the last trap in the steps after a position. Another machine does them one by one, since the reply of `sched` has no order."""
        with self.timeline.again(position) as ahead:
            replies = ahead.do_all([line for digit in digits for line in ("hart " + digit, "step 1")])
        traps = [step.trap for step in (step_of(reply[0]) for reply in replies[1::2]) if step.trap]
        return trap_from(traps[-1])

    def note_trap(self, ran: Ran) -> Ran:
        """Sets `trap` if the steps with this reply ended in a trap; returns the reply."""
        if ran.trap:
            self.trap = trap_from(ran.trap)
        return ran

    def is_halted(self, ran: Ran, is_due: bool) -> bool:
        """Returns whether the machine repeats an instruction of each hart for ever; with a schedule only if `is_due`. `ran` is the last reply."""
        if self.schedule:
            return is_due and self.are_all_in_loops()
        return LOOP in self.ask("dis %s" % ran.pc)[0][0] or bool(ran.trap) and self.traps_forever()

    def are_all_in_loops(self) -> bool:
        """Returns whether each hart is at an instruction that jumps to itself."""
        harts, selected = range(self.setup.harts), self.hart
        pcs = [self.ask("hart %d" % hart, "regs")[1][32][3:] for hart in harts]  # the line after x0 to x31 is `pc=ADDRESS`
        return all(LOOP in reply[0] for reply in self.ask(*["dis %s" % pc for pc in pcs], "hart %d" % selected)[:-1])

    def traps_forever(self) -> bool:
        """Returns whether the selected hart traps in the same way at each step. Another machine finds out, since a step here would count."""
        with self.timeline.again(self.steps) as ahead:
            replies = ahead.do_all(["step 1"] * HALTED_AFTER)
        return "trap=-" not in replies[0][0] and all(reply == replies[0] for reply in replies)

    def fail(self, what: str, ran: Ran) -> None:
        """Raises NotReached: the machine never did `what`, such as `reaches main`. `ran` is the reply to the last steps."""
        why = "it is in an endless loop at" if ran.why == "halted" else "it has finished at" if self.status is not None else "it is still running at"
        raise NotReached("the machine never %s: %s %s, in %s, after step %d%s" % (
            what, why, self.where, self.world, self.steps, "; last trap: %s" % self.trap if self.trap else ""))

    # ---- other times

    def snapshot(self) -> Snapshot:
        """Returns this point of the run, to which `restore` returns."""
        consoles = tuple((console.written, console.pending, console.status) for console in self.consoles)
        return Snapshot(tuple(self.timeline.past), self.timeline.hart, self.scheduled, consoles, tuple(self.lines), self.trap,
                        tuple(self.calls.items()))

    def take_over(self, snapshot: Snapshot) -> None:
        """Takes over from a snapshot the state that is not in the timeline: consoles, trap, calls, and the position in the schedule."""
        self.lines, self.trap, self.calls, self.scheduled = list(snapshot.lines), snapshot.trap, dict(snapshot.calls), snapshot.scheduled
        for console, state in zip(self.consoles, snapshot.consoles):
            console.written, console.pending, console.status = state
        if self.schedule:
            self.turns = turns_of(self.schedule)
            self.next_harts(self.scheduled)  # skips the steps that are done


def checked(commands: Iterable[str], replies: List[List[str]]) -> List[List[str]]:
    """Returns the replies to commands. Raises RvlookError if one is an error."""
    for command, reply in zip(commands, replies):
        if reply and reply[0].startswith("error "):
            raise RvlookError("%s: %s" % (command, line_error(reply[0], command.split())[0]))
    return replies


def runs_of(timeline: Timeline, turns: Sequence[Tuple[int, int]]) -> List[Ran]:
    """Does turns of a schedule on the bench of a timeline; returns the reply to each. The timeline does not record them."""
    text = "".join("hart %d\nrun %d\n" % turn for turn in turns)
    return [step_of(line.decode()) for line in timeline.bench.block(text.encode(), 2 * len(turns)).splitlines()[1::2]]


def trap_from(trap: RanTrap) -> Trap:
    """Returns the trap of a reply, as numbers."""
    return Trap(int(trap.cause, 16), int(trap.value, 16))
