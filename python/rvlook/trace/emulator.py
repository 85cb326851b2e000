"""The subcommand `run`: runs a program to its end as an emulator does, prints what it writes to its consoles, and says why it ended."""
from __future__ import annotations

from argparse import Namespace
from enum import Enum
from typing import Iterator, NamedTuple, Sequence

from rvlook.access.failures import FailureReport, expectation_of, failures_of
from rvlook.errors import UNFINISHED, note
from rvlook.output.printer import Printer, place_text, run_object
from rvlook.protocol import names
from rvlook.protocol.console import ENDED, WRITTEN, Console, consoles_of
from rvlook.protocol.replies import Location, Ran, step_of
from rvlook.protocol.run import HALTED_AFTER, Run
from rvlook.protocol.schedule import turns_of
from rvlook.protocol.timeline import MOST_STEPS

FIRST_PART, MORE = 1000, 4  # steps of the first `run`, and the factor for the next one
BATCH, SINGLY = 1024, 128  # steps of two harts in one exchange, and those at its end that are done one by one to detect a halt
LONG_BATCH = 16384  # steps of two harts in one exchange if the program has no console, whose characters would have to be read
AT_ZERO = "break 0"  # a trap goes there if its vector was never set
HOSTS = ("host", "bare")  # the worlds that may halt
NONE = "00000000"  # cause and pc of a trap before the first one


class Why(Enum):
    """Why a program ended."""
    end = "ended"  # the program has called finish(status)
    loop = "endless loop"  # a hart jumps to itself, where a program may end
    hang = "endless loop that is no end"  # a hart jumps to itself in an enclave or in the middle of a function
    fault = "fault"  # a jump to 0, or an instruction that traps again and again
    limit = "limit"  # the limit of --steps


class ProgramEnd(NamedTuple):
    """The end of a program: why and where it ended."""
    why: Why  # the kind of the end
    at: Location  # the location of the hart
    status: int  # the exit status
    text: str  # the reason


class Emulator:
    """A program that runs on rvbench, with its consoles."""

    def __init__(self, run: Run, schedule: str, printer: Printer) -> None:
        self.run, self.schedule, self.printer, self.remaining = run, schedule, printer, run.setup.limit  # `remaining`: steps to the limit
        self.symbols = run.setup.symbols  # name addresses
        self.probed = 0  # steps that were done only to detect a halt, and that do not count for the limit
        self.consoles = consoles_of(self.symbols)  # the consoles that the program has

    @property
    def steps(self) -> int:
        """Returns the number of steps up to the end, with those of the script."""
        return self.run.length + self.run.setup.limit - self.remaining + self.probed

    def ending(self) -> ProgramEnd:
        """Runs the program to its end."""
        with self.run.replay() as replay:
            self.bench = replay.bench
            while replay.position < self.run.length:
                replay.go(min(self.run.length, replay.position + BATCH if self.consoles else self.run.length))
                self.show()
            self.bench.ask(*replay.lines_up_to_next(), "reg 0")
            ending = self.by_turns() if self.schedule else self.alone()
            self.show()
        for console in self.consoles:
            self.print(console, console.flush())
        return ending

    def show(self) -> None:
        """Prints the new characters of the consoles."""
        for console in self.consoles:
            self.print(console, console.read(self.bench.ask))

    def print(self, console: Console, lines: Sequence[str]) -> None:
        """Prints lines of a console."""
        for line in lines:
            self.printer.show(line, "console", step=None, writer=console.writer, text=line)

    def status(self) -> int | None:
        """Returns the exit status of the program, once it has ended by itself."""
        return next((console.status for console in self.consoles if console.status is not None), None)

    # a run of one hart

    def alone(self) -> ProgramEnd:
        """Runs the selected hart until the program ends or the limit is reached; returns the end."""
        watches = ["watch %x" % (console.address + offset) for console in self.consoles for offset in (WRITTEN, ENDED)]
        self.bench.ask(AT_ZERO, *watches)
        run_steps, ran = FIRST_PART, Ran(steps=0, pc=self.run.pc, mode=self.run.mode, world=self.run.world, why="done", trap=None)
        while self.remaining:
            ran = step_of(self.bench.one("run %d" % min(run_steps, self.remaining, MOST_STEPS)))
            self.remaining -= ran.steps
            if ran.why == "break":
                return self.fault(ran)
            halted = self.halted_step() if ran.why == "done" else None
            run_steps *= MORE if ran.why == "done" else 1  # a `run` that ended at a console would also end there if it were longer
            self.show()
            if self.status() is not None:
                return self.finished(ran)
            if halted:
                return self.halted(halted)
        return self.cut(ran)

    def halted_step(self) -> Ran | None:
        """Returns the next step if the steps after it change nothing that a reply shows, else None. These steps do not count for the limit."""
        self.probed += HALTED_AFTER
        replies = self.bench.ask(*["step 1"] * HALTED_AFTER)
        return step_of(replies[0][0]) if all(reply == replies[0] for reply in replies) else None

    # a run of two harts

    def by_turns(self) -> ProgramEnd:
        """Runs both harts by the schedule until the program ends or the limit is reached; returns the end."""
        turns, ran = turns_of(self.schedule), Ran(steps=0, pc=self.run.pc, mode=self.run.mode, world=self.run.world, why="done", trap=None)
        while self.remaining:
            batch = list(batch_of(turns, min(BATCH if self.consoles else LONG_BATCH, self.remaining)))
            self.remaining -= sum(count for _, count in batch)
            last_replies = self.batch(batch)
            ran = step_of(last_replies[batch[-1][0]][-1])
            self.show()
            if self.status() is not None:
                return self.finished(ran)
            if len(last_replies) > 1 and all(len(replies) == HALTED_AFTER and len(set(replies)) == 1 for replies in last_replies.values()):
                harts = [step_of(replies[0]) for replies in last_replies.values()]  # all have halted; reports first one that traps or hangs
                return self.halted(next((hart for hart in harts if hart.trap), next((hart for hart in harts if self.hangs(hart)), ran)))
        return self.cut(ran)

    def batch(self, turns: Sequence[tuple[int, int]]) -> dict[int, list[str]]:
        """Does turns in one exchange; returns the last HALTED_AFTER replies of each hart. Does the steps of the last turns one by one."""
        lines: list[tuple[int, str]] = []
        remaining = sum(count for _, count in turns)
        for hart, count in turns:
            lines.append((hart, "hart %d\n" % hart))
            lines += [(hart, "step %d\n" % count)] if remaining > SINGLY else [(hart, "step 1\n")] * count
            remaining -= count
        last_replies: dict[int, list[str]] = {}
        replies = self.bench.block("".join(line for _, line in lines).encode(), len(lines)).decode().splitlines()
        for (hart, _), reply in zip(lines[-SINGLY - 2 * len(turns):], replies[-SINGLY - 2 * len(turns):]):
            if reply.startswith("ran "):
                last_replies.setdefault(hart, []).append(reply)
        return {hart: rans[-HALTED_AFTER:] for hart, rans in last_replies.items()}

    # ends

    def place(self, ran: Ran) -> str:
        """Returns the pc, mode and world of a hart after a step or run, as a text."""
        return "%s in %s of %s" % (place_text(ran.pc, self.symbols), ran.mode, ran.world)

    def ended(self, why: Why, ran: Ran, status: int, text: str) -> ProgramEnd:
        """Returns the end of a program whose hart is where the reply `ran` says; `status` is the exit status."""
        return ProgramEnd(why, Location(ran.pc, ran.mode, ran.world), status, text)

    def finished(self, ran: Ran) -> ProgramEnd:
        """Returns the end of a program that called finish()."""
        status = self.status() or 0
        return self.ended(Why.end, ran, status, "the program ended with status %d at %s" % (status, self.place(ran)))

    def halted(self, ran: Ran) -> ProgramEnd:
        """Returns the end of a program whose harts do nothing more: an instruction that jumps to itself, or one that traps again and again."""
        if ran.trap:
            cause = names.CAUSES.get(ran.trap.cause, ran.trap.cause)
            return self.ended(Why.fault, ran, UNFINISHED, "fault: %s again at each step, at %s" % (cause, self.place(ran)))
        if self.hangs(ran) and ran.world not in HOSTS:
            return self.ended(Why.hang, ran, UNFINISHED, "the enclave hangs in an endless loop at %s" % self.place(ran))
        if self.hangs(ran):
            return self.ended(Why.hang, ran, UNFINISHED, "the program hangs in an endless loop at %s; end it with finish(), or at a symbol such as "
                              "halt" % self.place(ran))
        return self.ended(Why.loop, ran, 0, "the program is in an endless loop at %s" % self.place(ran))

    def hangs(self, ran: Ran) -> bool:
        """Returns whether a loop of one instruction is no end of the program: in an enclave, or in the middle of a function. A symbol at the
        instruction, or the function of the entry point, says that the host means to halt."""
        pc = int(ran.pc, 16)
        if ran.world not in HOSTS:
            return True
        entry = self.symbols.function(int(self.run.pc, 16))
        name = self.symbols.name(pc)
        return name is not None and "+" in name and (entry is None or self.symbols.function(pc) != entry)

    def fault(self, ran: Ran) -> ProgramEnd:
        """Returns the end of a program that reached address 0: it trapped without a trap vector, or jumped there."""
        mode = "m" if ran.mode == "M" else "s"
        cause, pc, value, vector = (self.bench.one("csr %x" % names.CSRS[mode + name]).partition("=")[2] for name in ("cause", "epc", "tval", "tvec"))
        if int(vector, 16) or cause == pc == NONE:
            return self.ended(Why.fault, ran, UNFINISHED, "fault: a jump to 00000000 in %s of %s" % (ran.mode, ran.world))
        text = "fault: %s at %s, %stval %s, and %stvec is not set"
        return self.ended(Why.fault, ran, UNFINISHED, text % (names.CAUSES.get(cause, cause), place_text(pc, self.symbols), mode, value, mode))

    def cut(self, ran: Ran) -> ProgramEnd:
        """Returns the end of a program that reached the limit."""
        return self.ended(Why.limit, ran, UNFINISHED, "the program did not end in %d steps; it is at %s" % (self.run.setup.limit, self.place(ran)))


def batch_of(turns: Iterator[tuple[int, int]], remaining: int) -> Iterator[tuple[int, int]]:
    """Yields turns, each a hart and its steps, up to a number of steps in all; the last turn is shortened."""
    for hart, count in turns:
        yield hart, min(count, remaining)
        remaining -= count
        if remaining <= 0:
            return


def show_run(run: Run, schedule: str, printer: Printer, options: Namespace) -> None:
    """Runs a program to its end, and reports its failures; `schedule` orders the steps of two harts after the script."""
    symbols, findings = run.setup.symbols, options.findings
    report = FailureReport([expectation_of(text, symbols) for text in options.expect or ()], symbols, printer, findings)
    if printer.as_json:
        run_object(printer, run, symbols)
    emulator = Emulator(run, schedule, printer)
    ending = emulator.ending()
    failures = failures_of(run, schedule, emulator.steps)
    findings.add("the program", ending.text if ending.why is Why.end and ending.status else "")
    findings.cut = ending.text if ending.why in (Why.hang, Why.fault, Why.limit) else ""
    report.show(failures)
    report.show_missing(failures)
    if printer.as_json:
        printer.object("ended", why=ending.why.name, status=ending.status, pc=ending.at.pc, mode=ending.at.mode, world=ending.at.world)
    printer.stream.flush()
    note(ending.text)
    findings.program_status = ending.status
