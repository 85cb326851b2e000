"""The subcommand `timer`: sets the timer interrupt pending before each step of an enclave, or before every Nth, and checks that the result
of the enclave stays the same. The script runs before, unchanged."""
from __future__ import annotations

import itertools
from dataclasses import dataclass
from functools import lru_cache
from typing import Iterator, NamedTuple, Optional, Sequence

from rvlook.access.map import events
from rvlook.errors import Unfinished
from rvlook.output.findings import ReportedCases
from rvlook.output.printer import Printer, Style, counted, place_text, run_object
from rvlook.output.progress import Progress
from rvlook.protocol import names
from rvlook.protocol.bench import Bench
from rvlook.protocol.jobs import results_of
from rvlook.protocol.replies import Enclave, memory_commands, register_values, step_of
from rvlook.protocol.run import End, Run
from rvlook.protocol.stretch import Stretch
from rvlook.protocol.timeline import Timeline

MAX_STEPS_PER_EXCHANGE = 200  # the most steps of the enclave in one exchange
MAX_HOST_STEPS = 1000000  # steps in which the host must enter the enclave
TIMER = names.TIMER.encode()  # the cause of a timer interrupt, hexadecimal digits
READ_ANSWER = ["reg 10", "reg 11"]  # read a0 and a1 of the host after the enclave has left
ENDED_STATES = ("Exited", "Stopped")  # states after which steps of the host are not compared


class TimerOptions(NamedTuple):
    """The options of `timer`."""
    slot: int = 0  # the slot of the enclave
    every: int = 1  # the distance between interrupts in steps of the enclave; 1: before each step
    jobs: int = 1  # number of processes


class EnclaveStep(NamedTuple):
    """A step of the enclave in the run without interrupts."""
    pc: bytes  # 8 hexadecimal digits
    reply: bytes  # the reply of the bench to the step
    is_entered: bool  # whether the host ran before it
    answer: tuple[bytes, ...] = ()  # a0 and a1 of the host, as replies, if the enclave leaves; else empty


class ComparisonEnd(NamedTuple):
    """The end of the comparison in the run without interrupts."""
    step: int  # the last step of the enclave, or of the run if the enclave does not end
    enclave: Enclave  # the entry of the enclave in the enclave table
    is_cut: bool = False  # whether the enclave was running when --steps ended the run


class TimerDifference(NamedTuple):
    """A step of the enclave with another result, or another final state."""
    number: int  # the number of the step, from 1
    pc: Optional[str]  # hexadecimal digits; None for the final state
    expected: str  # the reply without interrupts
    actual: str  # the reply with interrupts


@dataclass
class InterruptedRun:
    """The result of the run with interrupts, or of a part of it."""
    steps: int = 0  # the steps of the enclave
    interrupts: int = 0  # the interrupts that were taken
    difference: Optional[TimerDifference] = None  # the first one; None if the results are equal
    not_resumed: Optional[TimerDifference] = None  # the step before which the host did not enter the enclave; None if it always did
    finish: Sequence[str] = ()  # the final state, as replies; empty for a part that is not the last one

    @property
    def is_other(self) -> bool:
        """Returns whether the run differs from the one without interrupts."""
        return bool(self.difference or self.not_resumed)


def comparison_end(run: Run, slot: int) -> ComparisonEnd:
    """Returns the last step of the enclave after the script. Raises Unfinished if no enclave is in the slot."""
    last_end, end = None, None
    for event in events(run):
        if isinstance(event, End):
            end = event
        elif event.slot == slot and not (last_end and last_end.enclave.state == "Exited"):
            enclave = next((enclave for enclave in event.enclaves if enclave.slot == slot), None)
            last_end = ComparisonEnd(event.step, enclave) if enclave else last_end
    if last_end is None:
        raise Unfinished("no enclave in slot %d" % slot)
    assert end is not None
    return last_end if last_end.enclave.state in ENDED_STATES else ComparisonEnd(end.steps, last_end.enclave, end.why == "limit")


def enclave_steps(run: Run, slot: int, last: ComparisonEnd, reader: Timeline) -> Iterator[EnclaveStep]:
    """Yields the steps of the enclave after the script, without a timer. `reader` is a replay that reads the results of the host."""
    enclave, is_entered = b"e%d" % slot, True
    for item in run.stretches():
        if isinstance(item, Stretch) and item.first <= last.step:
            columns = item.columns
            for step, (pc, line, before, after) in enumerate(zip(columns.pcs, item.data.splitlines(), columns.worlds, columns.after), item.first):
                if before != enclave:
                    is_entered = True
                elif run.length < step <= last.step:
                    answer = reader.bench.replies_to([*reader.lines_to(step), *READ_ANSWER])[-len(READ_ANSWER):] if after != enclave else ()
                    yield EnclaveStep(pc, line, is_entered, tuple(answer))
                    is_entered = False


@lru_cache(maxsize=65536)
def commands_for(pc: bytes, is_entered: bool, is_stopped: bool, is_left: bool) -> tuple[bytes, int]:
    """Returns the commands for one step of the enclave at `pc`, and their number. If the host ran before the step (`is_entered`), and after a timer
    interrupt (`is_stopped`), the host first runs until the enclave is at pc. If the step leaves (`is_left`), the last commands read the answer."""
    enter = [b"break %s\n" % pc, b"run %d\n" % MAX_HOST_STEPS, b"clear %s\n" % pc]
    commands = [*(enter if is_entered else []), *([b"timer on\n", b"step 1\n", *enter] if is_stopped else []), b"step 1\n"]
    commands += [b"%s\n" % command.encode() for command in READ_ANSWER if is_left]
    return b"".join(commands), len(commands)


def interrupted(replay: Timeline, steps: Iterator[tuple[int, EnclaveStep]], every: int, progress: Progress | None) -> InterruptedRun:
    """Runs numbered steps with a timer interrupt before each step whose number is divisible by `every`. After the first difference only counts the
    steps. `progress` is None if another object shows the progress."""
    outcome = InterruptedRun()
    for batch in batches_of(steps):
        outcome.steps += len(batch)
        if progress:
            progress.show("%d steps, %d interrupts", outcome.steps, outcome.interrupts)
        if not outcome.is_other:
            compare(replay, batch, every, outcome)
    return outcome


class TimerParts(NamedTuple):
    """The run with interrupts, in `jobs` parts of equal length, one for each process, which first repeats the earlier parts uncompared."""
    run: Run  # the run without interrupts
    options: TimerOptions  # slot, distance of interrupts, and jobs
    last: ComparisonEnd  # the end of the comparison
    progress: Progress  # shows the finished parts

    @property
    def steps(self) -> int:
        """Returns the number of steps of the enclave after the script."""
        return sum(item.columns.worlds[max(0, self.run.length + 1 - item.first):self.last.step + 1 - item.first].count(b"e%d" % self.options.slot)
                   for item in self.run.stretches() if isinstance(item, Stretch) and item.first <= self.last.step)

    def part(self, number: int) -> InterruptedRun:
        """Does the part with a number, from 0 on: repeats the parts before it, and compares its own steps."""
        jobs, every, is_whole = self.options.jobs, self.options.every, self.options.jobs == 1
        size = 0 if is_whole else -(-self.steps // jobs)  # steps of a part, rounded up
        with self.run.replay() as reader, self.run.replay() as replay:
            replay.go_before(self.run.length + 1)
            steps = enumerate(enclave_steps(self.run, self.options.slot, self.last, reader))
            for batch in batches_of(itertools.islice(steps, number * size)):
                replies_to(replay, commands_of(batch, every))
            steps_of_part = steps if is_whole else itertools.islice(steps, size)
            outcome = interrupted(replay, steps_of_part, every, self.progress if is_whole else None)
            if number == jobs - 1 and not outcome.is_other:
                outcome.finish = finish_of(replay.bench, self.last.enclave)
        return outcome

    def whole(self) -> InterruptedRun:
        """Does all parts, or the parts up to the first difference. Returns the result of the last one, with the counts of all of them."""
        whole = InterruptedRun()
        jobs = self.options.jobs
        for number, outcome in enumerate(results_of(self.part, jobs, jobs), 1):
            self.progress.bar(number, jobs, "parts")
            outcome.steps, outcome.interrupts = whole.steps + outcome.steps, whole.interrupts + outcome.interrupts
            whole = outcome
            if outcome.is_other:
                outcome.steps = self.steps  # as without parts: after a difference the other steps are counted too
                break
        return whole


def batches_of(steps: Iterator[tuple[int, EnclaveStep]]) -> Iterator[list[tuple[int, EnclaveStep]]]:
    """Yields the steps for one exchange each. The first batches are small: after a difference each step may run the host to its limit."""
    count = 1
    while batch := list(itertools.islice(steps, count)):
        yield batch
        count = min(2 * count, MAX_STEPS_PER_EXCHANGE)


def commands_of(batch: Sequence[tuple[int, EnclaveStep]], every: int) -> list[tuple[bytes, int]]:
    """Returns for each step of a batch its commands, and the number of the commands."""
    return [commands_for(step.pc, step.is_entered, number % every == 0, bool(step.answer)) for number, step in batch]


def replies_to(replay: Timeline, commands: Sequence[tuple[bytes, int]]) -> list[bytes]:
    """Runs commands, each text with the number of its commands; returns the replies. Each command has a reply of one line."""
    return replay.bench.block(b"".join([text for text, _ in commands]), sum(count for _, count in commands)).splitlines()


def compare(replay: Timeline, batch: Sequence[tuple[int, EnclaveStep]], every: int, outcome: InterruptedRun) -> None:
    """Runs and compares the steps of a batch up to the first difference, and adds the result to `outcome`."""
    commands = commands_of(batch, every)
    replies, end = replies_to(replay, commands), 0
    for (number, step), (_, count) in zip(batch, commands):
        begin, end = end, end + count
        lines, answer = replies[begin:end - len(step.answer)], tuple(replies[end - len(step.answer):end])
        outcome.interrupts += sum([TIMER in line for line in lines])
        outcome.not_resumed = not_entered(number + 1, step, lines)
        if not outcome.not_resumed:
            outcome.difference = compare_step(number + 1, step, number % every == 0, lines, answer)
        if outcome.is_other:
            return


def difference_at(number: int, step: EnclaveStep, expected: bytes, actual: bytes) -> TimerDifference:
    """Returns a difference in one step of the enclave."""
    return TimerDifference(number, step.pc.decode(), expected.decode(), actual.decode())


def not_entered(number: int, step: EnclaveStep, lines: Sequence[bytes]) -> TimerDifference | None:
    """Returns a difference if the host did not enter the enclave before a step, else None. `lines` has the replies to the commands of the step. The
    reply to a run of the host is the third one from the end (run, clear, step), and with a timer interrupt also the one five replies before it."""
    for reply in lines[-3::-5][::-1]:  # in the order of the runs
        if b" why=break " not in reply:
            return difference_at(number, step, b"the host resumes the enclave", reply)
    return None


def compare_step(number: int, step: EnclaveStep, is_stopped: bool, lines: Sequence[bytes], answer: tuple[bytes, ...]) -> TimerDifference | None:
    """Returns the difference in one step of the enclave, or None. `lines` has the replies to the commands of the step, without the answer. If the
    timer stops the enclave first (`is_stopped`), the last five are those to step, break, run, clear and step."""
    if is_stopped and b" trap=%s:" % TIMER not in lines[-5]:
        return difference_at(number, step, b"a timer interrupt", lines[-5])
    if lines[-1] != step.reply and visible_part(lines[-1]) != visible_part(step.reply):
        return difference_at(number, step, step.reply, lines[-1])
    return None if answer == step.answer else difference_at(number, step, b" ".join(step.answer), b" ".join(answer))


def visible_part(reply: bytes) -> object:
    """Returns the part of a reply that must be equal: all of it in the enclave, else only world and trap, since the host may be elsewhere."""
    ran = step_of(reply.decode())
    return (ran.world, ran.trap) if ran.world == "host" else reply


def finish_of(bench: Bench, enclave: Enclave) -> list[str]:
    """Reads the final state: a0 and a1 of the host, the region and the window."""
    values = register_values(bench.ask("regs")[0])
    ranges = [(enclave.base, enclave.size), (enclave.window, enclave.window_size)]
    reads = [command for base, size in ranges for command in memory_commands(base, size)]
    return ["a0=%08x" % values[10], "a1=%08x" % values[11]] + [reply[0] for reply in bench.ask(*reads)]


def find_timer(run: Run, options: TimerOptions) -> tuple[InterruptedRun, ComparisonEnd]:
    """Compares the runs; returns the result and the end of the comparison. Raises Unfinished if the enclave does no step after the script."""
    last = comparison_end(run, options.slot)
    with run.replay() as replay, Progress() as progress:
        replay.go(last.step)  # without interrupts
        outcome = TimerParts(run, options, last, progress).whole()
        if not outcome.steps:
            raise Unfinished("the enclave in slot %d executes no step after the script" % options.slot)
        if not outcome.is_other:
            pairs = zip(finish_of(replay.bench, last.enclave), outcome.finish)
            differences = (TimerDifference(outcome.steps, None, expected, actual) for expected, actual in pairs if expected != actual)
            outcome.difference = next(differences, None)
    return outcome, last


def show_timer(run: Run, printer: Printer, options: TimerOptions, findings: ReportedCases) -> None:
    """Compares the results of an enclave with and without timer interrupts. Raises Unfinished if the host does not resume the enclave."""
    slot, (outcome, last) = options.slot, find_timer(run, options)
    (timer_object if printer.as_json else timer_text)(run, printer, options, outcome)
    if outcome.not_resumed:
        raise Unfinished("the host does not resume the enclave in slot %d after the timer interrupt at its step %d; timer requires a "
                         "host that always resumes it" % (slot, outcome.not_resumed.number))
    difference = outcome.difference
    text = "step %d: %s instead of %s" % (difference.number, difference.actual, difference.expected) if difference else ""
    findings.add("e%d: same result with timer interrupts" % slot, text)
    if last.is_cut:
        findings.cut_short("--steps %d ended the run while the enclave in slot %d was running" % (run.setup.limit, slot))


def timer_object(run: Run, printer: Printer, options: TimerOptions, outcome: InterruptedRun) -> None:
    """Writes the result as objects."""
    difference, symbols = outcome.difference or outcome.not_resumed, run.setup.symbols
    run_object(printer, run, symbols)
    members = difference and {"step": difference.number, "pc": difference.pc, "expected": difference.expected, "actual": difference.actual,
                              "source": symbols.source(int(difference.pc, 16)) if difference.pc else None}
    printer.object("timer", slot=options.slot, every=options.every, interrupts=outcome.interrupts, steps=outcome.steps,
                   same=None if outcome.not_resumed else difference is None, difference=members)


def timer_text(run: Run, printer: Printer, options: TimerOptions, outcome: InterruptedRun) -> None:
    """Prints the result."""
    difference, slot, every = outcome.difference or outcome.not_resumed, options.slot, options.every
    which_steps = "each step" if every == 1 else "every %d steps" % every
    printer.line("e%d: %d steps, timer interrupt before %s: %s" % (slot, outcome.steps, which_steps, counted(outcome.interrupts, "interrupt")))
    if difference is None:
        printer.line(printer.styled("same result: every step, a0 and a1, region and window", Style.good))
        return
    printer.line(printer.styled("not resumed by the host" if outcome.not_resumed else "different result", Style.bad))
    place = "" if difference.pc is None else ", at " + place_text(difference.pc, run.setup.symbols)
    printer.line("  step %d of e%d%s" % (difference.number, slot, place))
    printer.line("  expected  " + difference.expected)
    printer.line("  actual    " + difference.actual)
