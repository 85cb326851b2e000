"""The finders as functions. Each returns its findings, and prints nothing."""
from __future__ import annotations

import html
import io
import os
import shlex
from contextlib import contextmanager
from dataclasses import dataclass, replace
from typing import Any, Callable, Dict, Iterator, List, Optional, Sequence, Tuple, Union

from rvlook.access.failures import FailureReport, failure_text
from rvlook.access.stack import overflow_text, overflows as overflows_of
from rvlook.api.building import PathLike
from rvlook.api.program import RAM, STEPS, Program
from rvlook.cli.opening import sets_order
from rvlook.errors import UsageError, captured_messages
from rvlook.finders.inputs.report import InputsOptions, details_of, find_inputs, print_text, texts_of
from rvlook.finders.leak_search import ComparedPair, Leak, LeakOptions, compare_drawn, compare_given
from rvlook.finders.leak_text import finish, pair_text, text_of_channel, text_of_pair
from rvlook.finders.races.text import RacesOptions, find_races, texts
from rvlook.finders.timer import TimerOptions, find_timer, timer_text
from rvlook.finders.window import WindowOptions, WindowSearch
from rvlook.finders.window_text import activation_text, rows_that_are_findings
from rvlook.image.variables import variables_of
from rvlook.monitors.conform import ScriptPlan
from rvlook.monitors.conform_text import LEAST_RAM, MonitorFiles, find_conform, show_counts, unexamined_part
from rvlook.monitors.guard import GuardPlan, do_runs
from rvlook.monitors.guard_text import show_results, show_run, unexamined_parts
from rvlook.monitors.ranges_file import ownership_of
from rvlook.output.findings import ReportedCases
from rvlook.output.printer import Printer, place_text
from rvlook.output.progress import Progress
from rvlook.protocol.run import Run, run_of
from rvlook.protocol.schedule import TURN, alternating
from rvlook.symbolic.branch_models import BranchModels
from rvlook.symbolic.one_path import is_hidden
from rvlook.symbolic.options import VerifyOptions
from rvlook.symbolic.questions import answers
from rvlook.symbolic.scripts import input_of
from rvlook.symbolic.text import details_of as details_of_path, heading_of, print_text as print_answers, unfinished_text
from rvlook.symbolic.verify import find_verify

Names = Union[str, Sequence[str]]


@dataclass(frozen=True, repr=False)
class Finding:
    """A finding. If it names no instruction, the fields about an instruction are None."""
    title: str  # the check
    text: str  # what it found
    script: Optional[str] = None  # the input of rvbench that repeats it; None if the finder writes none
    pc: Optional[int] = None  # the pc of the instruction
    step: Optional[int] = None  # the number of the step
    source: Optional[str] = None  # file and line

    def __str__(self) -> str:
        return "%s: %s" % (self.title, self.text)

    __repr__ = __str__


class Findings(List[Finding]):
    """The findings of one search. The list is false if it is empty."""

    def __init__(self, findings: Sequence[Finding] = (), command: str = "") -> None:
        super().__init__(findings)
        # the command line that repeats the search; its output; its notes and warnings; why it did not finish, empty if it did
        self.command, self.report, self.notes, self.unfinished = command, "", "", ""
        self.checks: Tuple[str, ...] = ()  # names of all checks

    def _repr_html_(self) -> str:
        """Returns the findings as an HTML table, or a line if the list is empty."""
        if not self:
            what = "did not finish: " + self.unfinished if self.unfinished else "no finding in %d checks" % len(self.checks)
            return "<p>%s</p>" % html.escape(what)
        rows = "".join("<tr><td>%s<td><pre>%s</pre><td>%s</tr>" % (html.escape(item.title), html.escape(item.text), html.escape(item.source or ""))
                       for item in self)
        return "<table><tr><th>check<th>finding<th>source</tr>%s</table>" % rows


@contextmanager
def searching(finder: str, program: Optional[Program], *words: str, **options: Any) -> Iterator[Tuple[Findings, Printer]]:
    """Gives findings to fill and the printer of their report. The notes and warnings of the body are those of the findings. `words` and `options` are
    for the command line that repeats the search."""
    findings, text = Findings(command=command_of(finder, program, *words, **options)), io.StringIO()
    with captured_messages() as messages:
        yield findings, Printer(as_json=False, stream=text)
    findings.report, findings.notes = text.getvalue(), "".join(message + "\n" for message in messages)


def command_of(finder: str, program: Optional[Program], *words: str, **options: Any) -> str:
    """Returns the command line of a search; empty if no command line loads the program in the same way. `at="key"` is --at key, a list is an option
    for each element, and True is a flag. None and False are left out."""
    if program is not None and program.has_boot:
        return ""
    arguments = ["rvlook", finder, *(image_arguments(program) if program else []), *words]
    for name, value in options.items():
        for item in [value] if isinstance(value, (str, bool, int, float)) else value or ():
            if item is not False:
                arguments += ["--" + name.replace("_", "-")] + ([] if item is True else [str(item)])
    return shlex.join(arguments)


def image_arguments(program: Program) -> List[str]:
    """Returns the arguments for the image of a program. Leaves out the arguments with their default values."""
    setup = program.setup
    words = [setup.image.name, "--monitor" if setup.monitor else "--no-monitor", *program.files]
    for name, value, default in (("harts", setup.harts, 1), ("ram", setup.ram, RAM), ("steps", setup.limit, STEPS)):
        words += ["--" + name, str(value)] if value != default else []
    return words


def several(names: Optional[Names]) -> Sequence[str]:
    """Returns as a sequence what a caller passes as one name, as a list of names, or as None for no name."""
    return [names] if isinstance(names, str) else list(names or ())


def at_place(program: Program, pc: Optional[int]) -> Dict[str, Any]:
    """Returns the pc and the source line of a finding."""
    return dict(pc=pc, source=None if pc is None else program.symbols.line(pc))


def ordered(program: Program, finder: str) -> Run:
    """Returns the run of a program. Two harts without an order in the script alternate for `window` and `verify`; else raises UsageError."""
    setup = program.setup
    if setup.harts == 1 or sets_order(setup.lines):
        return program.run
    if finder not in ("window", "verify"):
        raise UsageError("%s with two harts requires a script that chooses the harts, such as 'sched 01' or 'hart 1'" % finder)
    return run_of(replace(setup, schedule=alternating(TURN)))


def leaks(program: Program, secret: str, values: Sequence[bytes] = (), *, tries: Optional[int] = None, public: Names = (), strict: bool = False,
          slot: int = 0, seed: int = 0, seconds: Optional[float] = None) -> Findings:
    """Compares runs that differ only in a secret: with two `values`, or with `tries` pairs of drawn ones (by default 8). docs/ASK.md has the options
    of `leak`."""
    count = None if values else tries or 8
    options = LeakOptions(secret, slot, several(public), strict, values, count, seed=seed, seconds=seconds)
    with searching("leak", program, *(value.hex() for value in values), at=secret, tries=tries if values else count, public=public, strict=strict,
                   slot=slot, seed=seed, seconds=seconds) as (findings, printer):
        leak = Leak(ordered(program, "leak"), options, is_hidden)
        if values:
            pair = compare_given(leak)
            pair_text(leak, printer, pair)
            findings += [leak_finding(program, what, text_of_channel(leak, pair, what), pair) for what in pair.channels]
            findings.checks, findings.unfinished = tuple(leak.channels), leak.cut
        else:
            tried, cases = compare_drawn(leak), ReportedCases()
            finish(leak, printer, tried, cases)
            findings += [leak_finding(program, "pair %d" % number, text_of_pair(pair), pair) for number, pair in tried.differing.items()]
            findings.checks, findings.unfinished = tuple(case.name for case in cases.cases), leak.cut or tried.cut or cases.cut
    return findings


def leak_finding(program: Program, title: str, text: str, pair: ComparedPair) -> Finding:
    """Returns a difference of two runs as a finding, at its first instruction."""
    all_findings = pair.comparison.all()
    first = next((finding for finding in all_findings if finding.channel == title), all_findings[0])
    return Finding(title, text, step=first.steps[0], **at_place(program, first.pc))


def window(program: Program, secret: Optional[str] = None, *, public: Names = (), slot: Optional[int] = None) -> Findings:
    """Finds double fetches from the window, and data that remains there or depends on a secret. Raises Unfinished if no enclave runs."""
    with searching("window", program, at=secret, public=public, slot=slot) as (findings, printer):
        run = ordered(program, "window")
        search, names = WindowSearch(run, variables_of(None, run.setup.image), WindowOptions(secret, slot, several(public))), []
        for activation, view in search.views():
            names.append("%s, activation %d" % (activation.world, activation.number))
            activation_text(printer, search.context, activation, view, search.secret)
            findings += [Finding(names[-1], text, step=activation.last, **at_place(program, pc))
                         for text, pc in rows_that_are_findings(activation, view, search.context, search.secret)]
        findings.checks = tuple(names)
    return findings


def inputs(program: Program, secret: Optional[str] = None, *, public: Names = (), runs: int = 300, seed: int = 0, entry: bool = False,
           slot: int = 0, seconds: Optional[float] = None, jobs: int = 1) -> Findings:
    """Varies what the host gives an enclave in `runs` runs, and finds what the host can make it do. A trap or a refused call in the run itself is a
    finding, too. Raises Unfinished if the enclave does not return in the run itself."""
    options = InputsOptions(slot, secret, several(public), entry, runs, seed, seconds, jobs=jobs)
    with searching("inputs", program, at=secret, public=public, runs=runs, seed=seed, entry=entry, slot=slot, seconds=seconds,
                   jobs=jobs if jobs > 1 else None) as (findings, printer):
        run, cases = ordered(program, "inputs"), ReportedCases()
        report = FailureReport((), program.symbols, printer, cases)
        result = find_inputs(run, variables_of(None, run.setup.image), options, report.show, BranchModels())
        findings += [Finding(failure.call or failure.name, failure_text(failure, program.symbols), step=failure.step,
                             **at_place(program, int(failure.at.pc, 16))) for failure in result.failures]
        search = result.search
        if search:
            print_text(search, result.groups, printer, options)
        for number, (group, heading) in enumerate(zip(result.groups, result.headings), 1):
            assert search is not None
            script, step = texts_of(search, group[0], heading)[0].decode("latin-1"), group[0].trace.steps[group[0].index]
            findings.append(Finding("finding %d" % number, "\n".join([heading, *details_of(search, group)]), script, step=step,
                                    **at_place(program, group[0].pc)))
        titles = [group.title for group in findings[len(result.failures):]]
        findings.checks = (*(case.name for case in cases.cases), *titles, "e%d: inputs of the host" % slot)
        findings.unfinished = result.not_replayed or result.cut_text
    return findings


def races(program: Program, *, forbid: Names = (), outcome: Names = (), timers: int = 0, preemptions: Optional[int] = None, end: Names = (),
          limit: int = 0, seconds: Optional[float] = None, jobs: int = 1) -> Findings:
    """Searches all schedules of two harts and of `timers` timer interrupts for final states that `forbid` names."""
    options = RacesOptions(several(forbid), several(outcome), several(end), preemptions, timers, limit=limit, seconds=seconds, jobs=jobs)
    with searching("races", program, forbid=forbid, outcome=outcome, timer=timers, preemptions=preemptions, end=end, limit=limit, seconds=seconds,
                   jobs=jobs if jobs > 1 else None) as (findings, printer):
        report = find_races(program.run, options)
        texts(report, printer)
        bad = [(bad_end[0].text, bad_end[1]) for bad_end in report.bad] if report.conditions else [
            ("final state %d" % story.end.number, story.end) for story in report.stories if report.is_finding(story)]
        findings += [Finding("--forbid " + name if report.conditions else name, report.title(end),
                             report.scripts[end.number].decode("latin-1")) for name, end in bad]
        findings.checks = tuple(["--forbid " + it.text for it in report.conditions] or ["final state %d" % it.end.number for it in report.stories])
        findings.unfinished = "" if report.bad else report.cut_text()
    return findings


def conform(monitor: PathLike, *, only: str = "", tries: int = 60, items: int = 120, jobs: int = 1, exact: bool = False, seed: int = 1,
            deep: bool = False, ram: Optional[int] = None, boot: Optional[str] = None, memory: Optional[str] = None,
            seconds: Optional[float] = None) -> Findings:
    """Compares a monitor of your own with the proved one, call by call (docs/OWN_MONITOR.md). `script` of the finding is the shrunk script for it."""
    files = MonitorFiles(os.fspath(monitor), ram=LEAST_RAM if ram is None else ram, boot=boot, exact=exact, memory=memory)
    has_ram = any(option is not None for option in (ram, boot, memory))
    plan = ScriptPlan(tries, items, str(seed), only, seconds, jobs, deep, has_ram)
    with searching("conform", None, os.fspath(monitor), only=only or None, tries=tries, items=items, jobs=jobs, exact=exact, seed=seed, deep=deep,
                   ram=ram, boot=boot, memory=memory, seconds=seconds) as (findings, printer):
        result = find_conform(files, plan, lambda it: show_counts(it, printer))
        if result.shrunk:
            findings.append(Finding("conform", result.finding, "".join(line + "\n" for line in result.shrunk.played.own_log)))
        findings.checks, findings.unfinished = ("conform",), unexamined_part(result.outcome, plan)
    return findings


def guard(image: PathLike, ranges: PathLike, *, host: Optional[PathLike] = None, timers: int = 8, seed: int = 1, steps: int = 20000, jobs: int = 1,
          ram: int = LEAST_RAM, boot: Optional[str] = None) -> Findings:
    """Checks that an M-mode monitor with calls of any kind isolates the worlds in S and U (docs/OWN_MONITOR.md). `ranges` is the file that says
    who owns which memory. A finding has the step below M and the pc of the trap."""
    path = None if host is None else os.fspath(host)
    files = MonitorFiles(os.fspath(image), path, ram=ram, boot=boot)
    with searching("guard", None, os.fspath(image), os.fspath(ranges), host=path, timers=timers, seed=seed, steps=steps, jobs=jobs, ram=ram,
                   boot=boot) as (findings, printer):
        setup, symbols = files.setup()
        plan = GuardPlan(setup, ownership_of(os.fspath(ranges), symbols), symbols, steps, seed, timers, jobs)
        with Progress() as progress:
            results = do_runs(plan, progress, lambda number, it: show_run(printer, plan.name(number), it))
        show_results(plan, results, printer)
        violation = results.violation
        if violation:
            findings.append(Finding(violation.check, violation.text, pc=violation.pc, step=violation.step, source=symbols.line(violation.pc)))
        findings.checks, findings.unfinished = ("guard",), "; ".join(unexamined_parts(results, plan))
    return findings


def timer(program: Program, *, slot: int = 0, every: int = 1, jobs: int = 1) -> Findings:
    """Interrupts an enclave before every Nth of its steps, and compares the result with that of the run without interrupts. Raises Unfinished if
    there is no enclave in the slot, or if the enclave executes no step."""
    with searching("timer", program, slot=slot, every=every, jobs=jobs if jobs > 1 else None) as (findings, printer):
        run = ordered(program, "timer")
        options = TimerOptions(slot, every, jobs)
        outcome, last_step = find_timer(run, options)
        timer_text(run, printer, options, outcome)
    difference = outcome.difference
    if difference is not None:
        pc = None if difference.pc is None else int(difference.pc, 16)
        place = "" if difference.pc is None else " at " + place_text(difference.pc, program.symbols)
        findings.append(Finding("step %d of e%d%s" % (difference.number, slot, place), "%s instead of %s" % (difference.actual, difference.expected),
                                step=difference.number, **at_place(program, pc)))
    findings.checks = ("e%d: same result with timer interrupts" % slot,)
    if outcome.not_resumed is not None:
        step = outcome.not_resumed.number
        findings.unfinished = "the host does not resume the enclave in slot %d after the interrupt at its step %d" % (slot, step)
    elif last_step.is_cut:
        findings.unfinished = "the run ended while the enclave in slot %d was running" % slot
    return findings


def verify(program: Program, secret: Names = (), *, public: Names = (), must_know: Names = (), must_matter: Names = (), wiped: bool = False,
           given: Names = (), length: Names = (), allow: Names = (), calm: bool = False, each: bool = False, activations: Optional[int] = None,
           bound: int = VerifyOptions.bound, loops: bool = False, seconds: float = VerifyOptions.seconds, slot: int = 0) -> Findings:
    """Explores all paths of an enclave, for all inputs and secrets (docs/VERIFY.md). Findings whose replay differs are left out. `unfinished` is
    empty only if the result is COMPLETE. Raises Unfinished if no enclave runs in the slot, or z3 is missing."""
    options = VerifyOptions(slot, several(secret), several(public), several(must_know), several(must_matter), wiped, several(given),
                            several(length), several(allow), calm, not each, activations, bound, loops, seconds)
    with searching("verify", program, at=secret, public=public, must_know=must_know, must_matter=must_matter, wiped=wiped, given=given, length=length,
                   allow=allow, calm=calm, each=each, activations=activations, bound=bound, loops=loops, seconds=seconds,
                   slot=slot) as (findings, printer):
        run = ordered(program, "verify")
        search = find_verify(run, program.symbols, variables_of(None, run.setup.image), options)
        asked = answers(search)
        for example in (finding for answer in asked for finding in answer.findings):
            heading = heading_of(search, example)
            script = input_of(run, example, heading).decode("latin-1")
            text = "\n".join(details_of_path(search, example))
            findings.append(Finding(heading, text, script, step=len(example.pcs), **at_place(program, example.pc)))
        print_answers(search, asked, printer)
        findings.checks, findings.unfinished = tuple(question.name for question in asked), unfinished_text(search)
    if search.is_cut:
        raise KeyboardInterrupt
    return findings


def overflows(program: Program) -> Findings:
    """Finds stack overflows in the run of the program (docs/AUTHORS.md, Stacks)."""
    findings = Findings([Finding("stack overflow", overflow_text(overflow, program.symbols), step=overflow.step, **at_place(program, overflow.pc))
                         for overflow in overflows_of(program.run, program.symbols)], command_of("touch", program))
    findings.checks = ("stack",)
    return findings


FINDERS: Dict[str, Callable[..., Findings]] = {
    "overflows": overflows, "leaks": leaks, "window": window, "inputs": inputs, "timer": timer, "races": races, "conform": conform,
    "guard": guard, "verify": verify}
