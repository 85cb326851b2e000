"""A search of `inputs` within its time limit, and its report: the findings, each with its input and its script, and what the search covered. Each
finding is replayed before it is reported. Ctrl-C ends the search too, and its results so far are kept."""
from __future__ import annotations

from dataclasses import dataclass, field
from typing import Callable, Iterator, NamedTuple, Optional, Sequence

from rvlook.access.failures import Failure, FailureReport, expectation_of, failures_of
from rvlook.errors import Unfinished
from rvlook.finders.inputs.code import Kind
from rvlook.finders.inputs.judge import FAULT, InputFinding, FindingKind
from rvlook.finders.inputs.search import InputSearch
from rvlook.finders.inputs.secret_rules import SecretRules, replayed_states
from rvlook.finders.inputs.trace import Change, Changes, Trace
from rvlook.finders.inputs.tracer import access_of
from rvlook.finders.inputs.values import Child
from rvlook.finders.leak import public_of
from rvlook.finders.races.replay import command_of, input_of
from rvlook.finders.races.time_limit import OutOfTime, TimeLimit
from rvlook.finders.secrets import secret_of
from rvlook.image.variables import Variables
from rvlook.output.files import write_files
from rvlook.output.findings import ReportedCases
from rvlook.output.printer import Json, Printer, Style, hex8, run_object
from rvlook.output.progress import Progress
from rvlook.protocol.replies import ROW, register_values
from rvlook.protocol.run import End, Run
from rvlook.protocol.symbols import Symbols
from rvlook.protocol.timeline import Timeline

Group = Sequence[InputFinding]  # the findings of one instruction and kind; the first one has the fewest changes, and is replayed
Models = Callable[[InputSearch, Trace], Iterator[Child]]
TIME_LIMIT_OPTION, INTERRUPT = "--seconds", "Ctrl-C"  # the names of what ends a search early
GRACE_SECONDS = 2.0  # seconds after the limit in which the findings are completed, and as many again in which they are replayed
MAX_NAMES = 4  # names in a list
MAX_PRINTED_BYTES = 16  # bytes of a value that is printed whole


def replay_of(search: InputSearch, finding: InputFinding) -> Timeline:
    """Starts the run with the changes of a finding."""
    return search.tracer.with_changes(finding.trace.changes).replay()


def lines_to_input(replay: Timeline, finding: InputFinding) -> list[str]:
    """Returns the commands from the start of a replay up to the last change of a finding."""
    return replay.lines_to(max((change.step for change in finding.trace.changes), default=0)) + replay.lines_up_to_next()


def lines_after(search: InputSearch, replay: Timeline, finding: InputFinding) -> list[str]:
    """Returns the commands from the last change to the step of the finding: they go there, show the instruction and its operands, and do the step."""
    trace, index = finding.trace, finding.index
    commands = replay.lines_to(trace.steps[index] - 1) + ["dis %x" % trace.pcs[index]]
    commands += ["reg %d" % probe for probe in search.tracer.code[trace.pcs[index]].probes] + ["step 1"]
    if finding.kind is FindingKind.SECRET and finding.address:
        commands.append("mem %x %d" % (finding.address, min(ROW, len(search.rules.secret.bytes) if search.rules else ROW)))
    return commands


def check_replay(search: InputSearch, finding: InputFinding) -> None:
    """Replays a finding; raises Unfinished if the simulator does not execute the same step with the same operands."""
    trace, index = finding.trace, finding.index
    with replay_of(search, finding) as replay:
        before, after = lines_to_input(replay, finding), lines_after(search, replay, finding)
        replies = replay.bench.ask(*before, *after)
    pc, code = trace.pcs[index], search.tracer.code[trace.pcs[index]]
    replies_from_dis = replies[len(before) + after.index("dis %x" % pc):]
    *_, reply_before_step, _reply_to_step = [reply[0] for reply in replies if reply and reply[0].startswith("ran ")]
    values = register_values(reply[0] for reply in replies_from_dis[1:1 + len(code.probes)])
    is_same_address = not code.probes or access_of(code, values)[0] == trace.addresses[index]
    if " pc=%08x " % pc not in reply_before_step or not is_same_address:
        raise Unfinished("a finding at step %d differs in its replay on rvbench" % trace.steps[index])


def texts_of(search: InputSearch, finding: InputFinding, heading: str) -> tuple[bytes, bytes]:
    """Returns two inputs of rvbench: one that replays a finding, and one that ends after its last change."""
    setup = search.run.setup
    with replay_of(search, finding) as replay:
        before = lines_to_input(replay, finding)
        after = lines_after(search, replay, finding)
    return input_of(setup, before + after, heading, command_of(setup)), input_of(setup, before, heading)


def write_scripts(folder: str, search: InputSearch, findings: Sequence[InputFinding], headings: Sequence[str]) -> None:
    """Writes `finding_N`, which replays a finding, and `finding_N.input`, up to its last change. Raises Unfinished if a file cannot be written."""
    write_files(folder, ((name % number, text) for number, (finding, heading) in enumerate(zip(findings, headings), 1)
                         for name, text in zip(("finding_%d", "finding_%d.input"), texts_of(search, finding, heading))))


class InputsOptions(NamedTuple):
    """The options of `inputs`."""
    slot: int = 0  # the slot of the enclave
    at: Optional[str] = None  # the place of its secret; None for no secret
    public: Sequence[str] = ()  # outputs that may depend on the secret
    entry: bool = False  # whether the registers at the entry are inputs
    runs: int = 300  # the most runs
    seed: int = 0  # the seed of the random values
    seconds: Optional[float] = None  # the most seconds; None: no limit
    expected: Sequence[str] = ()  # names of failures of the run itself that are no findings
    scripts: Optional[str] = None  # the folder for the inputs of findings; None: not written
    jobs: int = 1  # number of processes


@dataclass
class Inputs:
    """A search of `inputs`, and its result."""
    options: InputsOptions  # the options of the command
    limit: TimeLimit  # the limit of the time
    models: Optional[Models]  # proposes inputs that a solver computes; None without a solver
    failures: Sequence[Failure]  # the failures of the run itself
    search: Optional[InputSearch] = None  # None if the run itself was not traced
    states: list[InputFinding] = field(default_factory=list)  # findings that the enclave accepts an older state
    groups: Sequence[Group] = ()  # the findings, grouped by kind and source line
    headings: Sequence[str] = ()  # a line about each group
    cut: str = ""  # what ended the search early; empty if nothing did
    not_replayed: str = ""  # why findings were not replayed; empty if they were

    def run_search(self, run: Run, symbols: Symbols, variables: Variables) -> None:
        """Searches to the end, to the limit or to Ctrl-C. Raises Unfinished if the enclave does not return in the run itself."""
        try:
            with self.limit.until(1.0), Progress() as progress:
                search = InputSearch(run, symbols, variables, self.options.slot, self.options.seed)
                search.models, search.jobs = self.models or search.models, self.options.jobs
                self.prepare(search)
                self.search = search
                for state in replayed_states(search, search.base_details.loaded):
                    self.states.append(state)
                search.go(self.options.runs, progress)
        except OutOfTime:
            self.cut = TIME_LIMIT_OPTION
        except KeyboardInterrupt:
            self.cut = INTERRUPT

    def prepare(self, search: InputSearch) -> None:
        """Prepares a search: the rules of the secret, if there is one, and the first runs."""
        options = self.options
        if options.at:
            secret = secret_of(options.at, search.symbols, search.run, options.slot)
            search.rules = SecretRules(search, secret.with_bytes(secret.bytes_in(search.run)), public_of(options.public, search.symbols))
        search.start(search.rules.secret.at if search.rules else None, options.entry)

    def findings(self) -> list[InputFinding]:
        """Returns the findings of the search. Findings about the secret come last."""
        search = self.search
        assert search is not None
        findings = [*search.judge.sure_findings(), *self.states]
        if search.rules:
            findings += search.rules.findings
            try:
                with self.limit.until(1.0, GRACE_SECONDS):
                    findings += search.rules.unchecked_outputs()
            except OutOfTime:
                self.cut = TIME_LIMIT_OPTION
        return findings

    @property
    def cut_text(self) -> str:
        """Returns what ended the search early, and how many runs were done; empty if it was not ended early."""
        runs = self.search.tracer.runs if self.search else 0
        return "%s ended inputs after %d of %d runs" % (self.cut, runs, self.options.runs) if self.cut else ""


def find_inputs(run: Run, variables: Variables, options: InputsOptions, heard: Callable[[Sequence[Failure]], None] = lambda it: None,
                models: Optional[Models] = None) -> Inputs:
    """Searches inputs, proposed by `models` too, and replays the findings. Calls `heard` first, with the failures of the run itself."""
    result = Inputs(options, TimeLimit(options.seconds), models, failures_in(run, options.slot))
    heard(result.failures)
    result.run_search(run, run.setup.symbols, variables)
    if result.search:
        result.groups = groups_of(result.search, result.findings())
        result.not_replayed = replay_all(result.limit, result.search, result.groups)
        result.headings = [heading_of(result.search, group) for group in result.groups]
    return result


def show_inputs(run: Run, variables: Variables, printer: Printer, options: InputsOptions, findings: ReportedCases, models: Models) -> None:
    """Searches the inputs of an enclave, and prints the findings and the coverage, also after Ctrl-C, before it raises KeyboardInterrupt."""
    symbols = run.setup.symbols
    if printer.as_json:
        run_object(printer, run, symbols)
    report = FailureReport([expectation_of(text, symbols) for text in options.expected], symbols, printer, findings)
    result = find_inputs(run, variables, options, report.show, models)
    if result.not_replayed:
        findings.cut_short(result.not_replayed)
    if result.search:
        show_findings(result, result.search, printer, findings)
    if result.cut:
        printer.stream.flush()
        findings.cut_short(result.cut_text)
    if result.cut == INTERRUPT:
        raise KeyboardInterrupt


def show_findings(result: Inputs, search: InputSearch, printer: Printer, findings: ReportedCases) -> None:
    """Prints the findings of a search, and its coverage."""
    options, groups = result.options, result.groups
    if options.scripts:
        write_scripts(options.scripts, search, [group[0] for group in groups], result.headings)
    (write_objects if printer.as_json else print_text)(search, groups, printer, options)
    for number, (group, heading) in enumerate(zip(groups, result.headings), 1):
        findings.add("finding %d" % number, "\n".join([heading, *details_of(search, group)]))
    if not groups:
        findings.add("e%d: inputs of the host" % options.slot)


def replay_all(limit: TimeLimit, search: InputSearch, groups: Sequence[Group]) -> str:
    """Replays the first finding of each group, and reads the values that its changes replace. Returns why some were left out; empty if none were."""
    number = 0  # of the group that is replayed, from 1
    try:
        with limit.until(1.0, 2 * GRACE_SECONDS):
            for number, group in enumerate(groups, 1):
                group[0].trace.changes = with_old_values(search.run, group[0].trace.changes)
                check_replay(search, group[0])
    except OutOfTime:
        not_replayed = len(groups) - number + 1
        return "--seconds ended inputs before rvbench replayed the last %d of %d findings; use a larger --seconds" % (not_replayed, len(groups))
    return ""


def failures_in(run: Run, slot: int) -> list[Failure]:
    """Returns the traps and the refused calls of the enclave in the run itself, before any input is changed."""
    last = next(stretch.steps for stretch in run.stretches() if isinstance(stretch, End))
    return [failure for failure in failures_of(run, "", last) if failure.at.world == "e%d" % slot]


def groups_of(search: InputSearch, findings: Sequence[InputFinding]) -> list[Group]:
    """Returns the findings in groups. A group has one kind at one source line, or at one instruction without source lines."""
    findings_by_key: dict[tuple[object, ...], list[InputFinding]] = {}
    for finding in findings:
        what_is_equal: object = search.symbols.line(finding.pc) or finding.pc  # in all findings of a group
        if finding.kind in (FindingKind.SECRET, FindingKind.CHECK, FindingKind.REPLAY):
            what_is_equal = finding.note
        elif finding.kind is FindingKind.STUCK:
            what_is_equal = finding.place
        findings_by_key.setdefault((finding.kind, what_is_equal), []).append(finding)
    order = list(FindingKind)
    groups = [sorted(group, key=priority) for group in findings_by_key.values()]
    return sorted(groups, key=lambda it: (order.index(it[0].kind), it[0].pc, it[0].trace.steps[it[0].index]))


def priority(finding: InputFinding) -> tuple[object, ...]:
    """Returns the sort key of a finding in its group: objects before traps, few changes before many, walks first, early steps before late ones."""
    return finding.place is FAULT, finding.cost, not finding.is_walk, finding.trace.steps[finding.index]


def heading_of(search: InputSearch, group: Group) -> str:
    """Returns a finding in one line."""
    finding = group[0]
    where = search.symbols.line(finding.pc) or search.symbols.name(finding.pc) or "%08x" % finding.pc
    return "%s, at %s" % (TEXTS[finding.kind](finding), where)


def access_text(finding: InputFinding) -> str:
    """Returns in words what the access of a finding does."""
    usual = " or ".join(finding.usual[:MAX_NAMES]) or "nothing"
    if finding.place is FAULT:
        return "%s traps at an address that the host chooses" % finding.kind.value
    if finding.is_walk:
        return "%s moves over the end of %s into %s" % (finding.kind.value, usual, finding.place.name)
    return "%s reaches %s, where the run reaches %s" % (finding.kind.value, finding.place.name, usual)


TEXTS = {
    FindingKind.LOAD: access_text, FindingKind.STORE: access_text,
    FindingKind.CALL: lambda it: "call to %s, an address that the host chooses" % it.place.name,
    FindingKind.RETURN: lambda it: "return to %08x, not to its caller" % it.address,
    FindingKind.FAULT: lambda it: "the enclave traps: %s" % it.note, FindingKind.STUCK: lambda it: "the enclave does not return",
    FindingKind.SECRET: lambda it: it.note, FindingKind.CHECK: lambda it: it.note, FindingKind.REPLAY: lambda it: it.note}


def details_of(search: InputSearch, group: Group) -> list[str]:
    """Returns the lines after the heading of a finding: its step, its caller, the reached objects and the changed inputs."""
    finding = group[0]
    step, name = finding.trace.steps[finding.index], search.symbols.name(finding.pc) or ""
    lines = ["  step %d  %08x  %s  %s" % (step, finding.pc, name, search.tracer.code[finding.pc].text)]
    caller = search.tracer.contexts.calls[finding.context] if finding.context else 0
    if caller:
        lines.append("  called from %08x  %s" % (caller, search.symbols.line(caller) or search.symbols.name(caller) or ""))
    if finding.kind in (FindingKind.LOAD, FindingKind.STORE):
        for other in group[:MAX_NAMES]:
            lines.append("  %08x  %s" % (other.address, other.place.name if other.place is not FAULT else "traps, " + other.note))
    changes = ["  input  " + change_text(change) for change in finding.trace.changes]
    return [line.rstrip() for line in lines] + (changes or ["  input  none: the run itself"])


def change_text(change: Change) -> str:
    """Returns a change in words."""
    is_short = len(change.value) <= MAX_PRINTED_BYTES
    value = change.value.hex() if is_short else "%s... (%d bytes)" % (change.value[:MAX_PRINTED_BYTES].hex(), len(change.value))
    if len(change.value) in (1, 2, 4) and len(change.old) == 2 * len(change.value):
        new, old = (int.from_bytes(data, "little") for data in (change.value, bytes.fromhex(change.old)))
        return "%s = 0x%x instead of 0x%x, after step %d%s" % (change.name, new, old, change.step, place_of(change))
    return "%s = bytes %s, after step %d%s" % (change.name, value, change.step, place_of(change))


def with_old_values(run: Run, changes: Changes) -> Changes:
    """Returns changes with the values that they replace: those of a run with only the earlier changes, at the step of each change."""
    changes_with_old: list[Change] = []
    for change in changes:
        with run.replay() as replay:
            replay.go(change.step)
            changes_with_old.append(change._replace(old=value_in(replay, change).hex()))
        run = run.with_lines(change.step, change.lines())
    return tuple(changes_with_old)


def value_in(replay: Timeline, change: Change) -> bytes:
    """Reads the bytes or the register of a change."""
    if change.register:
        return replay.bench.register(change.register).to_bytes(len(change.value), "little")
    return replay.bench.memory(change.at, len(change.value))


def place_of(change: Change) -> str:
    """Returns the address of a change in memory."""
    return "" if change.register else " (%08x, %d bytes)" % (change.at, len(change.value))


def coverage_of(search: InputSearch) -> dict[str, int]:
    """Counts what was covered: inputs, runs with another value, executed branches and those that went both ways, source lines, instructions."""
    branches: dict[int, set[int]] = {}
    for pc, following in search.judge.seen.pairs:
        if search.tracer.code[pc].kind is Kind.BRANCH:
            branches.setdefault(pc, set()).add(following)
    enclave, symbols = search.objects.enclave, search.symbols
    lines = {symbols.source(pc) for pc in search.judge.seen.pcs} - {None}
    all_lines = {source for source in symbols.sources_in(enclave.base, enclave.base + enclave.size) if source}
    return dict(inputs=len(search.inputs), values=search.tracer.runs - 1, branches=len(branches),
                both_ways=sum(len(branch) > 1 for branch in branches.values()), lines=len(lines), all_lines=len(all_lines),
                instructions=len(search.judge.seen.pcs))


def coverage_text(search: InputSearch) -> str:
    """Returns what the search covered, as a line."""
    coverage = coverage_of(search)
    lines = ", %(lines)d of %(all_lines)d lines" if coverage["all_lines"] else ", %(instructions)d instructions"
    cut = "; %d runs were cut after %d steps" % (search.tracer.cut, search.tracer.limit) if search.tracer.cut else ""
    waits = "; %d runs wait for the host to change the window" % search.tracer.waiting if search.tracer.waiting else ""
    exhausted = "; each value was tried" if search.is_exhausted else ""
    text = "Covered: %(inputs)d inputs, %(values)d runs with other values, %(both_ways)d of %(branches)d branches both ways" + lines
    return text % coverage + cut + waits + exhausted


def print_text(search: InputSearch, groups: Sequence[Group], printer: Printer, options: InputsOptions) -> None:
    """Prints the findings and the coverage."""
    for number, group in enumerate(groups, 1):
        printer.line(printer.styled("finding %d: %s" % (number, heading_of(search, group)), Style.bad))
        for line in details_of(search, group):
            printer.line(line)
        if options.scripts:
            printer.line("  script %s/finding_%d" % (options.scripts, number))
    for row in inputs_text(search):
        printer.line(row)
    count = "no finding" if not groups else "1 finding" if len(groups) == 1 else "%d findings" % len(groups)
    printer.line("%s, seed %d. %s" % (count, options.seed, coverage_text(search)))


def inputs_text(search: InputSearch) -> list[str]:
    """Returns the inputs of the run itself, one line for each instruction that loads any."""
    rows: dict[tuple[object, ...], list[str]] = {}
    for input_ in search.inputs.values():
        source = search.symbols.line(input_.pc) or search.symbols.name(input_.pc) or "%08x" % input_.pc
        where = "activation %d" % (input_.visit + 1) if input_.register else source
        name = "a%d" % (input_.register - 10) if input_.register else search.values.name(input_.at)
        rows.setdefault(("again" if input_.is_loaded_again else "", where), []).append(name)
    lines = []
    for (again, place), named in rows.items():
        distinct_names = list(dict.fromkeys(named))
        more = ", ..." if len(distinct_names) > MAX_NAMES else ""
        lines.append("input%s  %s  %s" % (" again" if again else "", ", ".join(distinct_names[:MAX_NAMES]) + more, place))
    return lines


def write_objects(search: InputSearch, groups: Sequence[Group], printer: Printer, options: InputsOptions) -> None:
    """Writes the findings and the coverage as objects."""
    for number, group in enumerate(groups, 1):
        finding = group[0]
        printer.object("finding", number=number, what=finding.kind.value, text=heading_of(search, group),
                       step=finding.trace.steps[finding.index], pc=hex8(finding.pc), symbol=search.symbols.name(finding.pc),
                       source=search.symbols.source(finding.pc),
                       reached=[{"address": hex8(other.address), "name": other.place.name} for other in group], usual=list(finding.usual),
                       inputs=[change_object(change) for change in finding.trace.changes],
                       script="%s/finding_%d" % (options.scripts, number) if options.scripts else None)
    printer.object("inputs", slot=options.slot, seed=options.seed, findings=len(groups), runs=search.tracer.runs, cut=search.tracer.cut,
                   exhausted=search.is_exhausted, **coverage_of(search))


def change_object(change: Change) -> dict[str, Json]:
    """Returns a change as an object."""
    return {"name": change.name, "step": change.step, "address": None if change.register else hex8(change.at),
            "register": "a%d" % (change.register - 10) if change.register else None, "value": change.value.hex(), "instead_of": change.old}
