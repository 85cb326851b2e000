"""The report of `races`: the final states, each with the simplest order that leads to it, and what was covered."""
from __future__ import annotations

from dataclasses import dataclass, field
from typing import Dict, Iterator, List, NamedTuple, Optional, Sequence, Set, Tuple

from rvlook.errors import RvlookError, Unfinished, warn
from rvlook.finders.outcomes import EnclaveStates, Forbidden, Observed, Value, condition_of, number_of, outcomes_of, ranges_of, value_text, watched_of
from rvlook.finders.races.final_states import (ENDED, GRACE, HALTS, NOT_SEARCHED, RUNS_ON, SLACK, UNFINISHED, WAITS, FinalState, FinalStates,
                                               find_final_states)
from rvlook.finders.races.machine import RaceMachine, commands_of
from rvlook.finders.races.parallel import MovesAhead
from rvlook.finders.races.replay import Replays, script_of
from rvlook.finders.races.search import MAX_MOVES_ALONE, DependentStep, ScheduleSearch, SearchBounds, SearchNode
from rvlook.finders.races.time_limit import OutOfTime, TimeLimit
from rvlook.output.files import write_files
from rvlook.output.findings import ReportedCases
from rvlook.output.printer import Json, Printer, Style, counted, hex8, place_text, run_object
from rvlook.output.progress import Progress
from rvlook.protocol.run import Run
from rvlook.protocol.symbols import Symbols

INTERRUPT = "Ctrl-C"
MAX_ACCESSES_SHOWN = 3  # accesses at the beginning and at the end of a hart's turn
PROGRESS = "round %d: %d states, %d queued, %d preemptions, %d timers, %d runs of rvbench"
HOW_TEXT = {WAITS: "waits forever", RUNS_ON: "runs forever", NOT_SEARCHED: "not searched further"}


class Story:
    """Describes a final state in lines of text, or as an object."""
    def __init__(self, end: FinalState, outcome: Sequence[Observed], search: ScheduleSearch, symbols: Symbols,
                 end_pcs: Sequence[Set[int | None]]) -> None:
        # `end_pcs`: for each hart, its pcs in all final states
        self.end, self.outcome, self.search, self.symbols, self.end_pcs = end, outcome, search, symbols, end_pcs

    def heading(self) -> str:
        """Returns a final state as a line: its values, and how each hart ended, unless the hart ended at the same pc in all final states."""
        parts = ["%s=%s" % (observed.name, value_text(value)) for observed, value in zip(self.outcome, self.end.values) if value != ()]
        for hart, (how, pc) in enumerate(self.end.harts):
            if how == UNFINISHED:
                parts.append("hart %d not finished after %s" % (hart, self.limit(hart)))
            elif how == HALTS:
                parts.append("hart %d halts at %s, which is not an --end" % (hart, self.location(pc)))
            elif how != ENDED:
                parts.append("hart %d %s" % (hart, HOW_TEXT[how]))
            elif len(self.end_pcs[hart]) > 1:
                parts.append("hart %d at %s" % (hart, self.location(pc)))
        return "  ".join(parts) or "all harts ended"

    def limit(self, hart: int) -> str:
        """Returns how far a hart ran before it was given up."""
        search, state = self.search, self.end.node.point.state
        is_alone = any((state, hart) in graph.unended_alone for graph in search.graphs())
        return "%d transitions alone" % MAX_MOVES_ALONE if is_alone else counted(search.bounds.steps, "step")

    def location(self, pc: int | None) -> str:
        """Returns the source line of a pc, its symbol or its address. The pc must not be None."""
        assert pc is not None
        return self.symbols.place(pc)

    def turns(self) -> list[list[SearchNode]]:
        """Returns the moves that lead to the final state, grouped by hart; a timer interrupt begins a group."""
        turns: list[list[SearchNode]] = []
        for node in self.end.node.path():
            if turns and turns[-1][0].point.last_hart == node.point.last_hart and not node.is_timer:
                turns[-1].append(node)
            else:
                turns.append([node])
        return turns

    def sentences(self) -> Iterator[str]:
        """Yields sentences about interleaved accesses and timer interrupts."""
        turns = self.turns()
        for number, turn in enumerate(turns):
            if turn[0].is_timer:
                yield "%s before %s" % (timer_text(turn[0].last_move.dependent), self.location(turn[0].last_move.dependent.pc))
            elif 0 < number < len(turns) - 1:
                before, after = turns[number - 1], turns[number + 1]
                steps = [[node.last_move.dependent for node in nodes] for nodes in (before, turn, after)]
                pcs_before, pcs, pcs_after = ([step.pc for step in turn_steps if step.pc is not None] for turn_steps in steps)
                has_steps = bool(pcs_before and pcs and pcs_after)  # dependent steps, in each of the three turns
                if has_steps and before[0].hart == after[0].hart != turn[0].hart and not after[0].is_timer:
                    yield "hart %d executes %s between %s and %s of hart %d" % (
                        turn[0].hart, self.span(pcs), self.location(pcs_before[-1]), self.location(pcs_after[0]), before[0].hart)

    def span(self, pcs: Sequence[int]) -> str:
        """Returns the places of the first and the last of these pcs as text; one place if they are the same."""
        first, last = self.location(pcs[0]), self.location(pcs[-1])
        return first if first == last else "%s to %s" % (first, last)

    def access(self, node: SearchNode) -> str:
        """Returns the dependent step of a move as a line: its access, and its place."""
        dependent = node.last_move.dependent
        pc, look = dependent.pc, dependent.look
        assert pc is not None and look is not None
        if node.is_timer:
            access = timer_text(dependent)
        elif look.kind in ("r", "w"):
            access = "%s %08x %d  %s" % (look.kind, look.address, look.width, self.symbols.name(look.address) or "")
        else:
            access = "monitor call" if look.kind == "call" else "x"
        return "      %-34s %s" % (access.rstrip(), place_text("%08x" % pc, self.symbols))

    def lines(self, total: int) -> Iterator[str]:
        """Yields the lines of a final state after its heading. `total` is the number of all schedules."""
        cost = self.end.node.cost
        parts = [counted(cost.preemptions, "preemption")] + ([counted(cost.timers, "timer")] if self.search.bounds.timers else [])
        switches = counted(cost.switches, "switch").replace("switchs", "switches")
        yield "  %d of %s; simplest: %s, %s, %s" % (self.end.orders, counted(total, "schedule"), ", ".join(parts), switches,
                                                    counted(self.end.steps, "step"))
        yield from ("  " + sentence for sentence in self.sentences())
        for turn in self.turns():
            yield "    hart %d, %s" % (turn[0].hart, counted(sum(node.last_move.steps for node in turn), "step"))
            lines = [self.access(node) for node in turn if node.last_move.dependent.pc is not None]
            yield from lines if len(lines) <= 2 * MAX_ACCESSES_SHOWN + 1 else \
                [*lines[:MAX_ACCESSES_SHOWN], "      ... %d more" % (len(lines) - 2 * MAX_ACCESSES_SHOWN), *lines[-MAX_ACCESSES_SHOWN:]]
        for segment in self.end.tail:
            yield "    then hart %d, %s" % (segment.hart, counted(segment.steps, "step"))
        if self.end.round:
            segments = ["%s of hart %d" % (counted(segment.steps, "step"), segment.hart) for segment in self.end.round]
            yield "    then repeats " + ", ".join(segments)

    def object(self, printer: Printer) -> None:
        """Writes the final state as an object."""
        end, hart_count = self.end, self.search.machine.hart_count
        cost = end.node.cost
        turns = [dict(hart=turn[0].hart, steps=sum(node.last_move.steps for node in turn),
                      accesses=[self.access_object(node) for node in turn if node.last_move.dependent.pc is not None]) for turn in self.turns()]
        printer.object("final_state", number=end.number, values={observed.name: shown(value) for observed, value in zip(self.outcome, end.values)},
                       harts=[dict(hart=hart, how=how, pc=hex8(pc)) for hart, (how, pc) in enumerate(end.harts)], schedules=end.orders,
                       preemptions=cost.preemptions, timers=cost.timers, switches=cost.switches, steps=end.steps, summary=list(self.sentences()),
                       schedule=commands_of(end.schedule(), hart_count), loop=commands_of(end.round, hart_count) if end.round else [], turns=turns)

    def access_object(self, node: SearchNode) -> dict[str, Json]:
        """Returns the access of a node as an object."""
        look, pc = node.last_move.dependent.look, node.last_move.dependent.pc
        assert look is not None and pc is not None
        return dict(kind="timer" if node.is_timer else look.kind or "x", address=hex8(look.address) if look.kind in ("r", "w") else None,
                    symbol=self.symbols.name(look.address) if look.kind in ("r", "w") else None, pc=hex8(pc), source=self.symbols.source(pc))


def timer_text(step: DependentStep) -> str:
    """Returns what the timer interrupt does. On the bare bench it may be masked."""
    return "timer interrupt pending" if step.world == "bare" else "timer interrupt in " + step.world


def shown(value: Value) -> Json:
    """Returns a value for a JSON object: 1, 2 or 4 bytes as a number, other bytes as hexadecimal digits, the states of all enclaves as an object."""
    if isinstance(value, bytes):
        return number_of(value) if len(value) in (1, 2, 4) else value.hex()
    return dict(("e%d" % slot, state) for slot, state in value) if isinstance(value, tuple) else value


def bound_text(bounds: SearchBounds) -> str:
    """Returns the bounds of a search in words."""
    bound = []
    if bounds.preemptions is not None:
        bound.append("at most " + counted(bounds.preemptions, "preemption"))
    if bounds.timers:
        bound.append("at most " + counted(bounds.timers, "timer"))
    bounds_text = " with " + " and ".join(bound) if bound else ""
    if bounds.is_part:
        bounds_text += ", first switch after step %d%s" % (bounds.first, " or later" if bounds.last is None else " to %d" % bounds.last)
    return bounds_text


def covered_text(search: ScheduleSearch, final_states: FinalStates) -> str:
    """Returns in words what was searched. The word `all` appears only if no order is missing."""
    bounds, graph, schedules = bound_text(search.bounds), search.graph, counted(final_states.orders, "schedule")
    given_up = len(graph.unended_alone) + len(graph.unended_in_move)
    if search.why_cut:
        text = "stopped by %s after %s%s; completely searched: %s" % (search.why_cut, schedules, bounds, level_text(search))
        text += "; not every final state was replayed" if final_states.is_cut else ""
    elif final_states.is_cut:
        text = "stopped by --seconds before every final state was replayed; %s%s" % (schedules, bounds)
    elif given_up:
        text = schedules + bounds
    else:
        text = "all %d of %s%s" % (final_states.orders, schedules, bounds)
    return text + ("; not beyond %s in which a hart did not finish" % counted(given_up, "state") if given_up else "")


def level_text(search: ScheduleSearch) -> str:
    """Returns the orders that were completely searched before the search was cut."""
    if search.whole_level is None:
        return "none"
    preemptions, timers = search.whole_level
    preemptions_text = ["at most " + counted(preemptions, "preemption")] if search.machine.hart_count > 1 else []
    timers_text = ["at most " + counted(timers, "timer")] if search.bounds.timers else []
    return "those with " + " and ".join(preemptions_text + timers_text)


class RacesOptions(NamedTuple):
    """The options of `races`."""
    forbid: Sequence[str] = ()  # conditions that no final state may meet
    outcome: Sequence[str] = ()  # what distinguishes final states; empty: all shared memory
    end: Sequence[str] = ()  # the places at which a hart may end; empty: any
    preemptions: Optional[int] = None  # the most preemptions; None: any number
    timers: int = 0  # the most timer interrupts
    first: int = 0  # the first switch or timer interrupt comes right after this step, or later,
    last: Optional[int] = None  # and at the latest right after this one; None: no limit
    limit: int = 0  # steps after which each hart ends; 0: no limit
    plain: bool = False  # whether harts switch before each step, without reduction
    seconds: Optional[float] = None  # the seconds of search and replay, at most; None: no limit
    symbols: Optional[str] = None  # the file of variables; None: the image
    scripts: Optional[str] = None  # the folder for inputs that replay the final states; None: not written
    jobs: int = 1  # processes that search and replay


def find_races(run: Run, options: RacesOptions) -> RacesReport:
    """Searches all orders, replays the final states, and writes them to the folder of the options. Raises Unfinished if no search is possible."""
    symbols = run.setup.symbols
    conditions = [condition_of(text, symbols) for text in options.forbid]
    outcome = outcomes_of(options.outcome, conditions, run, options.symbols)
    ends = [address_of(text, symbols) for text in options.end]
    bounds = SearchBounds(options.preemptions, options.timers, run.setup.limit, options.first, options.last)
    limit = TimeLimit(options.seconds)
    machine = RaceMachine(run, ends, options.limit)
    try:
        with Progress() as progress:
            search = ScheduleSearch(machine, bounds, options.plain, watched_of(outcome), limit)
            if options.jobs > 1:
                MovesAhead(search, options.jobs)
            search.progress = lambda it: progress.show(PROGRESS, it.rounds, len(it.visited), it.queued, *it.level, it.machine.runs)
            final_states = find_final_states(search, lambda it: outcome or [*ranges_of(it.shared_bytes, symbols), EnclaveStates()])
        return completed(RacesReport(run, symbols, search, final_states, conditions), options)
    except RvlookError as fault:  # the arguments are right, but the program cannot be searched
        raise Unfinished(str(fault)) from None
    finally:
        machine.close()


def show_races(run: Run, printer: Printer, options: RacesOptions, findings: ReportedCases) -> None:
    """Searches all orders, and prints the final states. Raises Unfinished if the program cannot be searched."""
    report = find_races(run, options)
    (objects if printer.as_json else texts)(report, printer)
    note(findings, report)
    if report.cut_text() and not report.bad:
        findings.cut_short(report.cut_text())
    if report.search.why_cut == INTERRUPT:
        raise KeyboardInterrupt


def address_of(text: str, symbols: Symbols) -> int:
    """Returns the address of a place. Raises RvlookError if the text is neither an address nor a symbol."""
    at = symbols.address(text)
    if at is None:
        raise RvlookError("'%s' is neither a hexadecimal address nor a symbol" % text)
    return at


@dataclass
class RacesReport:
    """A search of schedules, with its final states and their stories."""
    run: Run  # the run with its script
    symbols: Symbols  # name addresses
    search: ScheduleSearch  # has searched all orders
    final_states: FinalStates  # the final states of the search
    conditions: List[Forbidden]  # the conditions of --forbid
    stories: List[Story] = field(default_factory=list)  # describe the final states; empty before the replay
    bad: List[Tuple[Forbidden, FinalState]] = field(default_factory=list)  # each condition of --forbid with each final state that meets it
    scripts: Dict[int, bytes] = field(default_factory=dict)  # the input of the bench for each number

    def title(self, end: FinalState) -> str:
        """Returns a final state as a line with its number."""
        return "final state %d: %s" % (end.number, self.stories[end.number - 1].heading())

    def is_finding(self, story: Story) -> bool:
        """Returns whether a final state counts as a finding if there is no --forbid."""
        return story.end.number > 1 or not {how for how, _ in story.end.harts} <= {ENDED, UNFINISHED, NOT_SEARCHED}

    def cut_text(self) -> str:
        """Returns why a part of the orders was not searched; empty if all were, or if Ctrl-C ended the search."""
        if is_whole(self.search, self.final_states) or self.search.why_cut == INTERRUPT:
            return ""
        unfinished = [story for story in self.stories if any(how == UNFINISHED for how, _ in story.end.harts)]
        if self.conditions:
            return "--forbid is undecided: the search is incomplete"
        why_cut = unfinished[0].heading() if unfinished else "it was stopped by %s" % (self.search.why_cut or "--seconds")
        return "the search is incomplete: " + why_cut


def completed(report: RacesReport, options: RacesOptions) -> RacesReport:
    """Replays the final states, and adds their texts and scripts to a report. Writes the scripts to the folder of --scripts. Returns the report."""
    search, final_states = report.search, report.final_states
    replay(search, final_states, report.conditions, options.jobs)
    end_pcs = [{end.harts[hart].pc for end in final_states.ends if hart < len(end.harts)} for hart in range(search.machine.hart_count)]
    report.stories = [Story(end, final_states.outcome, search, report.symbols, end_pcs) for end in final_states.ends]
    report.bad = forbidden(report.conditions, final_states)
    report.scripts = {end.number: script_of(search.machine, end, final_states.outcome, report.title(end)) for end in final_states.ends}
    if options.scripts:
        write_files(options.scripts, (("final_state_%d" % number, text) for number, text in report.scripts.items()))
    return report


def note(findings: ReportedCases, report: RacesReport) -> None:
    """Adds the findings: final states that --forbid names; without it all but the first, and those in which a hart does not end."""
    for story in report.stories if not report.conditions else ():
        findings.add("final state %d" % story.end.number, story.heading() if report.is_finding(story) else "")
    for condition, end in report.bad:
        warn("--forbid %s: final state %d matches" % (condition.text, end.number))
    for condition in report.conditions:
        findings.add("--forbid " + condition.text, "\n".join(report.title(it.end) for it in report.stories if (condition, it.end) in report.bad))


def replay(search: ScheduleSearch, final_states: FinalStates, conditions: Sequence[Forbidden], jobs: int) -> None:
    """Replays the final states on the bench in `jobs` processes, forbidden ones first. Leaves out the final states for which no time is left."""
    replayed: list[FinalState] = []
    is_forbidden = {id(end) for _, end in forbidden(conditions, final_states)}
    try:
        with search.limit.until(1 + GRACE, SLACK):
            if search.why_cut or final_states.is_cut:
                search.machine.renew()
            ends = sorted(final_states.ends, key=lambda it: id(it) not in is_forbidden)
            for index in Replays(search.machine).check_all(ends, jobs):
                replayed.append(ends[index])
    except OutOfTime:
        pass
    if len(replayed) < len(final_states.ends):
        final_states.keep(replayed)


def forbidden(conditions: Sequence[Forbidden], final_states: FinalStates) -> list[tuple[Forbidden, FinalState]]:
    """Returns each condition of --forbid with each final state that meets it."""
    named = [value.name for value in final_states.outcome]
    return [(condition, end) for condition in conditions for end in final_states.ends if condition.holds(end, named)]


def is_whole(search: ScheduleSearch, final_states: FinalStates) -> bool:
    """Returns whether all orders within the bounds were searched, and all final states replayed."""
    return search.is_whole() and not final_states.is_cut


def objects(report: RacesReport, printer: Printer) -> None:
    """Writes a report as objects."""
    search, final_states, stories, bad, symbols = report.search, report.final_states, report.stories, report.bad, report.symbols
    run_object(printer, report.run, symbols)
    for story in stories:
        story.object(printer)
    machine, bounds = search.machine, search.bounds
    printer.object("races", final_states=len(stories), schedules=final_states.orders, complete=is_whole(search, final_states),
                   covered=covered_text(search, final_states), forbidden=sorted({end.number for _, end in bad}), preemptions=bounds.preemptions,
                   timers=bounds.timers,
                   shared=[dict(address=hex8(part.at), size=part.count, symbol=part.name) for part in ranges_of(search.shared_bytes, symbols)],
                   states=len(search.visited), transitions=search.transitions, rounds=search.rounds, runs=machine.runs, steps=machine.steps_run)


def texts(report: RacesReport, printer: Printer) -> None:
    """Writes a report as lines."""
    search, final_states, stories, bad = report.search, report.final_states, report.stories, report.bad
    for shared in ranges_of(search.shared_bytes, report.symbols):
        printer.line("shared memory  %08x %d  %s" % (shared.at, shared.count, shared.name))
    forbidden = {end.number for _, end in bad}
    for story in stories:
        printer.line()
        style = Style.bad if story.end.number in forbidden else Style.heading
        printer.line(printer.styled("final state %d: %s" % (story.end.number, story.heading()), style))
        for line in story.lines(final_states.orders):
            printer.line(line)
    printer.line()
    printer.line("%s, each replayed on rvbench. Covered: %s" % (counted(len(stories), "final state"), covered_text(search, final_states)))
    printer.line("%s and %s in %s; %s of rvbench with %s" % (
        counted(len(search.visited), "state"), counted(search.transitions, "transition"), counted(search.rounds, "round"),
        counted(search.machine.runs, "run"), counted(search.machine.steps_run, "step")))
