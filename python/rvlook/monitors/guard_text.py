"""Shows the result of `guard`."""
from __future__ import annotations

from collections import Counter
from itertools import groupby
from typing import Iterable, Iterator, Sequence

from rvlook.access.touch import place_of
from rvlook.monitors.guard import Guard, GuardPlan, GuardResults, Violation, do_runs
from rvlook.monitors.ownership import HOST, Ownership
from rvlook.monitors.twins import TwinResult
from rvlook.monitors.unexecuted import Block, MonitorBlocks
from rvlook.output.findings import ReportedCases
from rvlook.output.printer import Printer, hex8, place_text
from rvlook.output.progress import Progress
from rvlook.protocol.symbols import Symbols

COUNTS = {"steps": "steps below M", "returns": "returns from M", "switches": "switches", "continued": "worlds that continue",
          "given_back": "ranges given back"}
MAX_FUNCTIONS_SHOWN = 40  # the most functions in one list


def show_guard(plan: GuardPlan, printer: Printer, findings: ReportedCases) -> None:
    """Runs the image without and with timer interrupts and in pairs, and shows the first violation, which is a finding. An enclave that was not
    entered, left and continued makes the result incomplete. After Ctrl-C shows what was found, and raises KeyboardInterrupt."""
    with Progress() as progress:
        def show(number: int, guard: Guard) -> None:
            progress.clear()
            show_run(printer, plan.name(number), guard)
        results = do_runs(plan, progress, show)
    show_results(plan, results, printer)
    findings.add("guard", results.finding)
    if results.is_interrupted:
        raise KeyboardInterrupt
    for text in unexamined_parts(results, plan):
        findings.cut_short(text)


def show_results(plan: GuardPlan, results: GuardResults, printer: Printer) -> None:
    """Shows the first violation, and what the runs did."""
    symbols, violation = plan.symbols, results.violation
    if results.pairs is not None:
        show_twins(printer, results.pairs)
    if violation:
        report(printer, symbols, violation)
    show_handled(printer, symbols, results.handled)
    show_activity(printer, results.activity, plan.ownership)
    if results.code and results.never is not None:
        show_unexecuted(printer, symbols, results.code, results.never)


def enclaves_of(activity: dict[str, Counter[str]], ownership: Ownership) -> list[str]:
    """Returns the names of the declared enclaves and of those that a table had. If a table had no enclave, its own name is in the list."""
    seen = [world for world in activity if world != HOST]
    unused = [table.name for table in ownership.tables if not any(owner.rstrip("0123456789") == table.name for owner in seen)]
    tables = [table.name for table in ownership.tables]
    return list(dict.fromkeys([*(enclave for enclave in ownership.enclaves() if enclave not in tables), *unused, *seen]))


def unexamined_parts(results: GuardResults, plan: GuardPlan) -> list[str]:
    """Returns what was not examined: a run that ended early, and enclaves that were not entered, not left, or did not continue."""
    unexamined = ["a run ended in a loop of traps at %s: the instruction traps each time it continues" % place_text("%08x" % loop, plan.symbols)
                  for loop in results.loops[:1]]
    if results.violation:
        return unexamined
    unexamined += ["guard compared only %d steps of the two runs that differ in %s: %s" % (pair.step, pair.secret.text, pair.why_cut)
                   for pair in results.pairs or () if pair.why_cut]
    activity, ownership = results.activity, plan.ownership
    enclaves = enclaves_of(activity, ownership)
    if not any(guard.counts["returns from M"] for guard in results.guards):
        unexamined.append("no world trapped, so that M never ran after its boot")
    never_entered = [enclave for enclave in enclaves if not activity[enclave]["entered"]]
    never_left = [enclave for enclave in enclaves if activity[enclave]["entered"] and not activity[enclave]["left"]]
    never_continued = [name for name in enclaves if activity[name]["left"] and not activity[name]["continued"] and not ownership.runs_once(name)]
    if never_continued:
        unexamined.append("after they were left, these enclaves never continued: %s; let the host continue them, or add 'once OWNER' to RANGES"
                          % ", ".join(never_continued))
    if never_left:
        unexamined.append("these enclaves were entered and never left: %s; use more --steps, or let them call the monitor" % ", ".join(never_left))
    if never_entered:
        unexamined.append("these enclaves never ran: %s; let the host enter them, or remove them from RANGES" % ", ".join(never_entered))
    return unexamined


def show_handled(printer: Printer, symbols: Symbols, handled: Counter[int]) -> None:
    """Shows the traps in M from which M returned, by the instruction that trapped."""
    for pc, count in sorted(handled.items()):
        printer.show("trap in M:   %d times handled by M, at %s" % (count, place_text("%08x" % pc, symbols)),
                     "handled_trap", pc=hex8(pc), symbol=symbols.name(pc), line=symbols.line(pc), count=count)


def show_activity(printer: Printer, activity: dict[str, Counter[str]], ownership: Ownership) -> None:
    """Shows how often each enclave ran."""
    for owner in enclaves_of(activity, ownership):
        counts = {name: activity[owner][name] for name in ("entered", "left", "continued", "given_back")}
        text = "entered %(entered)d times, left %(left)d, continued %(continued)d, range given back %(given_back)d" % counts
        printer.show("%-12s %s" % (owner + ":", text), "owner", name=owner, **counts)


def show_run(printer: Printer, name: str, guard: Guard) -> None:
    """Shows how much one run did."""
    printer.show("%-12s %s" % (name + ":", ", ".join("%d %s" % (guard.counts[count], count) for count in COUNTS.values())), "guarded_run", name=name,
                 **{name: guard.counts[count] for name, count in COUNTS.items()}, holds=guard.violation is None)


def show_twins(printer: Printer, results: Sequence[TwinResult]) -> None:
    """Shows how much the pairs of runs compared."""
    changes, returns = sum(result.changes for result in results), sum(result.returns for result in results)
    printer.show("two runs:    %d pairs, private state changed at %d returns, %d returns compared" % (len(results), changes, returns),
                 "guarded_twins", points=changes, compared=returns, pairs=len(results), alike=not any(result.difference for result in results))


def report(printer: Printer, symbols: Symbols, violation: Violation) -> None:
    """Shows a violation."""
    if printer.as_json:
        printer.object("violation", check=violation.check, text=violation.text, step=violation.step, pc=hex8(violation.pc),
                       symbol=symbols.name(violation.pc), line=symbols.line(violation.pc), pc_in_m=hex8(violation.pc_in_m or None))
        return
    printer.line("violation of %s after %d steps below M" % (violation.check, violation.step))
    printer.line("  " + violation.text)
    if violation.pc_in_m:
        printer.line("  M was at %s" % place_text("%08x" % violation.pc_in_m, symbols))
    if violation.step:
        printer.line("  the trap was at %s" % place_text("%08x" % violation.pc, symbols))
    else:
        printer.line("  no trap came before it; the host begins at %s" % place_text("%08x" % violation.pc, symbols))


def show_unexecuted(printer: Printer, symbols: Symbols, code: MonitorBlocks, unexecuted_blocks: Sequence[Block]) -> None:
    """Shows how many instructions of the monitor were executed, and the blocks that were not: as objects, or in a line for each function."""
    if printer.as_json:
        for first, end in joined(unexecuted_blocks):
            printer.object("unexecuted", first=hex8(first), last=hex8(end - 4), function=symbols.function(first), line=symbols.source(first))
        return
    missing = sum(block.end - block.first for block in unexecuted_blocks) // 4
    total = code.instructions
    printer.line("code of M:   %d of %d instructions executed%s" % (total - missing, total, "; not executed:" if unexecuted_blocks else ""))
    lines = list(lines_of(symbols, code, unexecuted_blocks))
    for line in lines[:MAX_FUNCTIONS_SHOWN]:
        printer.line("  " + line)
    if len(lines) > MAX_FUNCTIONS_SHOWN:
        printer.line("  and parts of %d more functions; --json lists all" % (len(lines) - MAX_FUNCTIONS_SHOWN))


def joined(ranges: Iterable[tuple[int, int]]) -> list[tuple[int, int]]:
    """Joins the adjacent ranges among sorted ranges. Each range is its first address, or line number, and its end."""
    joined_ranges: list[tuple[int, int]] = []
    for first, end in ranges:
        if joined_ranges and joined_ranges[-1][1] == first:
            first = joined_ranges.pop()[0]
        joined_ranges.append((first, end))
    return joined_ranges


def lines_of(symbols: Symbols, code: MonitorBlocks, unexecuted_blocks: Sequence[Block]) -> Iterator[str]:
    """Yields a text for each function that has blocks which were not executed."""
    for name, members in groupby(unexecuted_blocks, lambda it: symbols.function(it.first)):
        blocks = list(members)
        entry = code.entry_of(blocks[0].first)
        if entry is not None and blocks[0].first == entry and len(blocks) == code.count_in(entry):
            yield "%-24s whole function  %s" % (name, symbols.source(entry) or hex8(entry))
        else:
            yield "%-24s %s" % (name or "code without a symbol", places_of(symbols, blocks))


def places_of(symbols: Symbols, blocks: Sequence[Block]) -> str:
    """Returns the source lines of blocks as a text, by file; and the addresses of blocks that have no source line."""
    lines_of_blocks = [{source for at in range(block.first, block.end, 4) for source in [symbols.source(at)] if source} for block in blocks]
    sources = sorted({place_of(member) for members in lines_of_blocks for member in members})
    texts = ["%s:%s" % (file, ranges_text([number for _, number in members])) for file, members in groupby(sources, lambda it: it[0])]
    without_lines = joined([block for block, lines_of_block in zip(blocks, lines_of_blocks) if not lines_of_block])
    return "  ".join([*texts, *("%08x-%08x" % (first, end - 4) for first, end in without_lines)])


def ranges_text(numbers: Sequence[int]) -> str:
    """Returns sorted numbers as a text with ranges, as `3, 7-9`."""
    ranges = joined((number, number + 1) for number in numbers)
    return ", ".join("%d" % first if end == first + 1 else "%d-%d" % (first, end - 1) for first, end in ranges)
