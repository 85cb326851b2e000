"""Shows the result of `conform`."""
from __future__ import annotations

import os
from dataclasses import dataclass
from itertools import groupby
from typing import Callable, NamedTuple, Optional, Sequence

from rvlook.errors import RvlookError, Unfinished
from rvlook.image.files import image_of, read_file, script_lines
from rvlook.image.symbols import symbols_from
from rvlook.monitors.comparison import DifferenceKind, MonitorDifference
from rvlook.monitors.conform import ConformOutcome, ScriptPlan, Shrinker, compare
from rvlook.monitors.writers import Divergence, WritingInstruction, divergence_of, writers_of
from rvlook.monitors.joined import both, joined
from rvlook.monitors.pair import PlayedScript
from rvlook.monitors.placement import placement_of
from rvlook.monitors.sides import MonitorSetup, return_addresses, size_line
from rvlook.output.files import replace_file
from rvlook.output.findings import ReportedCases
from rvlook.output.printer import Printer, hex8, place_text
from rvlook.protocol.commands import no_symbol, resolved_script
from rvlook.protocol.memory_map import MONITOR_END
from rvlook.protocol.symbols import Symbols

MAX_DIFFERENCES_SHOWN = 6  # the most differences of a script that are shown as text
MAX_ITEMS_SHOWN = 40  # the most items of a script that are shown
MAX_SOURCE_LINES = 4  # source lines before a writer
MAX_DIFFERENCES_TRACED = 2  # differences whose writers are searched
CAUSED_BY_A_BRANCH = (DifferenceKind.register, DifferenceKind.pc, DifferenceKind.mode, DifferenceKind.rights)
LEAST_RAM = 0x30000  # bytes; the directed scripts use them


class MonitorFiles(NamedTuple):
    """The files of an author's monitor, and how it is run."""
    image: str  # the file of the monitor
    host: Optional[str] = None  # a second file, with the host and its enclaves
    symbols: Optional[str] = None  # the file of the symbols; by default the image
    ram: int = LEAST_RAM  # bytes
    boot: Optional[str] = None  # a file of commands before the first step
    lowered: Sequence[str] = ()  # symbols: a store of the monitor to one of them clears the timer line
    exact: bool = False  # whether PMP entries are compared as stored
    memory: Optional[str] = None  # the memory of host and enclaves, as FIRST-LAST; by default the RAM from 80010000 on

    def setup(self) -> tuple[MonitorSetup, Symbols]:
        """Reads the files; returns the monitor and its symbols. Raises RvlookError if a file is invalid."""
        image = image_of(self.image)
        symbols = symbols_from(self.symbols, image)
        if self.host:
            image, symbols_of_host = joined(image, self.host)
            symbols = both(symbols, symbols_of_host)
        placement = placement_of(self.memory, self.ram, LEAST_RAM) if self.memory else None
        boot: tuple[str, ...] = ("setreg 10 %x" % (placement.host if placement else MONITOR_END), size_line(self.ram))
        if self.boot:
            lines = resolved_script(script_lines(read_file(self.boot), self.boot), symbols)
            boot = tuple(line.text for line in lines if not line.text.lstrip().startswith("#"))
        lowered = tuple(address_of(text, symbols) for text in self.lowered)
        return MonitorSetup(image, self.ram, boot, return_addresses(image), lowered, self.exact, placement), symbols


def address_of(name: str, symbols: Symbols) -> int:
    """Returns the address of a symbol or in hexadecimal digits. Raises RvlookError if the text is neither."""
    address = symbols.address(name)
    if address is None:
        raise RvlookError(no_symbol(name, symbols))
    return address


@dataclass
class Conformance:
    """The result of `conform`."""
    outcome: ConformOutcome  # the outcome of all scripts
    setup: MonitorSetup  # the monitor, as the shrunk script runs it
    symbols: Symbols  # the symbols of the monitor
    shrunk: Optional[Shrinker] = None  # the shrunk script; None if there is no difference

    @property
    def finding(self) -> str:
        """Returns the first difference as a text; empty without a difference."""
        first = self.shrunk.played.differences[0] if self.shrunk else None
        return "%s: %s, not %s" % (first.name, first.own, first.reference) if first else ""  # the value of the reference comes last


def find_conform(files: MonitorFiles, plan: ScriptPlan, compared: Callable[[ConformOutcome], None] = lambda it: None) -> Conformance:
    """Compares the monitors, calls `compared`, and shrinks the script with a difference. Raises RvlookError for an invalid file or no script."""
    placement_of(files.memory, files.ram, LEAST_RAM)  # refuses an invalid --memory or --ram before any file is read
    setup, symbols = files.setup()
    outcome = compare(setup, plan)
    if not outcome.coverage.scripts and not outcome.is_interrupted:
        raise RvlookError("no script has '%s' in its name" % plan.only)
    compared(outcome)
    conformance = Conformance(outcome, setup, symbols)
    if outcome.different and outcome.task:
        conformance.setup = outcome.task.setup(setup)
        conformance.shrunk = Shrinker(conformance.setup, outcome.different).shrink()
        outcome.is_interrupted = conformance.shrunk.is_interrupted
    return conformance


def show_conform(files: MonitorFiles, plan: ScriptPlan, printer: Printer, findings: ReportedCases, folder: str | None, has_table: bool) -> None:
    """Compares the monitors, and shows the first difference and the coverage table, after a difference only if `has_table`. Writes the shrunk scripts
    to a folder, if there is one. A difference is a finding; an empty cell and a time limit make the result incomplete. After Ctrl-C shows what was
    found, and raises KeyboardInterrupt."""
    conformance = find_conform(files, plan, lambda it: show_counts(it, printer))
    if conformance.shrunk:
        DifferenceReport(conformance.setup, conformance.symbols, printer, conformance.outcome).show(conformance.shrunk)
    findings.add("conform", conformance.finding)
    if conformance.shrunk and folder:
        write_scripts(folder, conformance.setup, conformance.shrunk, printer)
    if not conformance.outcome.different or has_table or printer.as_json:
        show_coverage(conformance.outcome, printer)
    if conformance.outcome.is_interrupted:
        raise KeyboardInterrupt
    unexamined = unexamined_part(conformance.outcome, plan)
    if unexamined:
        findings.cut_short(unexamined)


def unexamined_part(outcome: ConformOutcome, plan: ScriptPlan) -> str:
    """Returns what was not examined: scripts after the time limit, or empty cells of the table; empty if nothing was left out."""
    if outcome.different:
        return ""
    if outcome.not_run:
        return "the time limit of %g seconds left out %d scripts" % (plan.seconds or 0, outcome.not_run)
    empty = [] if plan.only else outcome.coverage.empty()
    return "these cells of the coverage table are empty: %s; use --deep, or a larger --tries" % ", ".join(empty) if empty else ""


def show_counts(outcome: ConformOutcome, printer: Printer) -> None:
    """Shows how much was run."""
    coverage = outcome.coverage
    result = "different" if outcome.different else "alike until Ctrl-C" if outcome.is_interrupted else "alike"
    printer.show("%s: %d scripts, %d steps below M, %d returns from M, %d steps in M" % (
        result, coverage.scripts, coverage.steps, coverage.returns, coverage.spent), "conform", scripts=coverage.scripts, steps=coverage.steps,
        returns=coverage.returns, steps_in_m=coverage.spent, most_steps_in_m=coverage.longest_stay[0], alike=outcome.different is None)


class DifferenceReport:
    """Shows a difference."""

    def __init__(self, setup: MonitorSetup, symbols: Symbols, printer: Printer, outcome: ConformOutcome) -> None:
        self.setup, self.symbols, self.printer, self.outcome = setup, symbols, printer, outcome  # `outcome` has the script before it was shrunk

    def show(self, shrunk: Shrinker) -> None:
        """Shows the shrunk script, the values of both sides, and the instructions in M that wrote them."""
        different, played = self.outcome.different, shrunk.played
        assert different
        if not self.printer.as_json:
            self.printer.line("script '%s': different after %d items; shrunk to %d items in %d runs" % (
                different.name, len(different.items), len(played.items), shrunk.runs))
        self.show_items(played)
        for number, difference in enumerate(played.differences[:MAX_DIFFERENCES_SHOWN]):
            writers = writers_of(self.setup, played, difference) if number < MAX_DIFFERENCES_TRACED else []
            if self.printer.as_json:
                self.difference_object(different.name, difference, writers)
            else:
                self.difference_text(difference, writers, number < MAX_DIFFERENCES_TRACED)
        if len(played.differences) > MAX_DIFFERENCES_SHOWN and not self.printer.as_json:
            self.printer.line("  and %d more differences" % (len(played.differences) - MAX_DIFFERENCES_SHOWN))
        if played.differences[0].kind in CAUSED_BY_A_BRANCH:
            self.show_divergence(divergence_of(self.setup, played))

    def show_items(self, played: PlayedScript) -> None:
        """Shows the items of a script; as text only the first and the last ones of a long script."""
        left_out = len(played.steps) - MAX_ITEMS_SHOWN
        for number, step in enumerate(played.steps):
            if self.printer.as_json:
                self.printer.object("item", world=step.world, text=step.item.text, result=step.result)
            elif left_out <= 0 or number < MAX_ITEMS_SHOWN // 2 or number >= MAX_ITEMS_SHOWN // 2 + left_out:
                self.printer.line("  %-5s %-50s %s" % (step.world, step.item.text, step.result))
            elif number == MAX_ITEMS_SHOWN // 2:
                self.printer.line("  ... %d items" % left_out)

    def difference_object(self, script: str, difference: MonitorDifference, writers: list[WritingInstruction]) -> None:
        """Writes a difference as an object."""
        self.printer.object("mismatch", script=script, kind=difference.kind.value, name=difference.name, own=difference.own,
                            reference=difference.reference, writers=[
                                {"pc": hex8(writer.pc), "instruction": writer.text, "address": hex8(writer.address),
                                 "symbol": self.symbols.name(writer.pc), "line": source_of(writer, self.symbols)} for writer in writers])

    def difference_text(self, difference: MonitorDifference, writers: list[WritingInstruction], is_traced: bool) -> None:
        """Prints a difference."""
        self.printer.line("  " + difference.name)
        self.printer.line("    own monitor        %s" % difference.own)
        self.printer.line("    monitor of rvbench %s" % difference.reference)
        for number, writer in enumerate(writers):
            action = "trapped at" if difference.kind is DifferenceKind.fault else "last written in M by"
            if number:
                action = "from %08x, last stored by" % (writer.address or 0)
            self.printer.line("    %s %s at %s" % (action, writer.text, writer_place(writer, self.symbols)))
        if writers:
            self.printer.line("      executed before it: %s" % (", ".join(lines_before(writers[-1], self.symbols)) or "no source lines are known"))
        if is_traced and not writers and difference.kind not in (DifferenceKind.fault, DifferenceKind.trap):
            self.printer.line("    not written in M")

    def show_divergence(self, divergence: Divergence | None) -> None:
        """Shows the branch at which the call leaves the path of a similar one."""
        if divergence and self.printer.as_json:
            self.printer.object("divergence", call=divergence.call, result=divergence.result, **{
                name: {"pc": hex8(pc), "symbol": self.symbols.name(pc), "line": self.symbols.line(pc)}
                for name, pc in (("after", divergence.pc), ("own_next", divergence.own_next), ("other_next", divergence.other_next))})
        elif divergence:
            self.printer.line("  the result of '%s' is %s in both monitors; the last call leaves its path" % (divergence.call, divergence.result))
            for name, pc in (("after", divergence.pc), ("to", divergence.own_next), ("not to", divergence.other_next)):
                self.printer.line("    %-7s %s" % (name, place_text("%08x" % pc, self.symbols)))


def source_of(writer: WritingInstruction, symbols: Symbols) -> str | None:
    """Returns the source line of an instruction. If it has no source line, returns that of the last instruction before it that has one."""
    return next((line for line in map(symbols.line, (writer.pc, *writer.path)) if line), None)


def lines_before(writer: WritingInstruction, symbols: Symbols) -> list[str]:
    """Returns the source lines that were executed before an instruction, each once, the last one first."""
    lines = (line for line in map(symbols.line, writer.path) if line and line != symbols.line(writer.pc))
    return list(dict.fromkeys(lines))[:MAX_SOURCE_LINES]


def writer_place(writer: WritingInstruction, symbols: Symbols) -> str:
    """Returns the address of an instruction with its symbol and source line."""
    if symbols.line(writer.pc):
        return place_text("%08x" % writer.pc, symbols)
    source = source_of(writer, symbols)
    return place_text("%08x" % writer.pc, symbols) + ("  after %s" % source if source else "")


def show_coverage(outcome: ConformOutcome, printer: Printer) -> None:
    """Shows the coverage table."""
    cells = list(outcome.coverage.cells())
    if printer.as_json:
        for cell in cells:
            printer.object("cell", group=cell.group, name=cell.name, count=cell.count)
        return
    printer.line("coverage: %d of %d cells" % (sum(cell.count > 0 for cell in cells), len(cells)))
    for group, members in groupby(cells, lambda it: it.group):
        printer.line("  " + group)
        for line in wrapped(["%s %d" % (member.name, member.count) for member in members]):
            printer.line("    " + line)


def wrapped(words: list[str]) -> list[str]:
    """Joins words to lines, with two spaces between words. A line has at most 120 characters if each word has at most 118."""
    lines = [""]
    for word in words:
        if len(lines[-1]) + len(word) > 114:
            lines.append("")
        lines[-1] += ("  " if lines[-1] else "") + word
    return lines


def write_scripts(folder: str, setup: MonitorSetup, shrunk: Shrinker, printer: Printer) -> None:
    """Writes a script for each side, and prints the commands that show the scripts. Raises Unfinished if a file cannot be written."""
    own, reference = os.path.join(folder, "own.script"), os.path.join(folder, "reference.script")
    try:
        os.makedirs(folder, exist_ok=True)
        for path, before, lines in ((own, "", shrunk.played.own_log), (reference, "--\n", shrunk.played.reference_log)):
            replace_file(path, (before + "".join(line + "\n" for line in lines)).encode("ascii"))
    except OSError as error:
        raise Unfinished("cannot write '%s': %s" % (error.filename or folder, error.strerror)) from None
    if not printer.as_json:
        printer.line("scripts of both sides; map and gdb take the same arguments as trace:")
        printer.line("  rvlook trace --ram %d --steps 0 --no-monitor --script %s %s" % (setup.ram, own, setup.image.name))
        printer.line("  rvlook trace --ram %d --steps 0 --monitor %s" % (setup.reference.ram, reference))
