"""`map --returns`: the access rights at each return from M on the bare bench, and states inside M in which S may access more than before and
after. A trap inside M, an access under MPRV or an early return would meet such a state."""
from __future__ import annotations

from typing import Iterator, NamedTuple, Optional, Sequence

from rvlook.access.map import Event, events
from rvlook.access.map_text import changed_rows, row_at
from rvlook.access.ranges import Range
from rvlook.errors import warn
from rvlook.output.findings import ReportedCases
from rvlook.output.printer import Printer, end_object, end_text, hex8, place_text, run_object
from rvlook.protocol import names
from rvlook.protocol.run import End, Run
from rvlook.protocol.stretch import Stretch
from rvlook.protocol.symbols import Symbols


class Transient(NamedTuple):
    """A range that S may access only while M runs."""
    event: Event  # the change of rights that gave S access
    range: Range
    may: str  # the rights that S has neither before nor after


class Return(NamedTuple):
    """A return from M."""
    step: int  # the number of the step
    pc: str  # the pc at which S or U continues
    mode: str  # S or U
    event: Event  # the last change of rights up to the return
    transients: tuple[Transient, ...]  # ranges that S could access only during the stay in M before the return


def mode_returns(run: Run) -> Iterator[tuple[int, str, str] | End]:
    """Yields the step, pc and mode of each return from M, and then the End."""
    for item in run.stretches():
        if isinstance(item, End):
            yield item
        elif isinstance(item, Stretch):
            columns, last = item.columns, item.last
            after = zip([*columns.pcs[1:], last[0]], [*columns.modes[1:], last[1]])  # pc and mode after each step
            for step, (old_mode, (pc, mode)) in enumerate(zip(columns.modes, after), item.first):
                if old_mode == b"M" != mode:
                    yield step, pc.decode(), mode.decode()


def returns_of(run: Run, changes: Sequence[Event]) -> Iterator[Return | End]:
    """Yields each return from M with its access rights, and then the End. `changes` are the events of the run."""
    index, before = 0, None  # the index of the last change up to the return; the last change up to the return before it
    for item in mode_returns(run):
        if isinstance(item, End):
            yield item
            continue
        step, pc, mode = item
        first = index
        while index + 1 < len(changes) and changes[index + 1].step <= step:
            index += 1
        events_in_m = changes[first + 1:index] if before else changes[first:index]
        yield Return(step, pc, mode, changes[index], tuple(transients_of(before, events_in_m, changes[index])))
        before = changes[index]


def transients_of(before: Optional[Event], events_in_m: Sequence[Event], after: Event) -> Iterator[Transient]:
    """Yields for each state of a stay in M the first range in which S may access more than before and after the stay. `before` is None at reset."""
    ends = [event for event in (before, after) if event]
    for event in events_in_m:
        starts = sorted({row.range.first for each in (event, *ends) for row in each.rows})
        for first, end in zip(starts, [*starts[1:], event.rows[-1].range.end]):
            more = supervisor_rights(event, first).difference(*(supervisor_rights(end, first) for end in ends))
            if more:
                yield Transient(event, Range(first, end), "".join(letter if letter in more else "-" for letter in "rwx"))
                break


def supervisor_rights(event: Event, address: int) -> set[str]:
    """Returns the letters of the access rights of S to an address."""
    (may,) = row_at(event, address).may.values()
    return set(may["S"]) - {"-"}


def show_returns(run: Run, symbols: Symbols, printer: Printer, findings: ReportedCases) -> None:
    """Shows each return from M with the access rights that it changes. A transient state is a finding."""
    if printer.as_json:
        run_object(printer, run, symbols)
    before = None
    for item in returns_of(run, [event for event in events(run) if isinstance(event, Event)]):
        if isinstance(item, End):
            (end_object(printer, item) if printer.as_json else end_text(printer, item, symbols))
            continue
        (write_return if printer.as_json else print_return)(printer, item, before, symbols)
        for transient in item.transients:
            text = transient_text(transient, symbols)
            warn(text)
            findings.add("returns", text)
        before = item.event


def print_return(printer: Printer, item: Return, before: Optional[Event], symbols: Symbols) -> None:
    """Prints a return, and the ranges whose access rights differ from those at the return before it."""
    printer.line("return at step %d to %s at %s" % (item.step, item.mode, place_text(item.pc, symbols)))
    for range_, _, changed in changed_rows(item.event, before) if item.event is not before else ():
        changes_below_m = [change for change in changed if not change.startswith("M ")]
        if changes_below_m:
            size = names.size_text(range_.end - range_.first)
            printer.line("  %08x-%08x %7s  %s" % (range_.first, range_.end - 1, size, "  ".join(changes_below_m)))


def write_return(printer: Printer, item: Return, before: Optional[Event], symbols: Symbols) -> None:
    """Writes a return as an object; the rights of all ranges are in it."""
    pc = int(item.pc, 16)
    rows = [{"first": hex8(row.range.first), "last": hex8(row.range.end - 1), "may": next(iter(row.may.values()))} for row in item.event.rows]
    printer.object("return", step=item.step, pc=item.pc, mode=item.mode, symbol=symbols.name(pc), changed=item.event is not before, rows=rows,
                   transients=[{"step": change.event.step, "pc": change.event.pc, "text": change.event.text, "first": hex8(change.range.first),
                                "last": hex8(change.range.end - 1), "may": change.may} for change in item.transients])


def transient_text(transient: Transient, symbols: Symbols) -> str:
    """Returns a transient state as a line."""
    place = symbols.line(int(transient.event.pc, 16)) or symbols.name(int(transient.event.pc, 16)) or transient.event.pc
    return "in M at step %d, %s: S may access %s %08x-%08x, and neither before the trap nor after it" % (
        transient.event.step, place, transient.may, transient.range.first, transient.range.end - 1)
