"""The subcommand `map`: prints the changes of access rights as lines and as objects."""
from __future__ import annotations

from bisect import bisect_right
from typing import Iterable, Iterator, Sequence

from rvlook.access.failures import Failure, failure_object
from rvlook.access.map import Column, Event, Row, events_and_refusals
from rvlook.access.ranges import NOTHING, Range
from rvlook.output.printer import ObjectWriter, Printer, Style, enclave_object, end_object, end_text, hex8, place_text, run_object
from rvlook.protocol import names
from rvlook.protocol.replies import Enclave
from rvlook.protocol.run import End, Run
from rvlook.protocol.symbols import Symbols

CELL = 6  # the least width of a column, in characters


def show_map(run: Run, symbols: Symbols, printer: Printer, is_brief: bool = False) -> None:
    """Prints the access rights at reset and after each change, as lines or as objects."""
    if printer.as_json:
        run_object(printer, run, symbols)
    before = None
    for item in events_and_refusals(run):
        if isinstance(item, End):
            (end_object(printer, item) if printer.as_json else end_text(printer, item, symbols))
        elif isinstance(item, Failure):
            show_refused(printer, item, run, symbols)
        elif printer.as_json:
            write_event(printer, item, symbols)
        elif is_brief:
            print_brief(printer, item, before, symbols)
            before = item
        else:
            print_event(printer, item, symbols)
    if not printer.as_json and not is_brief and run.setup.monitor:
        printer.line("(in brackets: worlds that are not running; their rights are derived from the enclave table)")


def show_refused(printer: Printer, failure: Failure, run: Run, symbols: Symbols) -> None:
    """Writes a call that the monitor refused, as a line or as an object."""
    if printer.as_json:
        printer.object("failure", **failure_object(failure, symbols), expected=None)
        return
    hart = "hart %d  " % failure.hart if run.setup.harts > 1 else ""
    heading = "%sstep %d  %s refused: %s" % (hart, failure.step, failure.call, failure.name)
    printer.line(printer.styled(heading, Style.bad) + "  at " + place_text(failure.at.pc, symbols))


def write_event(printer: ObjectWriter, event: Event, symbols: Symbols) -> None:
    """Writes an event as an object."""
    pc = int(event.pc, 16)
    rows = [{"first": hex8(row.range.first), "last": hex8(row.range.end - 1), "size": row.range.end - row.range.first,
             "what": row.what, "may": row.may} for row in event.rows]
    columns = [{"name": column.name, "world": column.world, "hart": column.hart, "derived": column.derived} for column in event.columns]
    printer.object("event", step=event.step, hart=event.hart, cause=event.cause, slot=event.slot, status=event.status,
                   text=event.text, pc=event.pc, symbol=symbols.name(pc), source=symbols.source(pc), mode=event.mode,
                   world=event.world, enclaves=[enclave_object(enclave) for enclave in event.enclaves], columns=columns, rows=rows)


def heading_of(event: Event) -> str:
    """Returns the hart of an event, if there are several, its step and its cause."""
    return ("hart %d  " % event.hart if sum(not column.derived for column in event.columns) > 1 else "") + step_and_cause(event)


def step_and_cause(event: Event) -> str:
    """Returns the step and the cause of an event."""
    if event.cause == "reset":
        return "reset"
    if event.cause == "now":
        return "step %d" % event.step
    if event.cause == "pmp":
        return "step %d  %s" % (event.step, names.with_abi_names(event.text or ""))
    return "step %d  %s e%s" % (event.step, event.cause, event.slot)


def print_event(printer: Printer, event: Event, symbols: Symbols) -> None:
    """Prints an event: its cause and place, the enclaves, and the ranges."""
    printer.line(printer.styled(heading_of(event), Style.heading) + "  at " + place_text(event.pc, symbols))
    lines = [enclave_text(enclave) for enclave in event.enclaves]
    lines += ["    measurement " + enclave.measurement for enclave in event.enclaves if event.cause == "create" and enclave.slot == event.slot]
    heads = [head for column in event.columns for head in heads_of(column, event)]
    widths = [max(CELL, len(head) + 2) for head in heads]
    lines.append(" " * 29 + "".join(head.ljust(width) for head, width in zip(heads, widths)))
    lines += [row_text(row, cells_of(row, event), widths) for row in event.rows]
    for line in lines + [""]:
        printer.line(line)


def print_brief(printer: Printer, event: Event, before: Event | None, symbols: Symbols) -> None:
    """Prints what an event changes: the running world, the enclaves, and the ranges whose access rights change."""
    parts = [printer.styled(heading_of(event), Style.heading), "at " + place_text(event.pc, symbols)]
    if before and event.world != before.world:
        parts.append("switch to %s" % event.world)
    printer.line("  ".join(parts))
    for enclave in event.enclaves:
        if not before or enclave not in before.enclaves:
            old_state = next((old.state for old in before.enclaves if old.slot == enclave.slot), None) if before else None
            printer.line("  %s %s -> %s" % (enclave.world, old_state, enclave.state) if old_state else enclave_text(enclave))
    for range_, what, changed in changed_rows(event, before):
        ends = "%08x-%08x %7s" % (range_.first, range_.end - 1, names.size_text(range_.end - range_.first))
        printer.line("  %s  %s%s" % (ends, "  ".join(changed), "  " + what if what else ""))


def changed_rows(event: Event, before: Event | None) -> list[tuple[Range, str, list[str]]]:
    """Returns each range whose access rights differ from those at the event before, with meaning and changes, joined if alike; without one, all."""
    rows: list[tuple[Range, str, list[str]]] = []
    starts = sorted({row.range.first for each in (event, before) if each for row in each.rows})
    for first, end in zip(starts, [*starts[1:], event.rows[-1].range.end]):
        old, new = rights_of(before, first) if before else {}, rights_of(event, first)
        changed = [change_text(key, old.get(key), new.get(key, NOTHING)) for key in {**old, **new} if old.get(key, NOTHING) != new.get(key, NOTHING)]
        what = row_at(event, first).what
        if changed and rows and rows[-1][1:] == (what, changed) and rows[-1][0].end == first:
            rows[-1] = (Range(rows[-1][0].first, end), what, changed)
        elif changed:
            rows.append((Range(first, end), what, changed))
    return rows


def row_at(event: Event, address: int) -> Row:
    """Returns the row of an event whose range includes an address."""
    return event.rows[bisect_right([row.range.first for row in event.rows], address) - 1]


def rights_of(event: Event, address: int) -> dict[str, str]:
    """Returns the access rights of each world to an address, by mode if they differ between modes. A world that does not exist has no rights."""
    row, rights_by_name = row_at(event, address), {}
    for column in event.columns:
        for mode, rights in row.may[column.name].items():
            world_and_mode = "%s %s" % (column.world, mode) if is_split(column, event) else column.world
            rights_by_name[mode if column.world == "bare" else world_and_mode] = rights
    return rights_by_name


def change_text(name: str, old: str | None, new: str) -> str:
    """Returns the name of a world with its old and new access rights."""
    return "%s %s" % (name, new) if old is None else "%s %s -> %s" % (name, old, new)


def enclave_text(enclave: Enclave) -> str:
    """Returns a line about an enclave: slot, state, region, window and entry."""
    window = "no window" if not enclave.window_size else "window %08x %4s" % (enclave.window, names.size_text(enclave.window_size))
    return "  %-3s %-8s region %08x %4s  %s  entry %08x" % (
        enclave.world, enclave.state, enclave.base, names.size_text(enclave.size), window, enclave.entry)


def is_split(column: Column, event: Event) -> bool:
    """Returns whether a column has a heading and a cell for each mode: the rights differ between modes, or the bench is bare."""
    return any(len(set(row.may[column.name].values())) > 1 for row in event.rows) or column.world == "bare"


def heads_of(column: Column, event: Event) -> list[str]:
    """Returns the headings of a column: one, or one for each mode."""
    name = "(%s)" % column.name if column.derived else column.name
    if not is_split(column, event):
        return [name]
    modes = event.rows[0].may[column.name]
    return list(modes) if column.world == "bare" else ["%s %s" % (name, mode) for mode in modes]


def cells_of(row: Row, event: Event) -> Iterator[str]:
    """Yields the cells of a row: the access rights of each column, or of each mode of a column that `is_split`."""
    for column in event.columns:
        values = list(row.may[column.name].values())
        yield from values if is_split(column, event) else values[:1]


def row_text(row: Row, cells: Iterable[str], widths: Sequence[int]) -> str:
    """Returns a row as a line. `widths` has the width of each column, in characters."""
    size = names.size_text(row.range.end - row.range.first)
    ends = "%08x-%08x" % (row.range.first, row.range.end - 1)
    shown = "".join(cell.ljust(width) for cell, width in zip(cells, widths))
    return "  %s %7s  %s%s" % (ends, size, shown, row.what)
