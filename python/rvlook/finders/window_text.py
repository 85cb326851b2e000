"""The subcommand `window`: prints what each activation of an enclave did with the bytes of its window."""
from __future__ import annotations

from typing import Iterable, Iterator

from rvlook.access.activations import Activation
from rvlook.access.ranges import derived_rights
from rvlook.finders.secrets import Secret
from rvlook.finders.window import ActivationView, MarkedBytes, SecretCopy, WindowContext, WindowOptions, WindowSearch
from rvlook.image.variables import Variables
from rvlook.output.findings import ReportedCases
from rvlook.output.printer import Printer, Style, hex8, run_object
from rvlook.output.progress import Progress
from rvlook.protocol.run import Run
from rvlook.protocol.symbols import Symbols

WIDTH = 16  # bytes of a row of the dump
END_TEXT = {"none": "still running"}  # the text of an activation that has not ended


def show_window(run: Run, variables: Variables, printer: Printer, options: WindowOptions, findings: ReportedCases) -> None:
    """Prints what each activation did with its window."""
    search, number = WindowSearch(run, variables, options), 0
    if printer.as_json:
        run_object(printer, run, run.setup.symbols)
    write = activation_objects if printer.as_json else activation_text
    with Progress() as progress:
        for activation, view in search.views(lambda step: progress.show("step %d, %d activations", step, number)):
            number += 1
            progress.clear()
            write(printer, search.context, activation, view, search.secret)
            rows = rows_that_are_findings(activation, view, search.context, search.secret)
            findings.add("%s, activation %d" % (activation.world, activation.number), "\n".join(text for text, _ in rows))


def rows_that_are_findings(activation: Activation, view: ActivationView, context: WindowContext,
                           secret: Secret | None) -> list[tuple[str, int | None]]:
    """Returns the texts of an activation's findings, each with the pc of the first instruction that it names; None if it names none."""
    rows: list[tuple[str, int | None]] = [(range_text_of(activation, marked, context).strip(), next(iter(marked.pcs), None))
                                          for marked in view.ranges if marked.is_finding]
    return rows + [(copy_text(activation, copy, context, secret).strip(), None) for copy in view.copies if copy.is_finding]


def between_text(activation: Activation, at: int) -> str:
    """Returns who may write to a byte of the window between two loads of an activation."""
    for world in activation.others:
        if "w" in derived_rights(world, activation.table, at):
            return "the other hart (%s) may write in between" % world
    return "the host may write in between, after a timer interrupt"


def places_text(pcs: Iterable[int], symbols: Symbols) -> str:
    """Returns instructions by source line, symbol or address."""
    return " and ".join(dict.fromkeys(map(symbols.place, pcs)))


def range_text_of(activation: Activation, marked: MarkedBytes, context: WindowContext) -> str:
    """Returns a line about a range of the window: its kind, addresses, size, field, instructions, and whether it depends on the secret."""
    symbols = context.symbols
    base = activation.enclave.window + marked.first
    parts = ["  %-11s %08x-%08x %6d" % (marked.kind, base, base + marked.size - 1, marked.size), context.fields.name(base) or ""]
    if marked.kind == "remains":
        pc, number = marked.pcs
        parts.append("%s, in activation %d" % (places_text([pc], symbols), number))
    elif marked.kind == "receives":
        parts.append("%s of %s" % (places_text(marked.pcs, symbols), marked.world))
    elif marked.kind == "rereads":
        parts.append("%s and %s; %s" % (*map(symbols.place, marked.pcs), between_text(activation, base)))
    else:
        parts.append(places_text(marked.pcs, symbols))
    if marked.is_secret is not None:
        parts.append(secret_text(marked))
    return "  ".join(part for part in parts if part)


def secret_text(marked: MarkedBytes | SecretCopy) -> str:
    """Returns whether bytes of the window depend on the secret."""
    if not marked.is_secret:
        return "the same with another secret"
    return "depends on the secret, public" if marked.is_public else "depends on the secret"


def copy_text(activation: Activation, secret_copy: SecretCopy, context: WindowContext, secret: Secret | None) -> str:
    """Returns a copy of a part of the secret as a line."""
    assert secret is not None
    copy, base = secret_copy.copy, activation.enclave.window + secret_copy.copy.at
    offsets = "byte %d" % copy.offset if copy.size == 1 else "bytes %d to %d" % (copy.offset, copy.offset + copy.size - 1)
    is_whole = copy.size == len(secret.bytes)
    part = "all %d bytes of the secret" % copy.size if is_whole else "%s of the %d-byte secret" % (offsets, len(secret.bytes))
    range_text = "  %-11s %08x-%08x %6d" % ("copy", base, base + copy.size - 1, copy.size)
    return "  ".join(text for text in (range_text, context.fields.name(base) or "", part, secret_text(secret_copy)) if text)


def rows_of(activation: Activation) -> Iterator[tuple[int, bytes]]:
    """Yields the address and the bytes of each row of WIDTH bytes that is not all zero, of the window at the end of an activation."""
    for at in range(0, len(activation.after), WIDTH):
        row = activation.after[at:at + WIDTH]
        if any(row):
            yield activation.enclave.window + at, row


def row_text(at: int, row: bytes) -> str:
    """Returns a row of the window as a line of a hex dump."""
    shown = "".join(chr(byte) if 0x20 <= byte < 0x7F else "." for byte in row)
    return "  %08x  %s  %s" % (at, " ".join("%02x" % byte for byte in row), shown)


def heading_of(activation: Activation) -> str:
    """Returns the heading of an activation."""
    hart = "hart %d  " % activation.hart if activation.others else ""
    answer = "  a0=%08x a1=%08x" % activation.answer if activation.answer else ""
    end = END_TEXT.get(activation.ended_by, "ended by " + activation.ended_by)
    return "%s%s, activation %d: steps %d to %d, %s%s" % (hart, activation.world, activation.number, activation.first, activation.last, end, answer)


def activation_text(printer: Printer, context: WindowContext, activation: Activation, view: ActivationView, secret: Secret | None) -> None:
    """Prints an activation."""
    printer.line(printer.styled(heading_of(activation), Style.heading))
    for marked in view.ranges:
        text = range_text_of(activation, marked, context)
        printer.line(printer.styled(text, Style.bad) if marked.is_finding else text)
    if not view.ranges:
        printer.line("  does not access its window" if activation.enclave.window_size else "  no window")
    for at, row in rows_of(activation):
        printer.line(row_text(at, row))
    for copy in view.copies:
        text = copy_text(activation, copy, context, secret)
        printer.line(printer.styled(text, Style.bad) if copy.is_finding else text)
    printer.line()


def activation_objects(printer: Printer, context: WindowContext, activation: Activation, view: ActivationView, _secret: Secret | None) -> None:
    """Writes an activation as objects."""
    symbols = context.symbols
    printer.object("activation", world=activation.world, hart=activation.hart, activation=activation.number, first=activation.first,
                   last=activation.last, ended_by=activation.ended_by,
                   answer=[hex8(word) for word in activation.answer], window=hex8(activation.enclave.window), size=activation.enclave.window_size)
    for marked in view.ranges:
        base, pcs = activation.enclave.window + marked.first, marked.pcs[:1] if marked.kind == "remains" else marked.pcs
        printer.object("window", world=activation.world, activation=activation.number, what=marked.kind, first=hex8(base),
                       last=hex8(base + marked.size - 1), symbol=symbols.name(base), field=context.fields.known(base), stored_by=marked.world or None,
                       pcs=[hex8(pc) for pc in pcs], sources=[symbols.source(pc) for pc in pcs],
                       secret=marked.is_secret, public=marked.is_public, of=marked.pcs[1] if marked.kind == "remains" else None,
                       between=between_text(activation, base) if marked.kind == "rereads" else None)
    for at, row in rows_of(activation):
        printer.object("dump", world=activation.world, activation=activation.number, at=hex8(at), bytes=row.hex())
    for copy_in_window in view.copies:
        copy, base = copy_in_window.copy, activation.enclave.window
        printer.object("copy", world=activation.world, activation=activation.number, at=hex8(base + copy.at),
                       field=context.fields.known(base + copy.at), size=copy.size,
                       offset=copy.offset, secret=copy_in_window.is_secret, public=copy_in_window.is_public)
