"""Prints lines for a person and objects for a program, with colours on a terminal that has them."""
from __future__ import annotations

import json
import os
import re
import sys
from enum import Enum
from typing import Any, Mapping, Protocol, Sequence, TYPE_CHECKING, TextIO, Union

from rvlook.escapes import visible_line

if TYPE_CHECKING:
    from rvlook.protocol.replies import Enclave
    from rvlook.protocol.run import End, Run
    from rvlook.protocol.symbols import Symbols


Json = Union[None, bool, int, float, str, Sequence[Any], Mapping[str, Any]]  # the value of a member


class ObjectWriter(Protocol):
    """A consumer of the objects of a run."""

    def object(self, __kind: str, **members: Json) -> None:
        """Prints or stores an object of a kind, such as `step`, with its members."""


class Style(Enum):
    """The style of a part of a line, as the number of its escape sequence. Plain on a terminal without colours."""
    heading = "1"  # bold
    good = "32"  # green
    bad = "31"  # red
    aside = "2"  # faint


OWN_ESCAPES = re.compile("(\033\\[(?:0|%s)m)" % "|".join(style.value for style in Style))
NO_ESCAPES = re.compile(r"(\Z\A.)")  # matches nowhere


class Printer:
    """Writes lines and objects to standard output."""

    def __init__(self, as_json: bool = False, stream: TextIO | None = None) -> None:
        self.as_json, self.stream = as_json, stream or sys.stdout  # whether objects are written; the output
        has_terminal = self.stream.isatty() and os.environ.get("TERM", "dumb") != "dumb" and "NO_COLOR" not in os.environ
        self.colours = has_terminal and not as_json  # whether `styled` uses colours

    def line(self, text: str = "") -> None:
        """Prints a line, or lines. Makes control characters visible, except those of `styled`."""
        text = text.rstrip()
        self.stream.write((text if text.isprintable() else self.clean(text)) + "\n")

    def clean(self, text: str) -> str:
        """Returns lines of text without control characters, except those of `styled` if there are colours."""
        escapes = OWN_ESCAPES if self.colours else NO_ESCAPES
        return "\n".join("".join(it if escapes.fullmatch(it) else visible_line(it) for it in escapes.split(line)) for line in text.split("\n"))

    def show(self, __text: str, __kind: str, **members: Json) -> None:
        """Prints a line for a person, or writes an object for a program."""
        if self.as_json:
            self.object(__kind, **members)
        else:
            self.line(__text)

    def document(self, text: str) -> None:
        """Writes a text in UTF-8, whatever the locale has."""
        stream = getattr(self.stream, "buffer", None)
        if stream:
            self.stream.flush()
            stream.write(text.encode("utf-8", "replace") + b"\n")
            stream.flush()
        else:
            self.stream.write(text + "\n")

    def object(self, __kind: str, **members: Json) -> None:
        """Writes an object of a kind, in a line."""
        self.stream.write(json.dumps({"object": __kind, **members}, separators=(",", ":")) + "\n")

    def styled(self, text: str, style: Style) -> str:
        """Returns a text in a style, if there are colours."""
        return "\033[%sm%s\033[0m" % (style.value, text) if self.colours else text


def hex8(number: int | None) -> str | None:
    """Returns a number in eight hexadecimal digits, None for None."""
    return None if number is None else "%08x" % number


def counted(count: int, name: str) -> str:
    """Returns a number and a noun, in the plural if needed."""
    return "%d %s%s" % (count, name, "" if count == 1 else "s")


def end_object(printer: ObjectWriter, end: End) -> None:
    """Writes the end of a run as an object."""
    printer.object("end", steps=end.steps, why=end.why, pc=end.pc, mode=end.mode, world=end.world)


def end_text(printer: Printer, end: End, symbols: Symbols) -> None:
    """Prints the last line of a run."""
    why = "halts at" if end.why == "halted" else "is at"
    printer.line("%s: %s %s %s in %s" % (counted(end.steps, "step"), end.world, why, place_text(end.pc, symbols), end.mode))


def place_text(pc: str, symbols: Symbols) -> str:
    """Returns an address with its symbol and source line, if there are any."""
    number = int(pc, 16)
    return "  ".join(part for part in (pc, symbols.name(number), symbols.line(number)) if part)


def run_object(printer: ObjectWriter, run: Run, symbols: Symbols) -> None:
    """Writes the first object of an output."""
    setup = run.setup
    printer.object("run", image=setup.image.name, monitor=setup.monitor, harts=setup.harts, ram=setup.ram, pc=run.pc, mode=run.mode,
                   world=run.world, symbols=bool(symbols))


def enclave_object(enclave: Enclave) -> dict[str, Json]:
    """Returns the table entry of an enclave as an object."""
    return {"slot": enclave.slot, "state": enclave.state, "base": hex8(enclave.base), "size": enclave.size,
            "window": hex8(enclave.window), "window_size": enclave.window_size, "entry": hex8(enclave.entry), "measurement": enclave.measurement}
