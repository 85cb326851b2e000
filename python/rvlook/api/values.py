"""The values that a machine returns: answers of the monitor, ends of a program, traps, access rights and access maps."""
from __future__ import annotations

import html
import io
from dataclasses import dataclass
from typing import Iterator, Optional

from rvlook.access.map import Event
from rvlook.access.map_text import changed_rows, print_event
from rvlook.errors import RvlookError
from rvlook.output.printer import Printer
from rvlook.protocol import names
from rvlook.protocol.symbols import Symbols

LEFT = ("exited", "stopped", "interrupted")  # how the enclave left, by a0 of the host
COLOURS = {"---": "#eee", "rwx": "#9d9", "rw-": "#bdf"}  # the colours of access rights in a notebook
OTHER_COLOUR = "#fd9"  # of all other access rights


class NotReached(RvlookError):
    """A place, a call or an answer that the machine did not reach. The text says where the machine is instead."""


@dataclass(frozen=True)
class Trap:
    """A trap, with the values of mcause and mtval."""
    cause: int  # mcause
    value: int  # mtval

    @property
    def name(self) -> str:
        """Returns the name of the cause, such as `load access fault`."""
        return names.cause_name("%08x" % self.cause)

    def __str__(self) -> str:
        return "%s, value %08x" % (self.name, self.value)


@dataclass(frozen=True)
class Ending:
    """The end of a program: why and where it ended, and its status."""
    why: str  # finished, halted (in an endless loop), or fault
    place: str  # the place of the next instruction, as text
    status: Optional[int] = None  # the status of finish(status); None for another end


@dataclass(frozen=True)
class CallResult:
    """The answer of the monitor to a call of the host."""
    how: str  # done, refused, exited, stopped, interrupted, or running if the enclave has not exited yet
    value: object = 0  # a1; for `refused` the name of the status, or a0 if the status has none

    def __str__(self) -> str:
        if self.how == "interrupted":
            return self.how
        return "%s %s %s" % (self.how, "at" if self.how == "running" else "with", self.value)

    __repr__ = __str__


def answer_of(is_entered: bool, a0: int, a1: int) -> CallResult:
    """Decodes a0 and a1 of the host after a call; `is_entered` says whether the call entered an enclave."""
    if a0 in names.STATUSES:
        return CallResult("refused", names.STATUSES[a0])
    if is_entered and a0 < len(LEFT):
        return interrupted() if LEFT[a0] == "interrupted" else CallResult(LEFT[a0], a1)
    return CallResult("done", a1) if a0 == 0 else CallResult("refused", a0)


def stopped(value: int) -> CallResult:
    """Returns the answer of an enclave that stops with a value; it can be resumed."""
    return CallResult("stopped", value)


def exited(value: int) -> CallResult:
    """Returns the answer of an enclave that exits with a value."""
    return CallResult("exited", value)


def interrupted() -> CallResult:
    """Returns the answer of an enclave that the timer interrupted; it can be resumed."""
    return CallResult("interrupted")


def refused(why: str) -> CallResult:
    """Returns the answer of a monitor that refuses a call with a status such as `BadState` (docs/MONITOR.md). Raises ValueError for other names."""
    if why not in names.STATUSES.values():
        raise ValueError("no status '%s'; the statuses are %s" % (why, ", ".join(names.STATUSES.values())))
    return CallResult("refused", why)


class Rights(str):
    """Access rights, such as `rw-`. If the bytes of a place have different rights, these are joined by `/`, and equal no single rights."""
    reason: str  # the ranges and their rights

    def __new__(cls, text: str, reason: str = "") -> Rights:
        self = super().__new__(cls, text)
        self.reason = reason
        return self


class AccessMap:
    """The access rights of all worlds at one step. It prints as `rvlook map` does, a notebook shows a table, and `new - old` is a list of the
    changes."""

    def __init__(self, event: Event, symbols: Symbols) -> None:
        self.event, self.symbols = event, symbols  # has the rights of all worlds

    def __str__(self) -> str:
        text = io.StringIO()
        print_event(Printer(as_json=False, stream=text), self.event, self.symbols)
        return text.getvalue()

    def __eq__(self, other: object) -> bool:
        return isinstance(other, AccessMap) and self.rows() == other.rows()

    def rows(self) -> list[tuple[int, int, str, dict[str, str]]]:
        """Returns the rows: the first address, the end, the meaning, and the rights of each world (on the bare machine, of each mode)."""
        return [(row.range.first, row.range.end, row.what, dict(self.rights_in(row.may))) for row in self.event.rows]

    def rights_in(self, may: dict[str, dict[str, str]]) -> Iterator[tuple[str, str]]:
        """Yields each world or mode with its rights."""
        for column in self.event.columns:
            for mode, rights in may[column.name].items():
                yield (mode, rights) if column.world == "bare" else (column.world, rights)

    def __sub__(self, before: AccessMap) -> list[str]:
        """Returns the changes since an earlier map, one line for each range."""
        return ["  ".join(("%08x-%08x" % (range_.first, range_.end - 1), *changed, what)).rstrip()
                for range_, what, changed in changed_rows(self.event, before.event)]

    def _repr_html_(self) -> str:
        """Returns the map as an HTML table."""
        rows = self.rows()
        worlds = list(rows[0][3])
        head = "".join("<th>%s" % html.escape(title) for title in ("bytes", *worlds, ""))
        body = "".join("<tr><td><code>%08x-%08x</code>%s<td>%s</tr>" % (
            first, end - 1, "".join(map(cell, (may.get(world, "---") for world in worlds))), html.escape(what)) for first, end, what, may in rows)
        return "<table><tr>%s</tr>%s</table>" % (head, body)


def cell(rights: str) -> str:
    """Returns access rights as a cell of an HTML table."""
    return "<td style='background:%s'><code>%s</code>" % (COLOURS.get(rights, OTHER_COLOUR), rights)
