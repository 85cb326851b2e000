"""The symbols of an image: a name, a source line and a call site for an address, and the address of a name. Source lines and inlined calls come from
compilation units. The tables of a unit are read when one of its addresses is first looked up, since reading all of them takes seconds for a large
program."""
from __future__ import annotations

from bisect import bisect_right
from collections import defaultdict
from dataclasses import dataclass
from functools import cached_property
from typing import Callable, Iterable, Iterator, NamedTuple, Optional, Sequence, Tuple

from rvlook.errors import SymbolError
from rvlook.protocol.memory_map import RAM_BASE

ADDRESSES = 1 << 32
ALL = ((0, ADDRESSES),)  # the ranges of a unit that does not say which addresses it has
Row = Tuple[int, Optional[str]]  # an address, and the source line from there on, or None at the end of a sequence
Inlined = Tuple[int, int, str]  # the first and the last address of an inlined call, and the source line of the call
UNSIZED = 4096  # bytes that a symbol without a size has at most


@dataclass
class Unit:
    """A compilation unit: its addresses, its lines and its inlined calls."""
    ranges: Sequence[tuple[int, int]]  # the ranges of its addresses, each without its end
    read_rows: Callable[[], Iterable[Row]] = tuple  # reads the line table
    read_inlined: Callable[[], Iterable[Inlined]] = tuple  # reads the inlined calls

    def overlaps(self, first: int, end: int) -> bool:
        """Returns whether the unit has addresses from `first` up to before `end`."""
        return any(start < end and first < stop for start, stop in self.ranges)

    @cached_property
    def rows(self) -> list[Row]:
        """The rows of the line table in the order of addresses. Functions that the linker dropped have rows outside RAM, which are left out."""
        return sorted((row for row in self.read_rows() if row[0] >= RAM_BASE), key=lambda it: (it[0], it[1] is not None))

    @cached_property
    def starts(self) -> list[int]:
        """The addresses of the rows."""
        return [address for address, _ in self.rows]

    @cached_property
    def inlined(self) -> list[Inlined]:
        """The inlined calls in the order of addresses."""
        return sorted(self.read_inlined())


class Symbol(NamedTuple):
    """A symbol: a name for an address."""
    address: int
    size: int  # bytes; 0 if unknown
    name: str
    is_function: bool  # whether a symbol table says so
    rank: int = 0  # the symbol with the lowest rank names the address if there are several


class Symbols:
    """The symbols and the source lines of a program. `symbols` are in any order; `units` have the source lines."""

    def __init__(self, symbols: Sequence[Symbol] = (), units: Iterable[Unit] = ()) -> None:
        self.units = list(units)  # have the source lines
        best = {symbol.address: symbol for symbol in sorted(symbols, key=lambda it: (it.rank, it.name), reverse=True)}
        self.ordered = [best[address] for address in sorted(best) if address >= RAM_BASE]  # one for each address in RAM, in the order of addresses
        self.addresses = [symbol.address for symbol in self.ordered]  # the addresses of `ordered`
        self.by_name = {symbol.name: symbol for symbol in reversed(symbols)}  # the first one of each name
        self.addresses_by_name = defaultdict(set)  # the addresses of each name
        for symbol in symbols:
            self.addresses_by_name[symbol.name].add(symbol.address)

    def __bool__(self) -> bool:
        return bool(self.ordered)

    def at(self, address: int) -> Symbol | None:
        """Returns the nearest symbol at or below an address whose size includes the address, or None."""
        index = bisect_right(self.addresses, address) - 1
        symbol = self.ordered[index] if index >= 0 else None
        return symbol if symbol and address < symbol.address + (symbol.size or UNSIZED) else None

    def size_of(self, symbol: Symbol) -> int:
        """Returns the size of a symbol in bytes: its own, or else up to the next symbol."""
        index = bisect_right(self.addresses, symbol.address)
        following = self.addresses[index] - symbol.address if index < len(self.addresses) else UNSIZED
        return symbol.size or min(following, UNSIZED)

    def name(self, address: int) -> str | None:
        """Returns an address as a symbol and an offset, or None."""
        symbol = self.at(address)
        if symbol is None:
            return None
        offset = address - symbol.address
        return "%s+%x" % (symbol.name, offset) if offset else symbol.name

    def function(self, address: int) -> str | None:
        """Returns the symbol of an address without an offset, or None."""
        symbol = self.at(address)
        return symbol.name if symbol else None

    def has_lines(self) -> bool:
        """Returns whether a unit has source lines."""
        return any(unit.rows for unit in self.units)

    def source(self, address: int) -> str | None:
        """Returns the file and line of an instruction, or None."""
        for unit in self.units_of(address, address + 1):
            index = bisect_right(unit.starts, address) - 1
            if index >= 0 and unit.rows[index][1]:
                return unit.rows[index][1]
        return None

    def caller(self, address: int) -> str | None:
        """Returns the file and line of the call whose inlined code an instruction belongs to; None if it belongs to no inlined call."""
        for unit in self.units_of(address, address + 1):
            index = bisect_right(unit.inlined, (address, ADDRESSES)) - 1  # the last call that begins at or before the address
            if index >= 0 and address <= unit.inlined[index][1]:
                return unit.inlined[index][2]
        return None

    def sources_in(self, first: int, end: int) -> Iterator[str | None]:
        """Yields the file and line, or None, of each row of the line tables for the instructions from `first` up to before `end`. A damaged size
        may span all memory; there are never more results than rows."""
        for unit in self.units_of(first, end):
            for at in range(max(0, bisect_right(unit.starts, first) - 1), len(unit.rows)):
                if unit.starts[at] >= end:
                    break
                start = max(unit.starts[at], first)
                start += (first - start) % 4  # the next instruction: instructions lie at `first` plus multiples of 4
                following = unit.starts[at + 1] if at + 1 < len(unit.rows) else end
                if start < min(following, end):
                    yield unit.rows[at][1]

    def units_of(self, first: int, end: int) -> Iterator[Unit]:
        """Yields the units with addresses from `first` up to before `end`."""
        return (unit for unit in self.units if unit.overlaps(first, end))

    def place(self, address: int) -> str:
        """Returns the source line of an instruction; if there is none, its symbol; and if there is none either, its address."""
        return self.source(address) or self.name(address) or "%08x" % address

    def line(self, address: int) -> str | None:
        """Returns the source line of an instruction, or None. If it belongs to an inlined call, the source line of the call comes before it."""
        source, caller = self.source(address), self.caller(address)
        return "%s, in %s" % (caller, source) if caller and source else source

    def address(self, text: str) -> int | None:
        """Returns the address of a name, a name+offset or hexadecimal digits, or None. For an ambiguous name, name@place is the first at or after
        a place. Raises SymbolError if the name is ambiguous, or if no symbol of this name is at or after the place."""
        named, plus, offset = text.partition("+")
        name, at, start = named.partition("@")
        try:
            if name in self.addresses_by_name:
                return self.address_of(name, self.address(start) if at else None) + (int(offset, 16) & 0xFFFFFFFF if plus else 0)
            return int(text, 16) & 0xFFFFFFFF
        except ValueError:
            return None

    def address_of(self, name: str, first: int | None) -> int:
        """Returns the address of a name: the only one, or the first from an address on. Raises SymbolError if there is none or more than one."""
        addresses = sorted(self.addresses_by_name[name])
        if first is not None:
            addresses = [address for address in addresses if address >= first][:1]
            if not addresses:
                raise SymbolError("no symbol '%s' at or after %08x" % (name, first))
        if len(addresses) == 1:
            return addresses[0]
        shown = " and ".join("%08x" % address for address in addresses)
        raise SymbolError("symbol '%s' is ambiguous (%s); use %s@PLACE for the first at or after PLACE" % (name, shown, name))
