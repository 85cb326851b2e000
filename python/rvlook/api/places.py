"""Finds places of a program by name: symbols, variables, members, elements, source lines and inlined functions."""
from __future__ import annotations

import re
from dataclasses import dataclass
from typing import Optional, Tuple, Union

from rvlook.errors import SymbolError
from rvlook.image.types import Type, Types
from rvlook.protocol.commands import no_symbol
from rvlook.protocol.nearest import nearest
from rvlook.protocol.symbols import Symbols

PlaceLike = Union[int, str]  # an address; or a name as docs/TESTS.md, Places, has it
UNTYPED = Type("bytes", 0)  # the type of a place whose type is unknown
LINE = re.compile(r"(?P<file>[^:+]+\.\w+):(?P<number>\d+)")  # a source line, such as `host.c:12`
PART = re.compile(r"\.(\w+)|\[(\d+)\]")  # a member or an element, such as `.status` or `[1]`


@dataclass(frozen=True)
class Place:
    """A place in a program: a name with its address, and the size and type that the debug information gives."""
    name: str  # the name by which the user asked for it
    address: int  # the address of its first byte
    size: int = 0  # bytes; 0 if unknown
    type: Type = UNTYPED  # the type of C; UNTYPED if unknown
    inlined: Tuple[int, ...] = ()  # addresses of the copies of a function that the compiler made in place of calls

    @property
    def addresses(self) -> list[int]:
        """Returns the address, and the addresses of the copies."""
        return [self.address, *self.inlined]


class Places:
    """The places that the symbols and the types of a program name."""

    def __init__(self, symbols: Symbols, types: Types) -> None:
        self.symbols, self.types = symbols, types  # from the symbol table and from DWARF

    def find(self, where: PlaceLike) -> Place:
        """Returns the place of a name or an address. Raises SymbolError for an unknown name, with the most similar name."""
        if isinstance(where, int):
            return Place(self.symbols.name(where) or "%08x" % where, where)
        if LINE.fullmatch(where):
            return self.of_line(where)
        variable = self.of_variable(where)
        if variable is not None:
            return variable
        inlined = tuple(sorted(self.types.inlined.get(where, ())))
        if inlined and where not in self.symbols.by_name:
            return Place(where, inlined[0], inlined=inlined[1:])
        address = self.symbols.address(where)
        if address is None:
            similar = nearest(where, [*self.types.variables, *self.types.inlined, *self.symbols.by_name])
            raise SymbolError("no symbol '%s'; did you mean '%s'?" % (where, similar) if similar else no_symbol(where, self.symbols))
        symbol = self.symbols.by_name.get(where)
        return Place(where, address, symbol.size if symbol else 0, inlined=inlined)

    def of_variable(self, path: str) -> Optional[Place]:
        """Returns the place of a variable, or of a member or an element of one, such as `left.status` and `answers[1]`. Returns None if the name
        is not that of a variable. Raises SymbolError if the variable has no such member or element."""
        name = re.split(r"[.\[]", path, maxsplit=1)[0]
        suffixes = path[len(name):]
        if name not in self.types.variables or PART.sub("", suffixes):
            return None
        address, kind = self.types.variables[name]
        for member, index in PART.findall(suffixes):
            offset, kind = kind.member(member) if member else element_of(kind, int(index), path)
            address += offset
        return Place(path, address, kind.size, kind)

    def of_line(self, where: str) -> Place:
        """Returns the place of the first instruction of a source line. Raises SymbolError, with the next line that has code."""
        rows = [(source, address) for unit in self.symbols.units for address, source in unit.rows if source]
        address = min((address for source, address in rows if source == where), default=None)
        if address is None:
            file, number = where.rsplit(":", 1)
            numbers = sorted({int(source.rsplit(":", 1)[1]) for source, _ in rows if source.rsplit(":", 1)[0] == file})
            raise SymbolError("no code at %s; %s" % (where, next_line(file, int(number), numbers)))
        return Place(where, address)


def element_of(kind: Type, index: int, path: str) -> tuple[int, Type]:
    """Returns the offset in bytes and the type of an element of an array. Raises SymbolError if the type is no array, or if the index is too
    large."""
    count = kind.size // kind.element.size if kind.element and kind.element.size else 0
    if kind.element is None or index >= count:
        raise SymbolError("no element %d in '%s', which has %d" % (index, path, count))
    return index * kind.element.size, kind.element


def next_line(file: str, number: int, numbers: list[int]) -> str:
    """Returns which lines of a file have code, as the remedy of a message."""
    if not numbers:
        return "no file '%s' has source lines; build with -g" % file
    following = next((larger for larger in numbers if larger > number), None)
    return "the next line with code is %s:%d" % (file, following) if following else "the last line with code is %s:%d" % (file, numbers[-1])
