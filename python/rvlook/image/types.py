"""Reads from the DWARF entries of an ELF file what a C program names: structures, typed variables, enumeration constants and inlined functions."""
from __future__ import annotations

from dataclasses import dataclass, field
from typing import Any, Mapping, Optional

from rvlook.errors import SymbolError
from rvlook.image.symbols import compilation_units, ranges_of, read_elf
from rvlook.image.variables import AGGREGATES, UnitEntries, is_aggregate
from rvlook.protocol.inputs import Image
from rvlook.protocol.nearest import meant

SIGNED = (5, 6)  # DW_ATE_signed and DW_ATE_signed_char
DEEPEST = 8  # nested types
NUMBERS = (1, 2, 4)  # sizes in bytes of a type that is read as a number


@dataclass(frozen=True)
class Type:
    """A type of C: its size, and its elements or members."""
    name: str  # the name of the type
    size: int  # bytes; 0 if unknown
    is_signed: bool = False  # whether a number is signed
    element: Optional[Type] = None  # the element of an array; None for another type
    members: Mapping[str, tuple[int, Type]] = field(default_factory=dict)  # the members of a structure or union, with their offsets in bytes

    @property
    def is_number(self) -> bool:
        """Returns whether a value is read as a number."""
        return self.size in NUMBERS and not self.members and self.element is None

    @property
    def is_bytes(self) -> bool:
        """Returns whether a value is read as bytes: an array of characters, or a type of another size."""
        if self.members or self.is_number:
            return False
        return self.element is None or self.element.size <= 1 and not self.element.members

    def member(self, name: str) -> tuple[int, Type]:
        """Returns the offset in bytes and the type of a member. Raises SymbolError if the type has no such member."""
        if name not in self.members:
            raise SymbolError("no member '%s' in '%s'%s" % (name, self.name, meant(name, self.members)))
        return self.members[name]


@dataclass
class Types:
    """The names in the DWARF entries of an image."""
    structures: dict[str, Type] = field(default_factory=dict)  # and unions
    variables: dict[str, tuple[int, Type]] = field(default_factory=dict)  # the variables with their addresses
    constants: dict[str, int] = field(default_factory=dict)  # the constants of enumerations, by name
    inlined: dict[str, set[int]] = field(default_factory=dict)  # of each inlined function the addresses at which its code begins
    ambiguous: set[str] = field(default_factory=set)  # names of several variables, which `variables` leaves out

    def add_variable(self, name: str, address: int, kind: Type) -> None:
        """Adds a variable, unless its name has another address too."""
        if self.variables.setdefault(name, (address, kind))[0] != address:
            self.ambiguous.add(name)


def types_of(image: Image) -> Types:
    """Returns what the DWARF entries of an image name; nothing without DWARF. Warns if the entries cannot be read."""
    return read_elf(image.name, image.data or b"", "no types", read_types) or Types()


def read_types(file: Any) -> Types:
    """Reads the types of an ELF file."""
    types = Types()
    for dwarf, unit in compilation_units(file):
        reader = TypeReader(dwarf, unit)
        for entry in reader.entries.values():
            reader.add_entry(entry, types)
    for name in types.ambiguous:
        del types.variables[name]
    return types


class TypeReader(UnitEntries):
    """Reads the types of a compilation unit."""

    def add_entry(self, entry: Any, types: Types) -> None:
        """Adds to `types` the structure, variable, constant or inlined function that an entry names."""
        if entry.tag == "DW_TAG_inlined_subroutine":
            begin = min((first for first, end in ranges_of(self.dwarf, self.unit, entry) if first < end), default=None)
            if begin is not None:
                types.inlined.setdefault(self.name(entry), set()).add(begin)
        elif entry.tag == "DW_TAG_variable":
            address = self.fixed_address(entry)
            if address is not None:
                types.add_variable(self.name(entry), address, self.type(self.type_of(entry)))
        elif "DW_AT_name" not in entry.attributes:
            return
        elif entry.tag == "DW_TAG_enumerator" and isinstance(entry.attributes["DW_AT_const_value"].value, int):
            types.constants.setdefault(self.name(entry), entry.attributes["DW_AT_const_value"].value)
        elif entry.tag in AGGREGATES or entry.tag == "DW_TAG_typedef" and is_aggregate(self.plain(entry)):
            types.structures.setdefault(self.name(entry), self.type(entry))

    def type(self, entry: Any, depth: int = 0) -> Type:
        """Returns the type that an entry describes. Leaves out bit fields of a structure."""
        kind = self.plain(entry)
        if kind is None or depth > DEEPEST:
            return Type("unknown", 0)
        name = self.name(kind) if "DW_AT_name" in kind.attributes else kind.tag[len("DW_TAG_"):].replace("_type", "")
        size = self.size(kind)
        if kind.tag in AGGREGATES:
            named = [pair for pair in self.placed_members(kind) if "DW_AT_name" in pair[0].attributes and "DW_AT_bit_size" not in pair[0].attributes]
            return Type(name, size, members={self.name(member): (offset, self.type(self.type_of(member), depth + 1)) for member, offset in named})
        if kind.tag == "DW_TAG_array_type":
            return Type(name, size, element=self.type(self.type_of(kind), depth + 1))
        encoding = kind.attributes.get("DW_AT_encoding")
        return Type(name, size, encoding is not None and encoding.value in SIGNED)
