"""Reads the variables of an ELF file from its DWARF entries, down to the members of structures.

There are three kinds: variables at fixed addresses, variables in stack frames, and the memory to which parameters point. For the page also reads
where the variables of each function are: in a register, in the stack frame, or constant."""
from __future__ import annotations

import re
from bisect import bisect_left
from typing import Any, Iterable, Iterator, NamedTuple, Optional, Sequence, Tuple

from rvlook.escapes import visible
from rvlook.image.budget import spend
from rvlook.image.files import read_file
from rvlook.image.symbols import compilation_units, entries_of, placed, ranges_of, read_elf
from rvlook.protocol.inputs import Image

FIXED = 0x03  # DW_OP_addr
WHOLE = re.compile(rb"\x91([\x80-\xff]*[\x00-\x7f])", re.S)  # DW_OP_fbreg
PIECE = re.compile(rb"(?:\x91([\x80-\xff]*[\x00-\x7f])|[\x50-\x6f])?\x93([\x80-\xff]*[\x00-\x7f])", re.S)  # that or a register, and DW_OP_piece
FRAME_SP = (0x52, 0x72)  # DW_OP_reg2 and DW_OP_breg2: sp
QUALIFIERS = ("DW_TAG_typedef", "DW_TAG_volatile_type", "DW_TAG_const_type", "DW_TAG_restrict_type")  # entries that only refer to a type
AGGREGATES = ("DW_TAG_structure_type", "DW_TAG_union_type", "DW_TAG_class_type")
VARIABLES = ("DW_TAG_variable", "DW_TAG_formal_parameter")
SCOPES = ("DW_TAG_inlined_subroutine", "DW_TAG_lexical_block")  # entries with address ranges of their own
DEEPEST = 12  # the most nested types or scopes that are followed; a damaged file may have cycles
ADDRESSES = range(-1 << 31, 1 << 32)  # the values that an address or an offset may have; a damaged number has thousands of digits
Ranges = Sequence[Tuple[int, int]]  # ranges of instructions: first address, and address after the last one
MOST_ELEMENTS = 256  # the most elements of an array of structures
FIRST_REGISTER, LAST_REGISTER = 0x50, 0x6F  # DW_OP_reg0 to DW_OP_reg31
FIRST_NUMBER, LAST_NUMBER, SIGNED = 0x30, 0x4F, 0x11  # DW_OP_lit0 to DW_OP_lit31, and DW_OP_consts
WORD = 4  # bytes of a register
Where = Tuple[str, int]  # `register`, `sp`, `entry` (the sp at the function's entry) or `value`, with a number or an offset


class Member(NamedTuple):
    """A variable, or a member of one."""
    at: int  # address, or offset in bytes
    size: int  # bytes
    name: str  # the name with the names of the members that lead to it
    element: int = 0  # bytes of an element of an array; 0 for no array
    row: int = 0  # bytes of a row of an array of arrays, else 0
    is_union: bool = False  # whether its type is a union


class Local(NamedTuple):
    """A member of a variable in a stack frame, for a range of instructions."""
    first: int  # address of the first instruction
    end: int  # address after the last one
    is_sp: bool  # whether the offset is from sp, not from the caller's sp
    member: Member  # the member at an offset


class Parameter(NamedTuple):
    """A parameter that points to memory."""
    function: int  # address of its function
    number: int  # the number from 0; 0 is in a0
    members: Tuple[Member, ...]  # the members of the memory to which the parameter points


class Variables(NamedTuple):
    """The variables of an image."""
    fixed: Sequence[Member] = ()  # the variables at fixed addresses
    locals: Sequence[Local] = ()  # the local variables, in stack frames
    parameters: Sequence[Parameter] = ()  # the parameters that point to memory


def variables_of(path: str | None, image: Image) -> Variables:
    """Returns the variables of the ELF file of the symbols, or else of the image. Returns no variables without DWARF."""
    return read_elf(*debugged(path, image), "no variables", read_variables) or Variables()


def debugged(path: str | None, image: Image) -> tuple[str, bytes]:
    """Returns the name and the bytes of the file of the symbols, or else of the image."""
    return (path, read_file(path)) if path else (image.name, image.data or b"")


def read_variables(file: Any) -> Variables:
    """Reads the variables of an ELF file."""
    fixed: list[Member] = []
    frames: list[Local] = []
    parameters: list[Parameter] = []
    for dwarf, unit in compilation_units(file):
        reader = UnitEntries(dwarf, unit)
        fixed += reader.fixed()
        frames += reader.locals()
        parameters += reader.parameters()
    return Variables(sorted(set(fixed), key=lambda it: (it.at, -it.size)), frames, parameters)


class UnitEntries:
    """The DWARF entries of a compilation unit, and the variables that they describe."""

    def __init__(self, dwarf: Any, unit: Any) -> None:
        self.dwarf, self.unit = dwarf, unit
        self.entries: dict[int, Any] = {}  # the entries by offset
        self.children: dict[int, list[Any]] = {}  # the entries below each entry, by offset
        opened: list[list[Any]] = [[]]  # the children of the unit, and of each entry whose children are being read
        for entry in entries_of(dwarf, unit):
            if entry.is_null():
                del opened[max(1, len(opened) - 1):]
                continue
            self.entries[entry.offset] = entry
            opened[-1].append(entry)
            if entry.has_children:
                opened.append(self.children.setdefault(entry.offset, []))

    def fixed(self) -> Iterator[Member]:
        """Yields the members of the variables at fixed addresses."""
        for entry in self.entries.values():
            address = self.fixed_address(entry)
            if entry.tag == "DW_TAG_variable" and address is not None:
                yield from self.members(address, self.name(entry), self.type_of(entry))

    def locals(self) -> Iterator[Local]:
        """Yields the members of the variables in stack frames, each for the instructions of its scope."""
        for entry, ranges, is_sp in self.of_functions():
            for local in self.in_frame(entry):
                yield from (Local(first, end, is_sp, local) for first, end in ranges)

    def in_frame(self, entry: Any) -> Iterator[Member]:
        """Yields the members of a variable in a stack frame. If the compiler has split the variable, yields its pieces."""
        for offset, size in places_of(self.location(entry)):
            if not size:
                yield from self.members(offset, self.name(entry), self.type_of(entry))
            elif offset in ADDRESSES and size < ADDRESSES.stop:
                yield Member(offset, size, self.name(entry))

    def of_functions(self) -> Iterator[tuple[Any, Ranges, bool]]:
        """Yields the variables of each function, also of functions that are inlined in it. Each is an entry, the address ranges of its scope, and
        whether its offset in the frame is from sp."""
        for function in self.entries.values():
            base = function.attributes.get("DW_AT_frame_base") if function.tag == "DW_TAG_subprogram" else None
            if base is not None and isinstance(base.value, list):
                for entry, ranges in self.scoped(function, list(ranges_of(self.dwarf, self.unit, function))):
                    yield entry, ranges, base.value[0] in FRAME_SP

    def scoped(self, scope: Any, ranges: Ranges, depth: int = 0) -> Iterator[tuple[Any, Ranges]]:
        """Yields the variables of a scope and of the scopes in it, each with the address ranges of its scope. Variables whose scopes are apart may
        share a stack slot."""
        for child in self.children.get(scope.offset, ()) if depth < DEEPEST else ():
            spend()
            if child.tag in VARIABLES:
                yield child, ranges
            elif child.tag in SCOPES:
                yield from self.scoped(child, list(ranges_of(self.dwarf, self.unit, child)) or ranges, depth + 1)

    def parameters(self) -> Iterator[Parameter]:
        """Yields the parameters of functions that point to memory."""
        for function in self.entries.values():
            if function.tag == "DW_TAG_subprogram" and "DW_AT_low_pc" in function.attributes:
                own_parameters = [child for child in self.children.get(function.offset, ()) if child.tag == "DW_TAG_formal_parameter"]
                for number, entry in enumerate(own_parameters[:8]):
                    pointer, address = self.plain(self.type_of(entry)), function.attributes["DW_AT_low_pc"].value
                    if pointer is not None and pointer.tag == "DW_TAG_pointer_type":
                        yield Parameter(address, number, tuple(self.pointed(self.name(entry), self.type_of(pointer))))

    def pointed(self, name: str, kind: Any) -> Iterator[Member]:
        """Yields the members of the memory that a pointer of this name points to."""
        kind = self.plain(kind)
        if is_aggregate(kind):
            for member in self.members(0, "", kind):
                yield Member(member.at, member.size, "%s->%s" % (name, member.name.lstrip(".")), member.element)
        elif kind is not None and self.size(kind):
            yield Member(at=0, size=0, name=name, element=self.size(kind))

    def members(self, at: int, name: str, kind: Any, depth: int = 0) -> Iterator[Member]:
        """Yields a variable of a type at an address or offset; of a structure its members. Elements of an array of structures share their names."""
        spend()
        kind = self.plain(kind)
        if kind is None or depth > DEEPEST or not ADDRESSES.start <= at < ADDRESSES.stop:
            return
        if kind.tag == "DW_TAG_structure_type" or kind.tag == "DW_TAG_class_type":
            for member, offset in self.placed_members(kind):
                yield from self.members(at + offset, "%s.%s" % (name, self.name(member)), self.type_of(member), depth + 1)
            return
        element = self.plain(self.type_of(kind)) if kind.tag == "DW_TAG_array_type" else None
        size, element_size = self.size(kind), self.size(element)
        if is_aggregate(element) and element_size:
            for n in range(min(size // element_size, MOST_ELEMENTS)):
                yield from self.members(at + n * element_size, name + "[]", element, depth + 1)
        elif 0 < size < ADDRESSES.stop:
            yield Member(at, size, name, element_size, self.row(kind, size), kind.tag == "DW_TAG_union_type")

    def placed_members(self, kind: Any) -> Iterator[tuple[Any, int]]:
        """Yields the members of a structure or union, each with its offset in bytes, which must be constant."""
        for child in self.children.get(kind.offset, ()):
            where = child.attributes.get("DW_AT_data_member_location")
            if child.tag == "DW_TAG_member" and (where is None or isinstance(where.value, int)):
                yield child, where.value if where else 0

    def size(self, kind: Any, depth: int = 0) -> int:
        """Returns the size of a type in bytes, 0 if it is not known."""
        kind = self.plain(kind)
        if kind is None or depth > DEEPEST:
            return 0
        if "DW_AT_byte_size" in kind.attributes:
            return int(kind.attributes["DW_AT_byte_size"].value)
        if kind.tag != "DW_TAG_array_type":
            return 4 if kind.tag == "DW_TAG_pointer_type" else 0
        count = 1
        for child in self.children.get(kind.offset, ()):
            count *= elements_in(child)
        return count * self.size(self.type_of(kind), depth + 1)

    def row(self, kind: Any, size: int) -> int:
        """Returns the bytes of a row of an array with more than one dimension, else 0. `size` is the number of bytes of the array."""
        bounds = self.children.get(kind.offset, []) if kind.tag == "DW_TAG_array_type" else []
        if len(bounds) < 2:
            return 0
        count = elements_in(bounds[0])
        return size // count if count > 0 else 0

    def plain(self, kind: Any) -> Any:
        """Returns the type that typedefs and qualifiers lead to; None if there is no type, or more than DEEPEST of them."""
        for _ in range(DEEPEST):
            if kind is None or kind.tag not in QUALIFIERS:
                return kind
            kind = self.type_of(kind)
        return None

    def type_of(self, entry: Any) -> Any:
        """Returns the type of an entry, or of the entry that it is an instance of; or None."""
        own_type, origin = self.referenced(entry, "DW_AT_type"), self.origin(entry)
        return own_type if own_type is not None or origin is None else self.referenced(origin, "DW_AT_type")

    def name(self, entry: Any) -> str:
        """Returns the name of an entry."""
        if "DW_AT_name" in entry.attributes:
            return visible(entry.attributes["DW_AT_name"].value.decode("utf-8", "replace"))
        origin = self.origin(entry)
        return self.name(origin) if origin is not None and origin.offset != entry.offset and "DW_AT_name" in origin.attributes else "a constant"

    def origin(self, entry: Any) -> Any:
        """Returns the entry that an entry is an instance of, or None."""
        return self.referenced(entry, "DW_AT_abstract_origin") or self.referenced(entry, "DW_AT_specification")

    def referenced(self, entry: Any, name: str) -> Any:
        """Returns the entry that an attribute refers to, or None."""
        attribute = entry.attributes.get(name)
        if attribute is None or not isinstance(attribute.value, int):
            return None
        return self.entries.get(attribute.value + (0 if attribute.form == "DW_FORM_ref_addr" else self.unit.cu_offset))

    def variables(self) -> Iterator[Variable]:
        """Yields the variables of each function, also of functions that are inlined in it."""
        for entry, ranges, is_sp in self.of_functions():
            yield from self.located(entry, ranges, is_sp)

    def located(self, entry: Any, ranges: Sequence[tuple[int, int]], is_sp: bool) -> Iterator[Variable]:
        """Yields a variable with each of its locations. Yields nothing for a structure."""
        kind = self.plain(self.type_of(entry))
        size = self.size(kind)
        if kind is None or is_aggregate(kind) or not 0 < size <= WORD:
            return
        constant, location = entry.attributes.get("DW_AT_const_value"), entry.attributes.get("DW_AT_location")
        is_listed = location is not None and not isinstance(location.value, list)
        places = self.listed(location.value, entry) if is_listed else [(*each, self.location(entry)) for each in ranges]
        for first, end, expression in places:
            spend()
            where = ("value", int(constant.value)) if constant and isinstance(constant.value, int) else where_of(expression, is_sp)
            if where and where[1] in ADDRESSES and first < end:
                yield Variable(first, end, self.name(entry), where, size)

    def listed(self, offset: int, entry: Any) -> Iterator[tuple[int, int, bytes]]:
        """Yields the ranges of a location list, each with its expression."""
        lists = self.dwarf.location_lists()
        items = lists.get_location_list_at_offset(offset, entry) if lists else ()
        yield from ((first, end, bytes(item.loc_expr)) for first, end, item in placed(self.unit, items))

    @staticmethod
    def location(entry: Any) -> bytes:
        """Returns the location of a variable as an expression; empty for a variable without a location."""
        attribute = entry.attributes.get("DW_AT_location")
        return bytes(attribute.value) if attribute is not None and isinstance(attribute.value, list) else b""

    def fixed_address(self, entry: Any) -> int | None:
        """Returns the address of a variable at a fixed address, or None."""
        where = self.location(entry)
        return int.from_bytes(where[1:], "little") if len(where) == 5 and where[0] == FIXED else None


def is_aggregate(kind: Any) -> bool:
    """Returns whether a type, or None, is a structure or a union."""
    return kind is not None and kind.tag in AGGREGATES


def elements_in(dimension: Any) -> int:
    """Returns the number of elements in a dimension of an array, 0 if it is not known."""
    count, upper_bound = (dimension.attributes.get(attribute) for attribute in ("DW_AT_count", "DW_AT_upper_bound"))
    if count and isinstance(count.value, int):
        return count.value
    return upper_bound.value + 1 if upper_bound and isinstance(upper_bound.value, int) else 0


def places_of(location: bytes) -> list[tuple[int, int]]:
    """Returns the offset and the size in bytes of each piece of a variable in a stack frame. The size of a variable in one piece is 0. Leaves out
    pieces in registers. Returns no place for any other expression."""
    whole, pieces = WHOLE.fullmatch(location), list(PIECE.finditer(location))
    if whole:
        return [(signed(whole[1]), 0)]
    if b"".join(piece[0] for piece in pieces) != location:
        return []
    return [(signed(piece[1]), sum((byte & 0x7F) << 7 * n for n, byte in enumerate(piece[2]))) for piece in pieces if piece[1]]


def signed(data: bytes) -> int:
    """Decodes a signed LEB128 number."""
    value, shift = 0, 0
    for byte in data:
        value |= (byte & 0x7F) << shift
        shift += 7
        if not byte & 0x80:
            return value - (1 << shift) if byte & 0x40 else value
    return value


class Variable(NamedTuple):
    """A variable for a range of instructions of its function."""
    first: int  # address of the first instruction
    end: int  # address after the last one
    name: str  # the name of the variable
    where: Where  # the location of the variable
    size: int  # bytes


def frames_of(path: str | None, image: Image, executed: Sequence[int]) -> Sequence[Variable]:
    """Returns the variables of the ELF file of the symbols, or else of the image. Returns no variables without DWARF. Leaves out each compilation
    unit without an executed instruction. `executed` has the addresses of the executed instructions, in ascending order."""
    return read_elf(*debugged(path, image), "no variables", lambda file: [
        variable for dwarf, unit in compilation_units(file) if has_any(ranges_of(dwarf, unit, unit.get_top_DIE()), executed)
        for variable in UnitEntries(dwarf, unit).variables()]) or ()


def has_any(ranges: Iterable[tuple[int, int]], executed: Sequence[int]) -> bool:
    """Returns whether an executed address is in one of the ranges, or there are no ranges, so that the unit may have any address."""
    all_ranges = list(ranges)
    return not all_ranges or any(bisect_left(executed, first) < bisect_left(executed, end) for first, end in all_ranges)


def where_of(expression: bytes, is_sp: bool) -> Optional[Where]:
    """Decodes a location expression of one operation. Returns None for other expressions. `is_sp`: whether frame offsets are from sp."""
    if len(expression) == 1 and FIRST_REGISTER <= expression[0] <= LAST_REGISTER:
        return "register", expression[0] - FIRST_REGISTER
    places = places_of(expression)
    if [size for _, size in places] == [0]:
        return "sp" if is_sp else "entry", places[0][0]
    if expression[:1] == bytes([SIGNED]):
        return "value", signed(expression[1:])
    if expression and FIRST_NUMBER <= expression[0] <= LAST_NUMBER:
        return "value", expression[0] - FIRST_NUMBER
    return None
