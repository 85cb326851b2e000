"""Views of memory by C types: numbers, bytes, lists, and structures whose members are attributes."""
from __future__ import annotations

from typing import Any, List, Mapping, TYPE_CHECKING

from rvlook.errors import RvlookError
from rvlook.image.types import Type

if TYPE_CHECKING:
    from rvlook.api.machine import Machine


def value_of(memory: Machine, address: int, kind: Type) -> Any:
    """Reads a value of a type: a number, bytes, a list of values, or a view of a structure."""
    if kind.members:
        return View(memory, address, kind)
    if kind.is_bytes:
        return memory.read(address, kind.size)
    if kind.element is not None:
        element = kind.element
        return [value_of(memory, address + n, element) for n in range(0, kind.size, element.size)]
    return int.from_bytes(memory.read(address, kind.size), "little", signed=kind.is_signed)


def bytes_for(value: Any, kind: Type, what: str) -> bytes:
    """Returns a value as the bytes of a type. Raises RvlookError for a value that does not fit; `what` names the place in the message."""
    if isinstance(value, int) and kind.is_number and -(1 << 8 * kind.size - 1) <= value < 1 << 8 * kind.size:
        return (value % (1 << 8 * kind.size)).to_bytes(kind.size, "little")
    if isinstance(value, (bytes, bytearray)) and len(value) == kind.size:
        return bytes(value)
    if isinstance(value, (list, tuple)) and kind.element and len(value) * kind.element.size == kind.size:
        element = kind.element
        return b"".join(bytes_for(item, element, what) for item in value)
    given = "%d bytes" % len(value) if isinstance(value, (bytes, bytearray)) else repr(value)
    raise RvlookError("cannot write %s to %s, which has %d bytes" % (given, what, kind.size))


class View:
    """A structure in memory. Its members are attributes; each use of one reads or writes the memory of the machine. `view["pin"]` is the address
    of a member."""
    __slots__ = ("_memory", "_address", "_type")
    _memory: Machine  # the memory that the members read and write
    _address: int  # the address of the structure
    _type: Type  # the type of the structure

    def __init__(self, memory: Machine, address: int, kind: Type) -> None:
        for name, value in (("_memory", memory), ("_address", address), ("_type", kind)):
            object.__setattr__(self, name, value)

    def __getattr__(self, name: str) -> Any:
        if name.startswith("__"):
            raise AttributeError(name)
        offset, kind = self._type.member(name)
        return value_of(self._memory, self._address + offset, kind)

    def __setattr__(self, name: str, value: Any) -> None:
        offset, kind = self._type.member(name)
        self._memory.write(self._address + offset, bytes_for(value, kind, "%s.%s" % (self._type.name, name)))

    def __getitem__(self, name: str) -> int:
        return int(self._address + self._type.member(name)[0])

    def assign(self, members: Mapping[str, Any]) -> None:
        """Writes several members. Raises RvlookError for a value that does not fit."""
        for name, value in members.items():
            setattr(self, name, value)

    def values(self) -> dict[str, Any]:
        """Returns a copy of all members, which stays valid when the machine goes on."""
        return {name: copied(getattr(self, name)) for name in self._type.members}

    def __dir__(self) -> List[str]:
        return [*super().__dir__(), *self._type.members]

    def __eq__(self, other: object) -> bool:
        """Returns whether another view has equal members, or whether the members that a mapping names are equal."""
        if isinstance(other, View):
            return self.values() == other.values()
        return isinstance(other, Mapping) and all(getattr(self, name) == value for name, value in other.items())

    def __repr__(self) -> str:
        return "%s(%s)" % (self._type.name, ", ".join("%s=%r" % member for member in self.values().items()))


def copied(value: Any) -> Any:
    """Returns a value that does not change with the memory."""
    if isinstance(value, View):
        return value.values()
    return [copied(item) for item in value] if isinstance(value, list) else value
