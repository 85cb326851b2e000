"""The console of a program, a convention in memory (examples/shared/console.h). It has a count of the characters written, the exit status once the
program has ended, and a ring with the last characters. A host has one, and an enclave one in its window."""
from __future__ import annotations

from dataclasses import dataclass, field
from typing import Callable, Iterator, Sequence

from rvlook.escapes import visible_line
from rvlook.protocol.replies import bytes_of
from rvlook.protocol.symbols import Symbols

PLACES = {"host_console": "host", "window_console": "enclave"}  # the symbol of each console, and who writes to it
WRITTEN, ENDED, STATUS, TEXT = 0, 4, 8, 16  # offsets in bytes: of the count, whether the program has ended, its exit status, and the ring
SIZE = 256  # bytes of the ring
MAX_MEM = 64  # the most bytes that one `mem` shows
Ask = Callable[..., Sequence[Sequence[str]]]  # sends commands; returns the lines of each reply


def word(data: bytes, offset: int) -> int:
    """Returns the little-endian word at an offset."""
    return int.from_bytes(data[offset:offset + 4], "little")


@dataclass
class Console:
    """A console: bytes in the memory of a program, to which it writes characters and its exit status."""
    writer: str  # who writes to it: host or enclave
    address: int  # the address of its first byte
    written: int = 0  # characters so far
    pending: str = ""  # the line that has not ended yet
    status: int | None = None  # the status of the program, once it has ended
    ring: dict[int, str] = field(default_factory=dict)  # by offset in the ring: the byte that stores have left, two hexadecimal digits

    def take(self, characters: bytes) -> list[str]:
        """Appends characters to the pending line; returns the lines that they complete."""
        *lines, self.pending = (self.pending + characters.decode("latin-1")).split("\n")
        return [visible_line(line) for line in lines]

    def flush(self) -> list[str]:
        """Returns the pending line, which has no line feed yet, as a list; an empty list if there is none. Clears the pending line."""
        lines, self.pending = [visible_line(self.pending)] if self.pending else [], ""
        return lines

    def queries(self) -> list[str]:
        """Returns the commands that read the console."""
        ring = ["mem %x %d" % (self.address + TEXT + at, MAX_MEM) for at in range(0, SIZE, MAX_MEM)]
        return ["mem %x %d" % (self.address, TEXT), *ring]

    def read(self, ask: Ask) -> list[str]:
        """Reads the console; returns the lines that are new. After a step back, nothing is new."""
        data = b"".join(bytes_of(reply[0]) for reply in ask(*self.queries()) if not reply[0].startswith("error "))
        if len(data) < TEXT + SIZE:
            return []
        written = word(data, WRITTEN)
        lost = written - self.written - SIZE
        new_characters = bytes(data[TEXT + number % SIZE] for number in range(self.written + max(0, lost), written))
        if written < self.written:
            self.pending = ""
        self.written = written
        if word(data, ENDED):
            self.status = word(data, STATUS) & 0xFF
        notes = ["[%d characters lost]" % lost] if lost > 0 else []
        return notes + self.take(new_characters)

    def store(self, address: int, value: str) -> list[str]:
        """Follows a store of a value, hexadecimal digits, to an address; returns the lines that it completes. A store to the count adds text."""
        offset = address - self.address
        if TEXT <= offset < TEXT + SIZE:
            for at in range(len(value) // 2):
                self.ring[offset - TEXT + at] = value[len(value) - 2 * at - 2:len(value) - 2 * at]
        if offset != WRITTEN or len(value) != 8:
            return []
        earlier_count, self.written = self.written, int(value, 16)
        return self.take(bytes(int(self.ring.get(at % SIZE, "3f"), 16) for at in range(max(earlier_count, self.written - SIZE), self.written)))


def consoles_of(symbols: Symbols) -> list[Console]:
    """Returns the consoles whose symbols the program has."""
    return [Console(writer, address) for name, writer in PLACES.items() for address in [symbols.address(name)] if address is not None]


def followed(consoles: Sequence[Console], address: int, value: str) -> Iterator[tuple[str, str]]:
    """Follows a store to an address on all consoles; yields the lines that it completes, each after its writer."""
    for console in consoles:
        for line in console.store(address, value):
            yield console.writer, line
