"""The input of the bench: an image, and the lines of a script."""
from __future__ import annotations

import struct
from typing import Iterator, NamedTuple, Optional

ELF_MAGIC = b"\x7fELF"
HEADER = 52  # bytes of the header of a 32-bit ELF file
AT_SEGMENTS, AT_SIZES = 28, 42  # offsets in that header of the place, and of the size and number, of the program headers
SEGMENT = struct.Struct("<8I")  # a program header, as the fields of Segment
LOAD = 1  # PT_LOAD, the kind of a segment that is loaded


class Segment(NamedTuple):
    """A program header (ELF, Program Header)."""
    kind: int  # LOAD for a loaded segment
    offset: int  # the offset in the file, bytes
    virtual: int  # the virtual address
    address: int  # the physical address
    in_file: int  # size in the file, bytes
    in_memory: int  # size in memory, bytes
    flags: int  # the access rights
    alignment: int  # the alignment in bytes


def segments_of(data: bytes) -> Iterator[Segment]:
    """Yields the loaded segments of an ELF32 file that are not empty, and whose program headers are in the file."""
    start = struct.unpack_from("<I", data, AT_SEGMENTS)[0]
    size, count = struct.unpack_from("<HH", data, AT_SIZES)
    for at in range(start, start + size * count, size) if size else ():
        if at + SEGMENT.size <= len(data):
            segment = Segment(*SEGMENT.unpack_from(data, at))
            if segment.kind == LOAD and segment.in_memory:
                yield segment


class ScriptLine(NamedTuple):
    """A line of a script."""
    given: str  # the line as the file has it
    location: str  # the file and the line number
    text: str  # the text in the syntax of the bench
    refused: str = ""  # why a name in it has no address; empty if each name has one


class Image(NamedTuple):
    """An image, and the script that follows it in the input."""
    name: str  # the path of the file
    text: bytes  # what the bench reads before the line `--`
    data: Optional[bytes]  # the bytes of the image; None if the text is malformed
    script: tuple[ScriptLine, ...] = ()  # the lines after `--`

    @property
    def is_elf(self) -> bool:
        """Returns whether the bytes begin as an ELF file."""
        return self.data is not None and self.data.startswith(ELF_MAGIC)

    @property
    def is_elf_32(self) -> bool:
        """Returns whether the image is a 32-bit little-endian ELF file with a complete header."""
        return self.is_elf and self.data is not None and len(self.data) >= HEADER and self.data[4:6] == b"\x01\x01"

    def segments(self) -> Iterator[Segment]:
        """Yields the loaded segments of a 32-bit ELF file; none of another image."""
        return segments_of(self.data) if self.is_elf_32 and self.data else iter(())
