"""Joins the ELF file of a monitor with the ELF file of its host and enclaves."""
from __future__ import annotations

import struct

from rvlook.errors import RvlookError
from rvlook.image.detect import SECTIONS, SECTIONS_AT
from rvlook.image.files import digits_of, image_of
from rvlook.image.symbols import symbols_of
from rvlook.protocol.inputs import AT_SEGMENTS, AT_SIZES, HEADER, SEGMENT, Image, Segment
from rvlook.protocol.symbols import Symbols


def segments_of(image: Image) -> list[Segment]:
    """Returns the program headers of the segments that are loaded. Raises RvlookError if the file is not a 32-bit ELF file."""
    if not image.is_elf_32:
        raise RvlookError("'%s' is not a 32-bit ELF file" % image.name)
    return list(image.segments())


def joined(monitor: Image, path: str) -> tuple[Image, Symbols]:
    """Returns an image with the segments of both files, which begins where the monitor does, and the symbols of the second file. Raises
    RvlookError if a file cannot be used, or if segments overlap."""
    host = image_of(path)
    parts_of_both = [(segment, monitor) for segment in segments_of(monitor)] + [(segment, host) for segment in segments_of(host)]
    refuse_overlap([(segment.address, segment.address + segment.in_memory, image.name) for segment, image in parts_of_both])
    table, body, start = b"", b"", HEADER + SEGMENT.size * len(parts_of_both)
    for (kind, offset, virtual, address, in_file, in_memory, flags, _), image in parts_of_both:
        table += SEGMENT.pack(kind, start + len(body), virtual, address, in_file, in_memory, flags, 1)
        body += (image.data or b"")[offset:offset + in_file]
    data = header_of(monitor, len(parts_of_both)) + table + body
    return Image(monitor.name, digits_of(data), data), symbols_of(host.name, host.data)


def refuse_overlap(spans: list[tuple[int, int, str]]) -> None:
    """Raises RvlookError if two segments have a byte in common."""
    ordered = sorted(spans)
    for (_, end, name), (first, _, next_name) in zip(ordered, ordered[1:]):
        if first < end:
            raise RvlookError("a segment of '%s' and one of '%s' overlap at %08x; link the host elsewhere" % (name, next_name, first))


def header_of(image: Image, count: int) -> bytes:
    """Returns the header of an ELF file, changed so that `count` program headers follow it, and so that it has no sections."""
    header = bytearray((image.data or b"")[:HEADER])
    struct.pack_into("<I", header, AT_SEGMENTS, HEADER)
    struct.pack_into("<HH", header, AT_SIZES, SEGMENT.size, count)
    struct.pack_into("<I", header, SECTIONS_AT, 0)
    struct.pack_into("<HHH", header, SECTIONS, 0, 0, 0)
    return bytes(header)


def both(first: Symbols, second: Symbols) -> Symbols:
    """Returns the symbols of two files."""
    symbols = dict.fromkeys(symbol for symbols_of_file in (first, second) for symbol in (*symbols_of_file.ordered, *symbols_of_file.by_name.values()))
    return Symbols(list(symbols), [*first.units, *second.units])
