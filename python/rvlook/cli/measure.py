"""The subcommand `measure`: computes the digest that `create` records."""
from __future__ import annotations

import hashlib
import io
import struct
from argparse import Namespace
from typing import Sequence

from rvlook.errors import RvlookError, Unfinished, package_missing, reason_of
from rvlook.image.budget import budget_of
from rvlook.image.files import read_file
from rvlook.image.symbols import symbols_of
from rvlook.output.printer import Printer, hex8
from rvlook.protocol import names
from rvlook.protocol.inputs import ELF_MAGIC
from rvlook.protocol.memory_map import MONITOR_END, RAM_BASE

LEAST_SIZE = 4096  # the least bytes of a region or window


def region_bytes(path: str, data: bytes, base: int, size: int) -> bytes:
    """Returns the bytes of a region, padded with zeros: the segments of an ELF file, or the bytes of another file from the base on. Raises
    RvlookError if the file has more bytes than the region."""
    if not data.startswith(ELF_MAGIC):
        if len(data) > size:
            raise RvlookError("'%s' has %d bytes, but the region has only %d" % (path, len(data), size))
        return data.ljust(size, b"\0")
    region = bytearray(size)
    for address, part in segments(path, data):
        first, end = max(address, base), min(address + len(part), base + size)
        if first < end:
            region[first - base:end - base] = part[first - address:end - address]
    return bytes(region)


def segments(path: str, data: bytes) -> list[tuple[int, bytes]]:
    """Returns the load address and the bytes of each segment of an ELF file; raises RvlookError or Unfinished."""
    try:
        from elftools.elf.elffile import ELFFile
    except ImportError:
        raise Unfinished(package_missing("pyelftools", "python3-pyelftools", "measure cannot read an ELF file")) from None
    try:
        with budget_of(data).limits():
            file = ELFFile(io.BytesIO(data))
            return [(segment["p_paddr"], segment.data()) for segment in file.iter_segments() if segment["p_type"] == "PT_LOAD"]
    except Exception as error:  # pyelftools has no common class for what it cannot read
        raise RvlookError("cannot read '%s': %s" % (path, reason_of(error))) from None


def measurement(record: Sequence[int], region: bytes) -> str:
    """Returns SHA-256 over base, size, window base, window size and entry, and then the region, in hexadecimal digits."""
    return hashlib.sha256(struct.pack("<5I", *record) + region).hexdigest()


def is_valid(base: int, size: int) -> bool:
    """Returns whether the size of a region or window is a power of two that `create` accepts, and its base a multiple of it, not below the RAM."""
    return size >= LEAST_SIZE and size & (size - 1) == 0 and base % size == 0 and base >= RAM_BASE


def refusal_of(base: int, size: int, window: int, window_size: int, entry: int) -> str | None:
    """Returns the status with which `create` always refuses these arguments, or None."""
    if not is_valid(base, size):
        return "BadRegion"
    if window_size and not is_valid(window, window_size):
        return "BadWindow"
    if base < MONITOR_END or window_size and (window < MONITOR_END or window < base + size and base < window + window_size):
        return "Overlap"
    return None if entry % 4 == 0 and base <= entry < base + size else "BadEntry"


def perform(arguments: Namespace) -> None:
    """Prints the digest; raises RvlookError if `create` refuses these arguments."""
    path, printer = arguments.file, Printer(arguments.json)
    numbers = (arguments.base, arguments.size, arguments.window, arguments.window_size, arguments.entry)
    data = read_file(path)
    symbols = symbols_of(arguments.symbols or path, read_file(arguments.symbols) if arguments.symbols else data)
    values = [symbols.address(text) for text in numbers]
    if None in values:
        raise RvlookError("'%s' is neither a hexadecimal number nor a symbol" % numbers[values.index(None)])
    base, size, window, window_size, entry = (value for value in values if value is not None)
    refusal = refusal_of(base, size, window, window_size, entry)
    if refusal:
        raise RvlookError("create rejects these arguments: %s" % refusal)
    record = (base, size, window if window_size else 0, window_size, entry)
    digest = measurement(record, region_bytes(path, data, base, size))
    shown = "window %08x %s" % (window, names.size_text(window_size)) if window_size else "no window"
    printer.show("region %08x %s  %s  entry %08x\nmeasurement %s" % (base, names.size_text(size), shown, entry, digest), "measure",
                 base=hex8(base), size=size, window=hex8(record[2]), window_size=window_size, entry=hex8(entry), measurement=digest)
