"""Detects whether an image is made for the monitor, and which instructions it has of extensions that the machine does not have."""
from __future__ import annotations

import re
import struct
import sys
from array import array
from bisect import bisect_right
from typing import Iterable, Iterator, Mapping, NamedTuple

from rvlook.escapes import name_of
from rvlook.protocol.inputs import Image, ScriptLine, segments_of
from rvlook.protocol.memory_map import MONITOR_END
from rvlook.protocol.symbols import Symbol

AT_FLAGS = 36  # the offset of the flags in the header of an ELF file
COMPRESSED = 1  # EF_RISCV_RVC
KEY_HIGH, KEY_HIGH_MASK = 0x0A455037, 0xFFFFF07F  # lui of any register, 0xa455
KEY_LOW, KEY_LOW_MASK = 0xE4300893, 0xFFF07FFF  # addi a7 of any register, -445
ECALL = 0x00000073  # the encoded instruction
KEY_SET = re.compile(r"\s*setreg\s+(17|x17|a7)\s+(0x)?0?a454e43\s*\Z", re.I)
# offsets in an ELF32 header of the place, and of the size and number, of the section headers; a section header
SECTIONS_AT, SECTIONS, SECTION = 32, 46, struct.Struct("<10I")
# a type of section; an entry of the symbol table; a type of symbol (ELF, Symbol Table)
SYMBOL_TABLE, SYMBOL, FUNCTION = 2, struct.Struct("<IIIBBH"), 2
WORD = 4  # bytes of an instruction
OPCODE, ATOMIC, FENCE = 0x7F, 0x2F, 0x0F  # the bits of the opcode, and two opcodes
FENCE_I, FENCE_I_MASK = 0x100F, 0x707F  # the opcode and funct3 of fence.i, and the bits that they have
FLOATING = (0x07, 0x27, 0x43, 0x47, 0x4B, 0x4F, 0x53)  # the opcodes of floating-point instructions
IS_CANDIDATE = bytes(byte & OPCODE in (ATOMIC, FENCE, *FLOATING) for byte in range(256))  # whether a word may be one of these, by its lowest byte
MOST_SHOWN = 3  # functions in a message
PAGE = "docs/FIRMWARE.md"


def has_compressed(image: Image) -> bool:
    """Returns whether the flags of an ELF file say that it has compressed instructions."""
    return image.is_elf_32 and bool(struct.unpack_from("<I", image.data or b"", AT_FLAGS)[0] & COMPRESSED)


def reason_for_monitor(image: Image, script: Iterable[ScriptLine]) -> str | None:
    """Returns why an image seems to be made for the monitor, or None."""
    if image.is_elf_32:
        first = min((segment.address for segment in image.segments()), default=0)
        return "its first address is %08x" % first if first == MONITOR_END else None
    if has_key(image.data or b"") or any(KEY_SET.match(line.given) for line in script):
        return "it calls the monitor (a7 = 0a454e43)"
    return None


def has_key(data: bytes) -> bool:
    """Returns whether the words of an image set a7 to the monitor's key, and contain an ecall."""
    words = array("I", data[:len(data) // 4 * 4])
    if sys.byteorder == "big":
        words.byteswap()
    has_high = any(word & KEY_HIGH_MASK == KEY_HIGH for word in words)
    return has_high and any(word & KEY_LOW_MASK == KEY_LOW for word in words) and ECALL in words


class Section(NamedTuple):
    """A section of an ELF file (ELF, Section Headers)."""
    kind: int  # the type of the section
    offset: int  # the offset in the file, bytes
    size: int  # bytes
    link: int  # index of the section that it refers to


def extension_of(word: int) -> str | None:
    """Returns the kind of an instruction that belongs to an extension which the machine does not have, else None."""
    if word & OPCODE == ATOMIC:
        return "atomic instruction"
    if word & FENCE_I_MASK == FENCE_I:
        return "fence.i instruction"
    return "floating-point instruction" if word & OPCODE in FLOATING else None


def lacking_in(image: Image) -> Mapping[str, list[str]]:
    """Returns for each kind of `extension_of` the functions that have such instructions. Considers only functions whose symbols have a size."""
    functions_by_kind: dict[str, dict[str, None]] = {}
    data = image.data if image.is_elf_32 and image.data else b""
    words = [word for part in segments_of(data) for word in candidates_in(part.address, data[part.offset:part.offset + part.in_file])] if data else []
    functions = sorted(functions_of(data), key=lambda it: it.address) if words else []
    starts = [function.address for function in functions]
    for address, word in words:
        kind, index = extension_of(word), bisect_right(starts, address) - 1
        if kind and index >= 0 and address < functions[index].address + functions[index].size:
            functions_by_kind.setdefault(kind, {})[functions[index].name] = None
    return {kind: list(names) for kind, names in functions_by_kind.items()}


def candidates_in(first: int, code: bytes) -> Iterator[tuple[int, int]]:
    """Yields the address and the value of each word of a segment whose opcode is that of such an extension, or of fence.i."""
    marks = code[:len(code) // WORD * WORD:WORD].translate(IS_CANDIDATE)
    index = marks.find(1)
    while index >= 0:
        yield first + WORD * index, int.from_bytes(code[WORD * index:WORD * index + WORD], "little")
        index = marks.find(1, index + 1)


def sections_of(data: bytes) -> list[Section]:
    """Returns the sections of an ELF32 file whose headers are in the file."""
    start = struct.unpack_from("<I", data, SECTIONS_AT)[0]
    size, count = struct.unpack_from("<HH", data, SECTIONS)
    headers = [SECTION.unpack_from(data, start + size * index) for index in range(count) if start + size * index + SECTION.size <= len(data)]
    return [Section(kind, offset, size, link) for _, kind, _, _, offset, size, link, *_ in headers]


def functions_of(data: bytes) -> Iterator[Symbol]:
    """Yields the functions of the symbol table of an ELF32 file that have a size."""
    sections = sections_of(data)
    table = next((section for section in sections if section.kind == SYMBOL_TABLE and section.link < len(sections)), None)
    if table is None:
        return
    symbols, names = (data[section.offset:section.offset + section.size] for section in (table, sections[table.link]))
    for name, address, length, info, _, _ in SYMBOL.iter_unpack(symbols[:len(symbols) // SYMBOL.size * SYMBOL.size]):
        if info & 15 == FUNCTION and length:
            yield Symbol(address, length, name_of(names[name:max(name, names.find(b"\0", name))]), is_function=True)


def lacking_texts(image: Image) -> list[str]:
    """Returns a warning for each kind of instruction that the functions of an image have and the machine does not."""
    texts = []
    for kind, names in lacking_in(image).items():
        not_shown = len(names) - MOST_SHOWN
        shown = ", ".join(names[:MOST_SHOWN]) + (" and %d more functions" % not_shown if not_shown > 0 else "")
        texts.append("%s has %ss in %s; rvbench does not have them (%s)" % (image.name, kind, shown, PAGE))
    return texts
