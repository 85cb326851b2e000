"""Makes ELF files with debugging information that a compiler does not write: the sections are appended to an image that runs."""
import struct
import zlib

ADDRESS, STRING, REFERENCE, OFFSET, EXPRESSION = 0x01, 0x08, 0x13, 0x17, 0x18  # forms: DW_FORM_addr, string, ref4, sec_offset, exprloc
BYTE, WORD, UNSIGNED = 0x0B, 0x06, 0x0F  # DW_FORM_data1, data4, udata
COMPRESSED = 0x800  # SHF_COMPRESSED
UNIT, SUBPROGRAM, VARIABLE, STRUCTURE, MEMBER, BLOCK, BASE, ARRAY, RANGE = 0x11, 0x2E, 0x34, 0x13, 0x0D, 0x0B, 0x24, 0x01, 0x21  # tags
NAME, SIZE, LINES, LOW, HIGH, TYPE, LOCATION, FRAME, AT, RANGES, CONSTANT, COUNT = (
    0x03, 0x0B, 0x10, 0x11, 0x12, 0x49, 0x02, 0x40, 0x38, 0x55, 0x1C, 0x37)  # attributes
FIRST = 0x80010000  # the first address of the host
SP = b"\x01\x52"  # an expression of one byte: DW_OP_reg2
LINE_HEADER = struct.pack("<BBBbBB", 1, 1, 1, -5, 14, 13) + bytes([0, 1, 1, 1, 1, 0, 0, 0, 1, 0, 0, 1]) + b"\0" + b"a.c\0\0\0\0" + b"\0"
COPY = b"\x20"  # a special opcode: a row


def uleb(number):
    """Encodes an unsigned LEB128 number."""
    data = b""
    while True:
        number, byte = number >> 7, number & 0x7F
        data += bytes([byte | (0x80 if number else 0)])
        if not number:
            return data


def abbreviation(code, tag, has_children, *attributes):
    """Encodes an abbreviation; an attribute is its name and its form."""
    words = [it for pair in (*attributes, (0, 0)) for it in pair]
    return uleb(code) + uleb(tag) + bytes([has_children]) + b"".join(map(uleb, words))


def unit(entries, at=0, version=4):
    """Encodes the entries of a compilation unit, whose abbreviations begin at an offset."""
    head = struct.pack("<HIB", version, at, 4) if version < 5 else struct.pack("<HBBI", version, 1, 4, at)
    return struct.pack("<I", len(head) + len(entries)) + head + entries


def line_table(opcodes, length=None):
    """Encodes a line table whose program begins at FIRST; `length` is that of the rest, if it goes on behind the opcodes."""
    body = struct.pack("<HI", 4, len(LINE_HEADER)) + LINE_HEADER + b"\0\5\2" + struct.pack("<I", FIRST) + opcodes
    return struct.pack("<I", len(body) if length is None else length) + body


def with_sections(image, sections, compressed=()):
    """Returns an ELF32 image with these sections, by name, in place of its own; those in `compressed` are compressed."""
    data, names, headers = bytearray(image), b"\0", [bytes(40)]
    for name, content in {**sections, ".shstrtab": None}.items():
        at, flags, kind, link, size = len(names), 0, 1, 0, 0
        names += name.encode("latin-1") + b"\0"
        content = names if content is None else content
        if name in compressed:
            content, flags = struct.pack("<3I", 1, len(content), 1) + zlib.compress(content, 9), COMPRESSED
        if name in (".strtab", ".shstrtab"):
            kind = 3
        if name == ".symtab":
            kind, link, size = 2, list(sections).index(".strtab") + 1, 16
        data += bytes(-len(data) % 4)
        headers.append(struct.pack("<10I", at, kind, flags, 0, len(data), len(content), link, 0, 4, size))
        data += content
    data += bytes(-len(data) % 4)
    struct.pack_into("<I", data, 0x20, len(data))
    struct.pack_into("<HHH", data, 0x2E, 40, len(headers), len(headers) - 1)
    return bytes(data) + b"".join(headers)


def debugged(image, entries, *abbreviations, lines=line_table(4 * COPY), version=4, compressed=(), **more):
    """Returns the image with one compilation unit from FIRST on, with these entries below it, and other sections."""
    top = abbreviation(1, UNIT, 1, (LINES, OFFSET), (LOW, ADDRESS), (HIGH, WORD))
    info = unit(b"\1" + struct.pack("<3I", 0, FIRST, 0x20000) + entries + b"\0", version=version)
    sections = {".debug_abbrev": top + b"".join(abbreviations) + b"\0", ".debug_info": info, ".debug_line": lines, **more}
    return with_sections(image, sections, compressed)


def first_entry(version=4):
    """Returns the offset in the unit of the first entry of `debugged`."""
    return (11 if version < 5 else 12) + 13


def recursive(image, version=4, count=8):
    """A structure with this many members of its own type, and a variable of it."""
    at = first_entry(version)
    members = b"".join(b"\4" + b"m\0" + struct.pack("<I", at) + b"\0" for _ in range(count))
    variable = b"\2v\0" + struct.pack("<I", at) + b"\5\3" + struct.pack("<I", FIRST + 0x100)
    return debugged(image, b"\3" + struct.pack("<I", 4) + members + b"\0" + variable,
                    abbreviation(2, VARIABLE, 0, (NAME, STRING), (TYPE, REFERENCE), (LOCATION, EXPRESSION)),
                    abbreviation(3, STRUCTURE, 1, (SIZE, WORD)), abbreviation(4, MEMBER, 0, (NAME, STRING), (TYPE, REFERENCE), (AT, BYTE)),
                    version=version)


def of_number(image, attribute, form, data):
    """A function from FIRST on with a variable of four bytes. One attribute of the variable is this encoded number."""
    at = first_entry()
    entries = b"\2int\0\4" + b"\5f\0" + struct.pack("<II", FIRST, 0x1000) + SP + b"\6v\0" + struct.pack("<I", at) + data + b"\0"
    return debugged(image, entries, abbreviation(2, BASE, 0, (NAME, STRING), (SIZE, BYTE)),
                    abbreviation(5, SUBPROGRAM, 1, (NAME, STRING), (LOW, ADDRESS), (HIGH, WORD), (FRAME, EXPRESSION)),
                    abbreviation(6, VARIABLE, 0, (NAME, STRING), (TYPE, REFERENCE), (attribute, form)))


def many_lines(image, rows):
    """A compressed line table of this many rows."""
    return debugged(image, b"", lines=line_table(rows * COPY), compressed=(".debug_line",))


def shared_lines(image, count, rows):
    """This many line tables. Each goes on to the end of the section, where the rows are."""
    size = len(line_table(b""))
    end = count * size + rows
    lines = b"".join(line_table(b"", end - number * size - 4) for number in range(count)) + rows * COPY
    top = abbreviation(1, UNIT, 0, (LINES, OFFSET))
    info = b"".join(unit(b"\1" + struct.pack("<I", number * size)) for number in range(count))
    return with_sections(image, {".debug_abbrev": top + b"\0", ".debug_info": info, ".debug_line": lines}, (".debug_line",))


def shared_ranges(image, units, ranges):
    """This many units that all have the same list of ranges."""
    top = abbreviation(1, UNIT, 0, (LINES, OFFSET), (RANGES, OFFSET))
    info = b"".join(unit(b"\1" + struct.pack("<II", number, 0)) for number in range(units))
    return with_sections(image, {".debug_abbrev": top + b"\0", ".debug_info": info, ".debug_line": line_table(b""),
                                 ".debug_ranges": struct.pack("<II", FIRST, FIRST + 8) * ranges + bytes(8)}, (".debug_ranges",))


def many_entries(image, count):
    """A unit of this many entries of one byte."""
    return debugged(image, count * b"\2", abbreviation(2, VARIABLE, 0), compressed=(".debug_info",))


def deep(image, depth):
    """A function with this many nested blocks."""
    entries = b"\5f\0" + struct.pack("<II", FIRST, 0x1000) + SP + depth * b"\6" + (depth + 1) * b"\0"
    return debugged(image, entries, abbreviation(5, SUBPROGRAM, 1, (NAME, STRING), (LOW, ADDRESS), (HIGH, WORD), (FRAME, EXPRESSION)),
                    abbreviation(6, BLOCK, 1), compressed=(".debug_info",))


def many_units(image, count):
    """This many units without entries."""
    return with_sections(image, {".debug_abbrev": abbreviation(1, UNIT, 0) + b"\0", ".debug_info": unit(b"\1") * count,
                                 ".debug_line": line_table(b"")}, (".debug_info",))


def many_symbols(image, count):
    """A symbol table of this many symbols of one name."""
    entry = struct.pack("<IIIBBH", 1, FIRST, 4, 0x12, 0, 0xFFF1)
    return with_sections(image, {".strtab": b"\0a\0", ".symtab": entry * count})


def wide_abbreviation(image, attributes, entries):
    """An abbreviation of this many attributes that take no byte, and as many entries with it."""
    flags = [(0x2000 + number, 0x19) for number in range(attributes)]  # DW_FORM_flag_present
    return debugged(image, entries * b"\2", abbreviation(2, VARIABLE, 0, *flags), compressed=(".debug_abbrev",))


def long_string(image, length, entries):
    """Entries that all have the same long name in .debug_str."""
    return debugged(image, entries * (b"\2" + bytes(4)), abbreviation(2, VARIABLE, 0, (NAME, 0x0E)), compressed=(".debug_str",),
                    **{".debug_str": length * b"n" + b"\0"})
