"""A damaged ELF file causes one line, or a run without the parts that cannot be read."""
import struct
import zlib

import pytest
from support.hostile import FEW, HELLO, check, named, patched, run, sections_of

SECTIONS = sections_of(HELLO)
AT_TABLE, AT_ENTRY_SIZE, AT_COUNT = 32, 46, 48  # in the header: where the section headers are, the size of one, and how many
SIBLING = b"\x01\x13"  # DW_AT_sibling, DW_FORM_ref4
SIZE_IN_HEADER = 20


def siblings():
    """The offsets in the file of each DW_AT_sibling, with the offset of its entry in the unit."""
    import io
    from elftools.elf.elffile import ELFFile
    dwarf = ELFFile(io.BytesIO(HELLO)).get_dwarf_info()
    base = SECTIONS[".debug_info"][0]
    for unit in dwarf.iter_CUs():
        for entry in unit.iter_DIEs():
            found = entry.attributes.get("DW_AT_sibling")
            if found:
                yield base + found.offset, entry.offset - unit.cu_offset


def with_siblings_to_themselves():
    data = HELLO
    for at, entry in siblings():
        data = patched(at, struct.pack("<I", entry), data)
    assert data != HELLO
    return data


def section(name, at, word):
    """The file with another word in a section's header."""
    return patched(SECTIONS[name][2] + at, struct.pack("<I", word))


def with_large_symbol():
    """Each symbol is as large as all memory."""
    data, (first, size, _) = HELLO, SECTIONS[".symtab"]
    for at in range(first, first + size, 16):
        data = patched(at + 8, b"\xff\xff\xff\x7f", data)
    return data


def with_compressed_section():
    """A compressed section that gives 1 GiB."""
    bomb = struct.pack("<3I", 1, 1 << 30, 1) + zlib.compress(bytes(1 << 24) * 16, 9)
    header = SECTIONS[".debug_str"][2]
    data = patched(header + 8, struct.pack("<I", 0x800), HELLO)
    return patched(header + 16, struct.pack("<II", len(data), len(bomb)), data) + bomb


DAMAGED = {
    "a sibling that is the entry itself": with_siblings_to_themselves(),
    "a section header of no bytes": patched(AT_ENTRY_SIZE, struct.pack("<HH", 0, 0xFFFF)),
    "as many sections as a word tells, of no bytes": patched(AT_ENTRY_SIZE, struct.pack("<HH", 0, 0)),
    "a table of sections outside the file": patched(AT_TABLE, struct.pack("<I", 0xFFFFFF00)),
    "no name of a section": patched(50, struct.pack("<H", 0xFFFE)),
    "symbols of no bytes": section(".symtab", 36, 0),
    "symbols without end": section(".symtab", SIZE_IN_HEADER, 0xFFFFFFF0),
    "names outside the file": section(".strtab", 16, 0xFFFFFFF0),
    "abbreviations that are none": patched(SECTIONS[".debug_abbrev"][0], b"\xff" * 40),
    "a unit of another version": patched(SECTIONS[".debug_info"][0] + 4, b"\x63\x00"),
    "a unit without end": patched(SECTIONS[".debug_info"][0], b"\xf0\xff\xff\xff"),
    "a unit of no bytes": patched(SECTIONS[".debug_info"][0], bytes(4)),
    "a line table without end": patched(SECTIONS[".debug_line"][0], b"\xf0\xff\xff\xff"),
    "a line range of zero": patched(SECTIONS[".debug_line"][0] + 14, b"\0"),
    "a symbol as large as memory": with_large_symbol(),
    "a compressed section of a gigabyte": with_compressed_section()}
DWARF = ("a sibling that is the entry itself", "a line table without end", "a symbol as large as memory")


@pytest.mark.parametrize("what", DAMAGED)
def test_trace_of_a_damaged_file_is_that_of_the_whole_one(bench, tmp_path, what):
    path = tmp_path / "program.elf"
    path.write_bytes(DAMAGED[what])
    done = run(bench, "trace", path, *FEW)
    check(done)
    assert done.status == 0
    assert b"23 steps: bare halts at 80000008" in done.output


@pytest.mark.parametrize("what", DWARF)
@pytest.mark.parametrize("words", [["touch"], ["touch", "--lcov"], ["page"]], ids=" ".join)
def test_other_readers_of_a_damaged_file_end_in_time(bench, tmp_path, what, words):
    path = tmp_path / "program.elf"
    path.write_bytes(DAMAGED[what])
    check(run(bench, *words, path, *FEW))


def test_each_cut_of_the_file_has_symbols_or_a_reason(tmp_path, capsys):
    from rvlook.errors import RvlookError
    from rvlook.image.symbols import symbols_of, warn_once
    for end in range(4, len(HELLO), 37):
        warn_once.cache_clear()
        try:
            symbols = symbols_of("program.elf", HELLO[:end])
        except RvlookError:
            continue
        symbols.caller(0x80000018)
        assert symbols or capsys.readouterr().err.startswith("rvlook: warning: no ")


def test_reason_is_one_line(bench, tmp_path):
    path = tmp_path / "program.elf"
    path.write_bytes(DAMAGED["symbols of no bytes"])
    done = run(bench, "trace", path, *FEW)
    assert b"program.elf': pyelftools cannot read it (" in done.errors


def test_file_that_is_not_damaged_keeps_its_inlined_call(bench, tmp_path):
    path = tmp_path / "program.elf"
    path.write_bytes(named(source="short.c"))
    output = run(bench, "trace", path, *FEW).output.decode()
    assert "short.c:20, in short.c:15" in output
