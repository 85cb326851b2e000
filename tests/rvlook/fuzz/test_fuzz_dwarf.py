"""Generated debugging information of DWARF 4 and 5: each reader ends in time, raises nothing but RvlookError, and returns only printable names."""
import struct
import types

import pytest
from hypothesis import strategies as st
from support import dwarf_files as files
from support.fuzzing import at_most, fuzz
from support.hostile import check, run

from conftest import EXAMPLES

ADDS = bytes.fromhex((EXAMPLES / "enclaves" / "adds" / "image").read_text())
NUMBERS = [0, 1, 2, 11, 24, 25, 31, 0x7F, 0x80, 0xFF, 0x1000, 0xFFFF, 0x7FFFFFFF, 0x80010000, 0x80010020, 0x80020000, 0xFFFFFFF0, 0xFFFFFFFF]
TAGS = [0x01, 0x05, 0x0B, 0x0D, 0x0F, 0x11, 0x13, 0x16, 0x17, 0x1D, 0x21, 0x24, 0x26, 0x2E, 0x34, 0x35, 0x41, 0x4106]
NAMES = [0x01, 0x02, 0x03, 0x0B, 0x10, 0x11, 0x12, 0x1B, 0x1C, 0x2F, 0x31, 0x37, 0x38, 0x40, 0x47, 0x49, 0x55, 0x58, 0x59, 0x72, 0x73, 0x74, 0x7F]
FORMS = list(range(0x01, 0x2D)) + [0x1F01, 0x1F20]
STRINGS = [b"", b"a", b"\x1b[2J", b"a\nb", b"\xff\xfe", b"x" * 3000]
LONG = [b"\xff" * 3000 + b"\1", b"\x80" * 20 + b"\0", b"\x7f", b"\0", b"\xff\xff\xff\xff\x0f"]
FIXED = {0x01: 4, 0x05: 2, 0x06: 4, 0x07: 8, 0x0B: 1, 0x0C: 1, 0x0E: 4, 0x10: 4, 0x11: 1, 0x12: 2, 0x13: 4, 0x14: 8, 0x17: 4, 0x19: 0, 0x1D: 4,
         0x1E: 16, 0x1F: 4, 0x20: 8, 0x21: 0, 0x25: 1, 0x26: 2, 0x27: 3, 0x28: 4, 0x29: 1, 0x2A: 2, 0x2B: 3, 0x2C: 4}
OPERATIONS = [b"\3" + struct.pack("<I", 0x80010100), b"\x91\x70", b"\x91" + LONG[0], b"\x52", b"\x72\0", b"\x11\x7f", b"\x30", b"\x9f", b"\xa3", b""]

number = st.sampled_from(NUMBERS)
little = number.map(lambda it: struct.pack("<I", it))
expression = st.lists(st.sampled_from(OPERATIONS), max_size=2).map(b"".join)
leb = st.one_of(st.sampled_from(NUMBERS).map(files.uleb), st.sampled_from(LONG))


def value_of(form):
    """Returns a strategy for the bytes of a value of a form."""
    if form in FIXED:
        return st.one_of(little.map(lambda it: (it * 4)[:FIXED[form]]), st.binary(min_size=FIXED[form], max_size=FIXED[form]))
    if form == 0x08:
        return st.sampled_from(STRINGS).map(lambda it: it + b"\0")
    if form in (0x0A, 0x18, 0x09):
        return expression.map(lambda it: files.uleb(len(it)) + it)
    return leb


attribute = st.tuples(st.sampled_from(NAMES), st.sampled_from(FORMS))
abbreviations = st.lists(st.tuples(st.sampled_from(TAGS), st.integers(0, 1), st.lists(attribute, max_size=6)), min_size=1, max_size=6)


@st.composite
def entries(draw, known):
    """Draws the bytes of entries with these abbreviations, with ends of lists of children between them."""
    parts = []
    for code in draw(st.lists(st.integers(0, len(known)), max_size=12)):
        parts.append(files.uleb(code + 1 if code else 0))
        if code:
            parts += [draw(value_of(form)) for _, form in known[code - 1][2]]
    return b"".join(parts)


@st.composite
def images(draw):
    """Draws an image with a unit of these entries, a line table, lists of ranges and of locations, and strings."""
    version, known = draw(st.sampled_from([4, 5])), draw(abbreviations)
    codes = [files.abbreviation(code, tag, has_children, *attributes) for code, (tag, has_children, attributes) in enumerate(known, 2)]
    lists = st.lists(st.tuples(number, number), max_size=5).map(lambda it: b"".join(struct.pack("<II", *pair) for pair in it))
    opcodes = st.lists(st.sampled_from([files.COPY, b"\1", b"\2\x7f", b"\3\x7f", b"\3" + LONG[0], b"\4\2", b"\5\1", b"\x08", b"\x09\xff\xff", b"\0\1\1",
                                        b"\0\5\2\0\0\1\x80", b"\0\xff\7"]), max_size=12)
    sections = {".debug_ranges": draw(lists), ".debug_rnglists": draw(st.binary(max_size=40)), ".debug_loc": draw(lists),
                ".debug_str": b"\0".join(draw(st.lists(st.sampled_from(STRINGS), max_size=4))), ".debug_line_str": b"a.c\0/b\0",
                ".debug_addr": draw(lists), ".debug_str_offsets": draw(lists)}
    compressed = draw(st.sets(st.sampled_from([".debug_info", ".debug_line", ".debug_abbrev", ".debug_ranges"])))
    return files.debugged(ADDS, draw(entries(known)), *codes, lines=files.line_table(b"".join(draw(opcodes))), version=version,
                          compressed=tuple(compressed), **sections)


def read(path, data):
    """Reads everything that rvlook reads of the debugging information; returns the texts."""
    from rvlook.image.variables import frames_of
    from rvlook.image.symbols import files_of
    from rvlook.image.symbols import symbols_of
    from rvlook.image.variables import variables_of
    path.write_bytes(data)
    symbols, image = symbols_of("program.elf", data), types.SimpleNamespace(name="program.elf", data=data)
    addresses = range(files.FIRST, files.FIRST + 0x60, 4)
    texts = [it for at in addresses for it in (symbols.name(at), symbols.line(at), symbols.function(at)) if it]
    texts += [it for it in symbols.sources_in(files.FIRST, files.FIRST + 0x60) if it]
    found = variables_of(None, image)
    members = [*found.fixed, *(it.member for it in found.locals), *(one for it in found.parameters for one in it.members)]
    frames = frames_of(None, image, list(addresses))
    assert all(abs(it.at) < 1 << 33 and 0 <= it.size < 1 << 33 for it in members) and all(abs(it.where[1]) < 1 << 33 for it in frames)
    return [*texts, *files_of(str(path)), *(it.name for it in members), *(it.name for it in frames)]


def test_readers_of_generated_debugging_information(tmp_path, capsys, fuzz_seconds):
    def holds(data):
        with at_most(20):
            texts = read(tmp_path / "program.elf", data)
        assert all(it.isprintable() for it in texts), texts
        errors = capsys.readouterr().err
        assert all(it.startswith("rvlook: warning: no ") and it.isprintable() for it in errors.split("\n")[:-1]), errors

    fuzz(images(), holds, 60, fuzz_seconds)


def test_subcommands_over_generated_debugging_information(bench, tmp_path, fuzz_seconds):
    path = tmp_path / "program.elf"

    def holds(example):
        words, data = example
        path.write_bytes(data)
        check(run(bench, *words, "--monitor", path, "--steps", "120"))

    words = st.sampled_from([["trace"], ["touch"], ["touch", "--lcov"], ["page"], ["window"], ["map"], ["inputs", "--runs", "2", "--seconds", "5"],
                             ["races", "--outcome", "a.b", "--seconds", "2"]])
    fuzz(st.tuples(words, images()), holds, 6, fuzz_seconds)


def test_body_that_takes_too_much_is_a_failure():
    with pytest.raises(MemoryError), at_most(20):
        bytearray(3 << 30)
    with pytest.raises(TimeoutError), at_most(1):
        while True:
            pass
