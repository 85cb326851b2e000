"""Mutated ELF files: each reader ends in time, raises only RvlookError, and returns only printable names."""
import struct

from support.fuzzing import at_most, fuzz
from support.hostile import FEW, HELLO, check, run, sections_of
from hypothesis import strategies as st

SECTIONS = sections_of(HELLO)
NAMES = sorted(it for it in SECTIONS if it.startswith(".debug") or it.endswith("tab"))
NUMBERS = [0, 1, 2, 4, 11, 0x7F, 0x80, 0xFF, 0x100, 0x7FFF, 0xFFFF, 0x10000, 0x7FFFFFFF, 0x80000000, 0xFFFFFFF0, 0xFFFFFFFE, 0xFFFFFFFF]
POISON = [b"\x1b[2J", b"a\nstep 5", b"\r\nend_of_record", b"\xff\xfe\x80", b"\0", b"__proto__", b"\xff" * 8 + b"\x7f"]

new_bytes = st.one_of(st.sampled_from(NUMBERS).map(lambda it: struct.pack("<I", it)), st.binary(min_size=1, max_size=4), st.sampled_from(POISON))
in_section = st.builds(lambda name, at: SECTIONS[name][0] + at % max(1, SECTIONS[name][1]), st.sampled_from(NAMES), st.integers(0, 400))
in_header = st.builds(lambda name, at: SECTIONS[name][2] + 4 * at, st.sampled_from(sorted(SECTIONS)), st.integers(0, 9))
anywhere = st.integers(0, len(HELLO) - 1)
edits = st.lists(st.tuples(st.one_of(in_section, in_section, in_header, anywhere), new_bytes), min_size=1, max_size=4)
files = st.builds(lambda edits, end: mutant(edits)[:end], edits, st.one_of(st.none(), st.none(), st.none(), anywhere))


def mutant(edits):
    """The file with some bytes replaced."""
    data = bytearray(HELLO)
    for at, new in edits:
        data[at:at + len(new)] = new
    return bytes(data[:len(HELLO)])


def read(path, data):
    """Reads everything that rvlook reads of an ELF file."""
    from rvlook.errors import RvlookError
    from rvlook.page.sources import files_of
    from rvlook.image.symbols import symbols_of
    path.write_bytes(data)
    try:
        symbols = symbols_of("program.elf", data)
        addresses = range(0x80000000, 0x80000060, 4)
        texts = [it for at in addresses for it in (symbols.name(at), symbols.line(at), symbols.function(at)) if it]
        texts += [it for symbol in symbols.ordered[:9] for it in symbols.sources_in(symbol.address, symbol.address + symbols.size_of(symbol)) if it]
        return texts + list(files_of(path))
    except RvlookError:
        return []


def test_readers_of_mutated_elf_files(tmp_path, capsys, fuzz_seconds):
    def holds(data):
        with at_most(10):
            texts = read(tmp_path / "program.elf", data)
        assert all(it.isprintable() for it in texts), texts
        errors = capsys.readouterr().err
        assert all(it.startswith("rvlook: ") and it.isprintable() for it in errors.split("\n")[:-1]), errors

    fuzz(files, holds, 120, fuzz_seconds)


def test_subcommands_over_mutated_elf_files(bench, tmp_path, fuzz_seconds):
    path = tmp_path / "program.elf"

    def holds(example):
        words, data = example
        path.write_bytes(data)
        check(run(bench, *words, path, *FEW))

    words = st.sampled_from([["trace"], ["trace", "--json"], ["touch"], ["touch", "--lcov"], ["page"], ["map"]])
    fuzz(st.tuples(words, files), holds, 4, fuzz_seconds)
