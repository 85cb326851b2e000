"""Instructions that the machine does not have: build and rvlook warn of them by function, and run reports their kind."""
import re
import struct
import subprocess

import pytest
from hypothesis import given, settings
from hypothesis import strategies as st

from conftest import BUILD, EXAMPLES

SOURCE = """
int lock;
__attribute__((noinline)) int take(void) { return __atomic_exchange_n(&lock, 1, __ATOMIC_ACQUIRE); }
__attribute__((noinline)) void flush(void) { asm volatile(".word 0x100f"); }
void main(void) { flush(); while (take()) ; }
"""


def extension(word):
    from rvlook.image.detect import extension_of
    return extension_of(word)


def texts_of(data):
    from rvlook.image.detect import lacking_texts
    from rvlook.protocol.inputs import Image
    return lacking_texts(Image("a.elf", b"", data))


@pytest.mark.parametrize("word, kind", [
    (0x0CB5262F, "atomic instruction"), (0x1005252F, "atomic instruction"), (0x0000100F, "fence.i instruction"),
    (0x00052507, "floating-point instruction"), (0x02A5F553, "floating-point instruction"), (0x0FF0000F, None), (0x00000013, None),
    (0x00000073, None)])
def test_kind_of_a_word(word, kind):
    assert extension(word) == kind


def elf(code, functions, data_after=b""):
    """Returns an ELF32 file whose segment at 80000000 has this code, with functions of (name, offset, size)."""
    names = b"\0" + b"".join(name.encode() + b"\0" for name, _, _ in functions)
    at = {name: names.index(name.encode() + b"\0") for name, _, _ in functions}
    symbols = bytes(16) + b"".join(struct.pack("<IIIBBH", at[name], 0x80000000 + offset, size, 0x12, 0, 1) for name, offset, size in functions)
    body = code + data_after
    start, tables = 84, 84 + len(body)
    sections = tables + len(symbols) + len(names)
    header = b"\x7fELF\x01\x01\x01" + bytes(9) + struct.pack("<HHIIIIIHHHHHH", 2, 243, 1, 0x80000000, 52, sections, 0, 52, 32, 1, 40, 3, 0)
    segment = struct.pack("<8I", 1, start, 0x80000000, 0x80000000, len(body), len(body), 5, 4)
    headers = bytes(40) + struct.pack("<10I", 0, 2, 0, 0, tables, len(symbols), 2, 1, 4, 16) + struct.pack(
        "<10I", 0, 3, 0, 0, tables + len(symbols), len(names), 0, 0, 1, 0)
    return header + segment + body + symbols + names + headers


def words(*values):
    return struct.pack("<%dI" % len(values), *values)


def test_functions_are_named_and_data_is_left_out():
    nop, amo, fence = 0x13, 0x0CB5262F, 0x100F
    found = texts_of(elf(words(nop, amo, nop, fence, nop), [("take", 0, 8), ("flush", 12, 4), ("other", 16, 4)], words(amo)))
    assert found == ["a.elf has atomic instructions in take; rvbench does not have them (docs/FIRMWARE.md)",
                     "a.elf has fence.i instructions in flush; rvbench does not have them (docs/FIRMWARE.md)"]


def test_many_functions_are_counted():
    found = texts_of(elf(words(*[0x0CB5262F] * 5), [("f%d" % it, 4 * it, 4) for it in range(5)]))
    assert found == ["a.elf has atomic instructions in f0, f1, f2 and 2 more functions; rvbench does not have them (docs/FIRMWARE.md)"]


@settings(max_examples=200, deadline=None, database=None)
@given(st.integers(0, 200), st.binary(min_size=1, max_size=8))
def test_damaged_file_is_no_fault(at, change):
    data = bytearray(elf(words(0x0CB5262F), [("take", 0, 4)]))
    data[at:at + len(change)] = change
    assert all(it.isprintable() for it in texts_of(bytes(data)))


def test_examples_have_none():
    for folder in ("enclaves/adds", "enclaves/hmac", "monitors/own_monitor"):
        assert texts_of(bytes.fromhex((EXAMPLES / folder / "image").read_text())) == []


def test_build_and_run_name_the_functions(rvlook, built, tmp_path):
    folder = tmp_path / "locks"
    folder.mkdir()
    (folder / "host.c").write_text(SOURCE)
    program = tmp_path / "locks.elf"
    environment = {"PATH": "/usr/bin:/bin", "CFLAGS": "-march=rv32ima -Og"}
    done = subprocess.run([BUILD, folder, program], env=environment, capture_output=True, text=True, check=False)
    assert done.returncode == 0, done.stderr
    assert re.search(r"^build: warning: \S+ has atomic instructions in take", done.stderr, re.M), done.stderr
    assert re.search(r"^build: warning: \S+ has fence\.i instructions in flush", done.stderr, re.M)
    ran = rvlook("run", "--steps", "200", program)
    assert ran.returncode in (1, 3)
    assert re.search(r"^rvlook: warning: \S+ has fence\.i instructions in flush", ran.stderr, re.M)
    kind = r"illegal instruction \(value 0000100f, fence\.i instruction, see docs/FIRMWARE\.md\)"
    assert re.search(kind + r" in S of host at step \d+, \w+  flush", ran.stderr)
