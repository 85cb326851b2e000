"""Inputs that are too long to store as files: they are processed within seconds and in little memory."""
import os
import random
import resource
import subprocess

import pytest

from models.monitor_bench import Fault, lines_of, parsed
from support.limits import HANG, processor_time

BYTES = int(os.environ.get("HOSTILE_BYTES", 8 << 20))  # of each long input
MOST_IMAGE = 33554432
MEBIBYTE = 1 << 20
SCRIPT = b"\n--\nmem 800fffff 1\n"
REFUSED_LINES = ("step 1000001", "step 00000001", "reg 32", "reg", "regs 1", "mem 80000000 65", "poke 80000000 100", "csr 0x300",
                 "access M r 80000000 3", "timer maybe", "fly", "\0", "x" * 121)
BLOCKS = {"garbage": random.Random(1).randbytes(MEBIBYTE - 1) + b"\n", "zeros": bytes(MEBIBYTE), "digits": (b"13000000" * 15 + b"\n") * 8000,
          "refused": "".join(line + "\n" for line in REFUSED_LINES).encode() * 5000}


def stream(kind, length):
    """Returns an input of a kind with at least this many bytes."""
    return BLOCKS[kind] * -(-length // len(BLOCKS[kind]))


def replies(kind, length):
    """Returns the expected replies to such a script."""
    if kind == "zeros":
        return b"error line\n"
    found = []
    for line in lines_of(BLOCKS[kind].decode("latin-1")):
        try:
            assert not parsed(line), "a command: " + line
        except Fault as fault:
            found.append(fault.args[0] + "\n")
    return "".join(found).encode() * -(-length // len(BLOCKS[kind]))


def run(program, words, data, most=None):
    """Runs the program; returns the output and the status. `most` limits its address space, in bytes."""
    limit = (lambda: resource.setrlimit(resource.RLIMIT_AS, (most, most))) if most else None
    done = subprocess.run([program, *words.split()], input=data, stdout=subprocess.PIPE, timeout=HANG, check=False, preexec_fn=limit)
    return done.stdout, done.returncode


def image(count):
    """Returns the text of an image of bytes 11, and a script that shows the last byte of RAM."""
    whole, rest = divmod(count - 1, 60)
    return (b"11" * 60 + b"\n") * whole + b"11" * (rest + 1) + SCRIPT


def elf_image(size, count):
    """Returns the text of an ELF file with one segment at the first byte of RAM and `count` bytes after the headers."""
    digits = int(size).to_bytes(4, "little").hex().encode()
    header = b"7f454c460101010000000000000000000200f3000100000000000080340000000000000000000000340020000100280000000000\n"
    return header + b"01000000540000000000008000000080" + digits + digits + b"0500000004000000\n" + image(count)


@pytest.mark.parametrize("words", ["run", "run --monitor", "twin", "dis"])
def test_random_bytes_are_no_image(bench, words):
    assert run(bench, words, stream("garbage", BYTES), 16 * MEBIBYTE) == (b"rvbench: hex\n", 1)


@pytest.mark.parametrize("kind", ["garbage", "zeros"])
def test_long_bytes_are_too_long_for_the_assembler(bench, kind):
    assert run(bench, "asm", stream(kind, BYTES)) == (b"rvbench: too long\n", 1)


@pytest.mark.parametrize("kind", ["garbage", "zeros", "digits"])
def test_each_line_of_a_hostile_script_has_a_reply(bench, kind):
    script, wanted = b"--\n" + stream(kind, BYTES), replies(kind, BYTES)
    assert run(bench, "run", script, 16 * MEBIBYTE) == (wanted, 0)
    assert run(bench, "twin", script, 16 * MEBIBYTE) == (wanted + b"twin no slot\n", 0)


def test_a_million_refused_lines_have_replies(bench):
    assert run(bench, "run", b"--\n" + stream("refused", 28000000), 16 * MEBIBYTE) == (replies("refused", 28000000), 0)


def test_a_line_of_a_million_letters_is_one_malformed_line(bench):
    assert run(bench, "run", b"--\n" + b"a" * 1000000 + b"\nreg 0\n") == (b"error line\nx0=00000000\n", 0)


def test_the_program_continues_after_refused_lines(bench):
    lines = ["step 1000001", "step 00000001", "reg 32", "reg", "regs 1", "mem 80000000 65", "poke 80000000 100", "csr 0x300",
             "access M r 80000000 3", "timer maybe", "mem 800fffff 2", "re\0g 0", "x" * 1000000, "\t", "# x", "reg 1", "step 1", "reg 1", ""]
    wanted = "error operand\n" * 10 + "error outside\nerror line\nerror line\nx1=00000000\n" + \
        "ran 1 pc=80000004 mode=M world=bare why=done trap=-\nx1=ffffffff\n"
    assert run(bench, "run", b"9300f0ff\n--\n" + "\n".join(lines).encode(), 16 * MEBIBYTE) == (wanted.encode(), 0)


def test_a_long_script_takes_little_time_and_memory(bench):
    script = b"6f000000\n--\n" + b"step 1\n" * 200000
    wanted = b"ran 1 pc=80000000 mode=M world=bare why=done trap=-\n" * 200000
    assert run(bench, "run", script, 16 * MEBIBYTE) == (wanted, 0)
    before = processor_time()
    run(bench, "run", script)
    assert processor_time() - before < 10  # seconds; work that grows with the square of the lines takes minutes


@pytest.mark.parametrize("words, data, wanted", [
    ("run", image(MEBIBYTE), (b"800fffff: 11\n", 0)),
    ("run", image(MEBIBYTE + 1), (b"rvbench: image 9\n", 1)),
    ("run --ram 65536", image(65536), (b"error outside\n", 0)),
    ("run --ram 65536", image(65537), (b"rvbench: image 9\n", 1)),
    ("run --ram 65535", image(65537), (b"rvbench: ram 1\n", 1)),
], ids=["fills_the_ram", "a_byte_more", "fills_a_small_ram", "a_byte_more_than_a_small_ram", "a_ram_of_no_page"])
def test_an_image_of_the_size_of_the_ram(bench, words, data, wanted):
    assert run(bench, words, data) == wanted


def test_an_image_of_the_most_bytes_and_of_one_more(bench):
    assert run(bench, "run", image(MOST_IMAGE)) == (b"rvbench: image 9\n", 1)
    assert run(bench, "run", image(MOST_IMAGE + 1)) == (b"rvbench: too long\n", 1)


@pytest.mark.parametrize("size, count, wanted", [
    (0x100000, 0x100000, (b"800fffff: 11\n", 0)), (0x100000, MOST_IMAGE - 84, (b"800fffff: 11\n", 0)),
    (0x100001, 0x100001, (b"rvbench: image 9\n", 1)), (0x100000, 0x0FFFFF, (b"rvbench: image 7\n", 1)),
    (0x100000, MOST_IMAGE - 83, (b"rvbench: too long\n", 1)),
], ids=["fills_the_ram", "the_most_bytes", "a_byte_more_than_the_ram", "a_byte_short", "a_byte_more_than_the_most"])
def test_an_elf_file_of_the_size_of_the_ram(bench, size, count, wanted):
    assert run(bench, "run", elf_image(size, count)) == wanted
