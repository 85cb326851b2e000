"""The assemblers and disassemblers: the program's, GNU's and LLVM's. Each assembles texts to words, and disassembles words to texts in the program's
form; `None` is a word that it does not know.
"""
from __future__ import annotations

import re
import shutil
import subprocess
import tempfile
from pathlib import Path
from typing import Any, Callable, Dict, List, Optional, Sequence

from support.limits import HANG

GNU, MARCH = "riscv64-unknown-elf-", "rv32im_zicsr"
ATTRIBUTE = "rv32i2p1_m2p0_zicsr2p0"
UNKNOWN = re.compile(r"(\.\w+|<unknown>|unimp)\b.*|<unknown>")
CSR_NAME = re.compile(r"(csrr\w+ x\d+, )([a-z]\w*)(,.*)")
NUMBER = re.compile(r"(csrr\w+ x\d+, )(\d+|0x[0-9a-f]+)(,.*)")
JUMP = re.compile(r"((?:jal|b\w+) .*?)(-?(?:0x)?[0-9a-f]+)$")
RELATIVE = re.compile(r"((?:jal|beq|bne|blt|bge|bltu|bgeu) .*, )(-?\d+)$")


class ToolError(Exception):
    """A tool failed, or its output has another form."""


def run(words: Sequence[str], text: Optional[str] = None) -> str:
    """Runs a command and returns its output; raises `ToolError` if it fails."""
    done = subprocess.run([str(it) for it in words], input=text, capture_output=True, text=True, timeout=HANG, check=False)
    if done.returncode:
        raise ToolError("%s: %s" % (words[0], (done.stderr or done.stdout)[:2000]))
    return done.stdout


def words_in(data: bytes) -> List[int]:
    """Returns the words of bytes, little-endian."""
    return [int.from_bytes(data[at:at + 4], "little") for at in range(0, len(data), 4)]


def bytes_of(words: Sequence[int]) -> bytes:
    """Returns the bytes of words, little-endian."""
    return b"".join(word.to_bytes(4, "little") for word in words)


class Program:
    """`rvbench asm` and `rvbench dis`."""

    def __init__(self, program: str):
        self.program = program

    def assemble(self, texts: Sequence[str]) -> List[int]:
        """Returns the words of texts."""
        return words_in(bytes.fromhex(run([self.program, "asm"], "\n".join(texts) + "\n")))

    def disassemble(self, words: Sequence[int]) -> List[Optional[str]]:
        """Returns the texts of words."""
        lines = run([self.program, "dis"], "\n".join(word.to_bytes(4, "little").hex() for word in words) + "\n").splitlines()
        texts = [line.partition(" ")[2] for line in lines]
        return [None if text.startswith(".word") else text for text in texts]


class Gnu:
    """GNU binutils."""

    name = "GNU"
    missing = GNU + "as"

    def assemble(self, texts: Sequence[str]) -> List[int]:
        """Returns the words of texts. A target is written as a distance from the instruction, since a number is an address there."""
        lines = [RELATIVE.sub(lambda it: "%s.%+d" % (it[1], int(it[2])), text) for text in texts]
        with tempfile.TemporaryDirectory() as scratch:
            made, linked, raw = (Path(scratch) / it for it in ("a.o", "a.elf", "a.bin"))
            run([GNU + "as", "-march=" + MARCH, "-mabi=ilp32", "-o", made, "-"], ".option norelax\n" + "\n".join(lines) + "\n")
            run([GNU + "ld", "-m", "elf32lriscv", "--no-relax", "-e", "0", "-Ttext", "0x80000000", "-o", linked, made])
            run([GNU + "objcopy", "-O", "binary", "-j", ".text", linked, raw])
            return words_in(raw.read_bytes())

    def disassemble(self, words: Sequence[int]) -> List[Optional[str]]:
        """Returns the texts of words."""
        with tempfile.TemporaryDirectory() as scratch:
            text = run([GNU + "objdump", "-d", "-z", "-M", "no-aliases,numeric", object_of(Path(scratch), words)])
        return read_listing(text, len(words), self.assemble)


class Llvm:
    """llvm-mc and llvm-objdump."""

    name = "LLVM"
    missing = "llvm-mc"

    def assemble(self, texts: Sequence[str]) -> List[int]:
        """Returns the words of texts."""
        text = run(["llvm-mc", "-triple=riscv32", "-mattr=+m", "--show-encoding"], "\n".join(texts) + "\n")
        return [int(d + c + b + a, 16) for a, b, c, d in re.findall(r"# encoding: \[0x(..),0x(..),0x(..),0x(..)\]", text)]

    def disassemble(self, words: Sequence[int]) -> List[Optional[str]]:
        """Returns the texts of words."""
        with tempfile.TemporaryDirectory() as scratch:
            text = run(["llvm-objdump", "-d", "-z", "--mattr=+m", "-M", "no-aliases,numeric", object_of(Path(scratch), words)])
        return read_listing(text, len(words), self.assemble)


def object_of(folder: Path, words: Sequence[int]) -> Path:
    """Makes an object file for RV32IM with Zicsr whose code is these words."""
    made, raw = folder / "words.o", folder / "words.bin"
    run([GNU + "as", "-march=" + MARCH, "-mabi=ilp32", "-o", made, "-"], '.attribute arch, "%s"\n.text\nnop\n' % ATTRIBUTE)
    raw.write_bytes(bytes_of(words))
    run([GNU + "objcopy", "--update-section", ".text=%s" % raw, made])
    return made


def read_listing(text: str, count: int, assemble: Callable[[Sequence[str]], List[int]]) -> List[Optional[str]]:
    """Returns the texts of a listing of objdump, in the program's form."""
    found: Dict[int, Optional[str]] = {}
    for line in text.splitlines():
        parts = re.match(r" *([0-9a-f]+):\s+(?:[0-9a-f]{8}|(?:[0-9a-f]{2} ){4})\s*(.*)", line)
        if parts:
            found[int(parts[1], 16) // 4] = plain(parts[2], int(parts[1], 16))
    if sorted(found) != list(range(count)):
        raise ToolError("the listing has %d of %d words" % (len(found), count))
    numbers = csr_numbers([it for it in found.values() if it], assemble)
    return [with_number(found[at], numbers) for at in range(count)]


def plain(text: str, address: int) -> Optional[str]:
    """Returns an instruction in the program's form. A control and status register keeps its name."""
    text = re.sub(r"\s*(<[^u].*|#.*)$", "", text.strip())
    name, _, operands = text.replace("\t", " ").partition(" ")
    if UNKNOWN.fullmatch(text) or not name:
        return None
    text = (name + " " + ", ".join(it.strip() for it in operands.split(","))).strip()
    jump = JUMP.fullmatch(text) if name in ("jal", "beq", "bne", "blt", "bge", "bltu", "bgeu") else None
    if jump:
        distance = int(jump[2], 16) - address + 0x80000000 & 0xFFFFFFFF
        return jump[1] + str(distance - 0x80000000)
    rest, _, number = text.rpartition(" ")
    if name in ("lui", "auipc"):
        return "%s 0x%x" % (rest, int(number, 0))
    if name in ("slli", "srli", "srai"):
        return "%s %d" % (rest, int(number, 0))
    return re.sub(r"\bunknown\b", "0", text) if name == "fence" else text


def csr_numbers(texts: Sequence[str], assemble: Callable[[Sequence[str]], List[int]]) -> Dict[str, int]:
    """Returns the numbers of the names of control and status registers in some texts, by the assembler of the same tool."""
    names = sorted({match[2] for match in map(CSR_NAME.fullmatch, texts) if match})
    words = assemble(["csrrw x0, %s, x0" % name for name in names]) if names else []
    return {name: word >> 20 for name, word in zip(names, words)}


def with_number(text: Optional[str], numbers: Dict[str, int]) -> Optional[str]:
    """Returns a text with the number of a control and status register in the program's form."""
    match = CSR_NAME.fullmatch(text) if text else None
    if match:
        return "%s0x%03x%s" % (match[1], numbers[match[2]], match[3])
    match = NUMBER.fullmatch(text) if text else None
    return "%s0x%03x%s" % (match[1], int(match[2], 0), match[3]) if match else text


def is_installed(tool: Any) -> bool:
    """Returns whether an assembler and GNU's, which makes the object files, are on the PATH."""
    return all(shutil.which(name) for name in (tool.missing, Gnu.missing))


def version(tool: Any) -> str:
    """Returns the line of a tool that has its version."""
    lines = run([tool.missing, "--version"]).splitlines()
    return next(line.strip() for line in lines if "version" in line or "assembler" in line)
