"""The two toolchains, clang with lld and riscv64-unknown-elf-gcc, and how their programs are run: with a list of arguments, never by a shell."""
from __future__ import annotations

import os
import shutil
import subprocess
from typing import NamedTuple, Sequence, Tuple

from rvlook.errors import RvlookError
from rvlook.escapes import visible

GNU = "riscv64-unknown-elf-"
PACKAGES = "on Debian install clang, lld and llvm, or gcc-riscv64-unknown-elf"
NO_LOOP_CALLS = "-fno-tree-loop-distribute-patterns"  # keeps gcc from making a call of memcpy of the loop in memcpy


class BuildError(RvlookError):
    """Raised for a folder that cannot be built. Its text is the message, of one or more lines."""
    status = 1  # the exit status


class Toolchain(NamedTuple):
    """The commands of a toolchain, each with its fixed arguments. The first word is the path of a program."""
    compile: Tuple[str, ...]  # a source to an object
    link: Tuple[str, ...]  # objects to an ELF file
    merge: Tuple[str, ...]  # objects to one object
    object_copy: Tuple[str, ...]  # copies and changes an object
    list_symbols: Tuple[str, ...]  # nm
    disassemble: Tuple[str, ...]  # objdump
    of_string_functions: Tuple[str, ...]  # options for the file that defines memcpy


def toolchain_of(name: str) -> Toolchain:
    """Returns the toolchain `clang` or `gcc`; with an empty name clang if it is installed, else gcc. Raises BuildError if a program is missing."""
    is_clang = name == "clang" or not name and shutil.which("clang")
    return clang() if is_clang else gcc()


def clang() -> Toolchain:
    """Returns clang with lld and the tools of LLVM."""
    compiler, merge = found("clang", "--target=riscv32"), found("ld.lld", "-r")
    copy, names, dump = found("llvm-objcopy"), found("llvm-nm"), found("llvm-objdump", "--mattr=+m")
    return Toolchain((*compiler, "-march=rv32im", "-mabi=ilp32"), (*compiler, "-fuse-ld=lld"), merge, copy, names, dump, ())


def gcc() -> Toolchain:
    """Returns gcc with the GNU tools."""
    compiler, linker = found(GNU + "gcc", "-march=rv32im_zicsr", "-mabi=ilp32"), found(GNU + "ld", "-m", "elf32lriscv", "-r")
    copy, names, dump = found(GNU + "objcopy"), found(GNU + "nm"), found(GNU + "objdump")
    quiet = ("-Wl,--no-warn-rwx-segments",) if "no-warn-rwx" in output_of([linker[0], "--help"]) else ()
    return Toolchain(compiler, (*compiler, *quiet), linker, copy, names, dump, (NO_LOOP_CALLS,))


def found(name: str, *arguments: str) -> tuple[str, ...]:
    """Returns the absolute path of a program on the PATH, followed by its arguments. Raises BuildError if the program is not installed."""
    path = shutil.which(name)
    if path is None:
        raise BuildError("error: %s is not installed; %s" % (name, PACKAGES))
    return (os.path.abspath(path), *arguments)


def run(words: Sequence[str], folder: str | None = None) -> subprocess.CompletedProcess[bytes]:
    """Runs a program in a folder, by default the current one; returns its status, output and errors."""
    return subprocess.run(words, cwd=folder, stdin=subprocess.DEVNULL, capture_output=True, check=False)


def output_of(words: Sequence[str]) -> str:
    """Returns what a program that must succeed prints. Raises BuildError with its errors."""
    process = run(words)
    if process.returncode:
        raise BuildError(printable(process.stderr))
    return process.stdout.decode("utf-8", "surrogateescape")


def printable(data: bytes) -> str:
    """Returns the output of a program in printable characters: it quotes file names, symbols and sources."""
    lines = data.decode("utf-8", "surrogateescape").rstrip("\n").split("\n")
    return "\n".join(visible(line.replace("\t", " ").rstrip("\r")) for line in lines)
