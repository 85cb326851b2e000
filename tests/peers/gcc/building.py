"""Builds and runs a test of GCC in each of its forms: on the bare machine, as the host, and as an enclave."""
from __future__ import annotations

import re
import subprocess
from dataclasses import dataclass
from pathlib import Path
from typing import Dict, List, Tuple

from support.limits import HANG

from .sources import Source

HERE = Path(__file__).resolve().parent
COMPILER = "riscv64-unknown-elf-gcc"
TARGET = ("-march=rv32im_zicsr", "-mabi=ilp32")
# The linker finds the compiler's library by this name.
LIBRARY_TARGET = "-march=rv32im"
# As in GCC's own runs: builtins and warnings as in a hosted program.
FLAGS = ("-w", "-O2", "-std=gnu17", "-fno-stack-protector", "-fno-pic", "-I", str(HERE / "include"))
RAM, MILLION = 16777216, 1000000
# The most million steps of a test.
MOST = 1000
PASSED = 0
MEANING = {97: "a call of the monitor was refused", 98: "a trap", 99: "abort"}


@dataclass(frozen=True)
class Form:
    """A way to run a test: the arguments of the program, and the addresses of the linker script."""

    name: str
    words: Tuple[str, ...]
    host: int
    region: int
    size: int


FORMS = (Form("bare", (), 0x80000000, 0x80000000, 0x1000000), Form("host", ("--monitor",), 0x80010000, 0x80010000, 0xFF0000),
         Form("enclave", ("--monitor",), 0x80010000, 0x80800000, 0x800000))


class BuildFailed(Exception):
    """A test does not build for a freestanding RV32IM. The text is the compiler's first error."""


def compile_with(*words: str) -> None:
    """Runs the compiler; raises `BuildFailed` with its first error."""
    done = subprocess.run([COMPILER, *TARGET, *words], capture_output=True, text=True, errors="replace", timeout=HANG, check=False)
    if done.returncode:
        found = re.search(r"(?:fatal )?error: (.*)|(undefined reference to .*)", done.stderr)
        raise BuildFailed(next(filter(None, found.groups())) if found else done.stderr.strip().split("\n")[-1])


def support(folder: Path) -> Dict[str, List[str]]:
    """Compiles what all tests share; returns the objects of each form."""
    compile_with("-O2", "-ffreestanding", "-fno-tree-loop-distribute-patterns", "-fno-builtin", "-c", "-o", str(folder / "support.o"),
                 str(HERE / "support.c"))
    for form in FORMS:
        compile_with("-c", "-o", str(folder / (form.name + ".o")), str(HERE / ("start_%s.s" % form.name)))
    return {form.name: [str(folder / (form.name + ".o")), str(folder / "support.o")] for form in FORMS}


def build(source: Source, folder: Path, shared: Dict[str, List[str]]) -> Dict[str, Path]:
    """Builds a test in each form; returns the ELF files. Raises `BuildFailed`."""
    stem = source.name.replace("/", "_")
    test = folder / (stem + ".o")
    compile_with(*FLAGS, *source.options, "-c", "-o", str(test), str(source.path))
    made = {}
    for form in FORMS:
        made[form.name] = folder / ("%s.%s" % (stem, form.name))
        link_form(form, [str(test)], shared, made[form.name])
    return made


def link_form(form: Form, objects: List[str], shared: Dict[str, List[str]], target: Path) -> None:
    """Links objects for a form."""
    places = ["-Wl,--defsym=%s=%d" % it for it in (("host_base", form.host), ("region_base", form.region), ("region_size", form.size))]
    compile_with(LIBRARY_TARGET, "-nostdlib", "-static", "-Wl,-n", "-T", str(HERE / "link.ld"), *places, "-o", str(target), *objects,
                 *shared[form.name], "-lgcc")


def end_of(elf: Path) -> int:
    """Returns the address at which a test has ended."""
    done = subprocess.run(["riscv64-unknown-elf-nm", elf], capture_output=True, text=True, check=True)
    return int(next(line for line in done.stdout.splitlines() if line.endswith(" test_ended")).split()[0], 16)


def run(program: str, elf: Path, form: Form) -> str:
    """Runs a test; returns an empty text if it ended with status 0, and else how it ended."""
    return run_counted(program, elf, form)[0]


def run_counted(program: str, elf: Path, form: Form) -> Tuple[str, int]:
    """Runs a test; returns an empty text if it ended with status 0, and else how it ended; and the number of its steps."""
    words = [program, "run", "--ram", str(RAM), *form.words]
    with subprocess.Popen(words, stdin=subprocess.PIPE, stdout=subprocess.PIPE, text=True) as process:
        assert process.stdin and process.stdout
        image = "\n".join(re.findall(".{1,120}", elf.read_bytes().hex()))
        process.stdin.write("%s\n--\nbreak %x\n" % (image, end_of(elf)))
        reply, steps, millions = _ask(process, ""), 0, 0
        while (reply == "ok" or " why=done " in reply) and millions < MOST:
            reply = _ask(process, "run %d\n" % MILLION)
            millions += 1
            steps += int(reply.split()[1]) if reply.startswith("ran ") else 0
        if " why=break " not in reply:
            return "needs more than %d million steps" % MOST if millions == MOST else "the program replies '%s'" % reply, steps
        status = int(_ask(process, "reg 10\n").partition("=")[2], 16)
        process.stdin.close()
    return "" if status == PASSED else MEANING.get(status, "status %d" % status), steps


def _ask(process: "subprocess.Popen[str]", line: str) -> str:
    """Sends a line to the program, and returns a line of its output."""
    assert process.stdin and process.stdout
    process.stdin.write(line)
    process.stdin.flush()
    return process.stdout.readline().rstrip("\n")
