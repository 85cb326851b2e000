"""Runs tests in the form of riscv-arch-test, and compares the signature of each with its reference.

A suite is a folder with `env/arch_test.h` and tests `rv32i_m/GROUP/src/NAME.S`, as riscv-arch-test/riscv-test-suite. A reference is a file
`rv32i_m/GROUP/references/NAME.reference_output`, or `NAME.signature` or `NAME.reference_output` in another folder, as a model such as Sail or Spike
wrote it. Its lines are words of eight digits.
"""
from __future__ import annotations

import re
import subprocess
import tempfile
from dataclasses import dataclass
from pathlib import Path
from typing import Dict, List, Optional

from support.limits import HANG

HERE = Path(__file__).resolve().parent
COMPILER = ("riscv64-unknown-elf-gcc", "-march=rv32im_zicsr", "-mabi=ilp32", "-static", "-mcmodel=medany", "-nostdlib", "-nostartfiles", "-w",
            "-Wl,-n", "-DXLEN=32", "-DTEST_CASE_1=True")
RAM, RUNS = 16777216, 20


@dataclass(frozen=True)
class Result:
    """The end of a test: `passed`, `failed`, `left out` (it does not build) or `no reference`, and more about it."""

    name: str
    end: str
    text: str = ""


def tests_in(suite: Path) -> List[Path]:
    """Returns the tests of a suite for RV32."""
    return sorted((suite / "rv32i_m").glob("*/src/*.S"))


def reference_of(test: Path, references: Optional[Path]) -> Optional[List[str]]:
    """Returns the words of the reference of a test, if there is one."""
    folder = references or test.parents[1] / "references"
    for ending in (".reference_output", ".signature"):
        if (folder / (test.stem + ending)).is_file():
            return (folder / (test.stem + ending)).read_text(encoding="ascii").lower().split()
    return None


def symbols_of(elf: Path) -> Dict[str, int]:
    """Returns the addresses of the symbols of a test."""
    text = subprocess.run(["riscv64-unknown-elf-nm", elf], capture_output=True, text=True, check=True).stdout
    return {parts[2]: int(parts[0], 16) for parts in map(str.split, text.splitlines()) if len(parts) == 3}


def signature_of(program: str, elf: Path) -> List[str]:
    """Runs a test, and returns the words of its signature; an empty list if it does not halt."""
    names = symbols_of(elf)
    begin, end = names["begin_signature"], names["end_signature"]
    image = "\n".join(re.findall(".{1,120}", elf.read_bytes().hex()))
    reads = ["mem %x 4" % at for at in range(begin, end, 4)]
    script = "\n".join([image, "--", "break %x" % names["rvbench_halt"], *["run 1000000"] * RUNS, *reads, ""])
    done = subprocess.run([program, "run", "--ram", str(RAM)], input=script, capture_output=True, text=True, timeout=HANG, check=True)
    lines = done.stdout.splitlines()[1:]
    if not any(" why=break " in line for line in lines[:RUNS]):
        return []
    return ["".join(reversed(line.partition(": ")[2].split())) for line in lines[RUNS:]]


def run_test(program: str, suite: Path, test: Path, references: Optional[Path] = None) -> Result:
    """Builds and runs a test, and compares its signature."""
    wanted = reference_of(test, references)
    with tempfile.TemporaryDirectory(prefix="rvbench-arch-") as scratch:
        elf = Path(scratch) / "test.elf"
        words = [*COMPILER, "-I", suite / "env", "-I", HERE / "model", "-T", HERE / "model" / "link.ld", "-o", elf, test]
        built = subprocess.run([str(it) for it in words], capture_output=True, text=True, timeout=HANG, check=False)
        if built.returncode:
            return Result(test.stem, "left out", next((it for it in built.stderr.splitlines() if "rror" in it), "it does not build"))
        found = signature_of(program, elf)
    if not found:
        return Result(test.stem, "failed", "it does not halt")
    if wanted is None:
        return Result(test.stem, "no reference")
    differing = [at for at, pair in enumerate(zip(found, wanted)) if pair[0] != pair[1]]
    if len(found) != len(wanted) or differing:
        return Result(test.stem, "failed", "%d and %d words, the first that differs is %s" % (len(found), len(wanted), differing[:1]))
    return Result(test.stem, "passed", "%d words" % len(found))
