"""Finds out which peers notice a planted error: QEMU in lockstep, after how many steps, and the assembler of LLVM."""
from __future__ import annotations

from dataclasses import dataclass

from peers.assemblers import comparison
from peers.assemblers.tools import Llvm, Program, ToolError
from peers.qemu.cases import CASES
from peers.qemu.checks import CHECKS
from peers.qemu.deviations import DEVIATIONS
from peers.qemu.lockstep import Difference
from peers.qemu.runner import Counts, run_actions, run_block, run_stream

from .errors import PlantedError

SEED, WORDS = "planted", 500
# One of so many texts is compared with LLVM: the program is built without optimisation.
SHARE = 37
# The number of programs that are also run several steps at once.
BLOCKS = 4


@dataclass(frozen=True)
class Row:
    """A row of the table: an error, how QEMU noticed it (an empty text: it did not), and whether the assembler of LLVM did."""

    error: PlantedError
    qemu: str
    assemblers: bool

    @property
    def is_unnoticed(self) -> bool:
        """Returns whether no peer noticed the error."""
        return not self.qemu and not self.assemblers

    def __str__(self) -> str:
        """Returns the row as in the page."""
        noticed = [self.qemu] if self.qemu else []
        return "| %s | %s | %s |" % (self.error.name, self.error.text, ", ".join(noticed + ["LLVM"] * self.assemblers) or "**nobody**")


def row(error: PlantedError, program: str, most: int) -> Row:
    """Tries the peers on a program with an error."""
    return Row(error, noticed_by_qemu(program, most), is_assembled_otherwise(program))


def noticed_by_qemu(program: str, most: int) -> str:
    """Returns how QEMU noticed an error: by a directed case, or by streams of at most this number of steps."""
    case = failing_case(program)
    if case:
        return "QEMU, case *%s*" % case
    counts, part = Counts(), 0
    while counts.steps < most:
        try:
            counts.add(run_stream(program, SEED, part))
            if part < BLOCKS:
                counts.add(run_block(program, SEED, part))
        except (Difference, RuntimeError):
            return "QEMU, %d steps" % counts.steps
        part += 1
    return ""


def failing_case(program: str) -> str:
    """Returns the first directed check or case that differs, or an empty text."""
    for name, actions in (*CHECKS.items(), *((it.name, CASES[it.name]) for it in DEVIATIONS)):
        try:
            run_actions(program, actions)
        except (Difference, RuntimeError):
            return name
    return ""


def is_assembled_otherwise(program: str) -> bool:
    """Returns whether LLVM assembles or disassembles something in another way."""
    ours, other = Program(program), Llvm()
    try:
        found = comparison.compare_texts(ours, other, SHARE)[0] + comparison.compare_words(ours, other, SHARE)[0]
        return bool(found + comparison.compare_random(ours, other, SEED, WORDS)[0])
    except ToolError:
        return True
