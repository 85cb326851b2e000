#!/usr/bin/env python3
"""Generates the cases of csr_table: the value that each CSR number reads, the effect of a write, and the illegal accesses, from each mode.

    python3 -m generators.csr_table                      writes its digest and sample
    python3 -m generators.csr_table --check              checks that they are up to date
    python3 -m generators.csr_table --check-with-llvm    checks each instruction word against llvm-mc

Independent of the code under test: the reference table and hart are in privileged_hart.py.
"""
import sys

from generators import case_files
from models.instruction_words import named
from generators.privileged_case import Case, Returning
from models.privileged_hart import (KEPT, M, MCAUSE, MEPC, MIE_CSR, MIP, MSCRATCH, MSTATUS, MTVAL, NUMBER, ONES, PMPADDR, PMPCFG,
                             S, SATP, SSTATUS, TABLE, TVM, U)

MISSING = [0x000, 0x001, 0x0FF, 0x101, 0x102, 0x103, 0x107, 0x13F, 0x145, 0x17F, 0x181, 0x1FF, 0x200, 0x2FF, 0x307, 0x311,
           0x321, 0x322, 0x345, 0x34A, 0x34B, 0x39F, 0x3A4, 0x3AF, 0x3C0, 0x3EF, 0x747, 0x7A0, 0x7B0, 0x7FF, 0x9FF,
           0xAFF, 0xB01, 0xB20, 0xB7F, 0xB81, 0xBA0, 0xBFF, 0xC00, 0xC01, 0xC02, 0xC80, 0xC82, 0xD00, 0xE00, 0xF10, 0xF16,
           0xFFF]
PATTERNS = [ONES, 0, 0xA5C3965A, 0x5A3C69A5, 0]
READ_ONLY = [number for number in KEPT if number >> 10 == 3]


class Accesses(Returning):
    """A case that accesses registers in every mode, and continues after accesses that trap."""

    def __init__(self, name):
        super().__init__("csr_table", name)
        self.open()


def readings():
    for first in range(0, 4096, 1024):
        Case("csr_table", "reading_%03x_to_%03x" % (first, first + 1023)).show(*range(first, first + 1024))


def writings():
    """Each writable register, in mode M, by csrrw, which shows the old value."""
    for part, first, last in (("supervisor", 0x100, 0x1FF), ("machine_set_up", 0x300, 0x31F), ("events", 0x320, 0x33F),
                              ("machine_traps", 0x340, 0x34F), ("counters", 0xB00, 0xB1F), ("upper_halves", 0xB80, 0xB9F)):
        case = Case("csr_table", "writing_" + part)
        for number in sorted(KEPT):
            for word in PATTERNS if first <= number <= last else []:
                case.set(6, word)
                case.run(("csrrw", 5, number, 6))
                case.reg(5)
                case.show(number)
    case = Case("csr_table", "writing_pmp")  # pmp.py has the locks
    for number in [*PMPCFG, *PMPADDR]:
        for word in PATTERNS:
            case.set(6, word & (0x7F7F7F7F if number in PMPCFG else ONES))
            case.run(("csrrw", 5, number, 6))
            case.reg(5)
            case.show(number)
    case = Case("csr_table", "single_bits")
    for number in [first for first, _, _, kept in TABLE if kept not in (0, ONES)]:
        for bit in range(33):  # the last word is 0
            case.set(6, 1 << bit)
            case.run(("csrrw", 0, number, 6))
            case.show(number)
    case = Case("csr_table", "previous_mode_is_none_but_u_s_m")
    for word in [mode << 11 | rest for rest in (0, ~(3 << 11) & ONES) for mode in (0, 1, 2, 3, 2, 1)]:
        case.set(6, word)
        case.run(("csrrw", 0, MSTATUS, 6))
        case.show(MSTATUS)
        case.run(("csrrw", 0, MSTATUS, 0))
    case = Case("csr_table", "sstatus_is_a_part_of_mstatus")
    for mstatus, sstatus in [(a, b) for a in (0, ONES & ~8, 0x00021880, 0x00400102) for b in (0, ONES, 0x00080020, 0x00000102)]:
        case.write(mstatus=mstatus)
        case.show(MSTATUS, SSTATUS)
        case.write(sstatus=sstatus)
        case.show(MSTATUS, SSTATUS)


def setting_and_clearing():
    """The values that the six instructions write and read, for registers that store all bits, some, and none."""
    words = [0, ONES, 0x0F0F3C5A, 0x00000222]
    for name in named("csr") + named("csr_number"):
        case = Case("csr_table", name + "_words")
        sources = words if name in named("csr") else [0, 1, 0b01010, 0b11111]
        for number in (MSCRATCH, MIE_CSR, MEPC, NUMBER["mideleg"]):
            for old, operand in [(a, b) for a in words for b in sources]:
                case.set(7, old)
                case.set(6, operand)
                case.run(("csrrw", 0, number, 7), (name, 5, number, 6 if name in named("csr") else operand))
                case.reg(5)
                case.show(number)
        if name in named("csr"):  # the source is read before rd is written
            case.set(6, 0x13579BDF)
            case.run(("csrrw", 0, MSCRATCH, 7), (name, 6, MSCRATCH, 6))
            case.reg(6)
            case.show(MSCRATCH)


def reading_and_writing():
    """Which instructions read, write and trap, by rd, source, and kind of the register."""
    for name in named("csr") + named("csr_number"):
        case = Accesses(name + "_with_x0_or_0")
        case.set(6, 0)
        case.set(7, 0x12345675)
        sources = (0, 6, 7) if name in named("csr") else (0, 21)
        for number in (MSCRATCH, NUMBER["mideleg"], 0xF14, 0xC00, 0x3FF):
            for rd, source in [(rd, source) for rd in (5, 0, 17) for source in sources]:
                case.set(8, 0x0F0F3C5A)
                case.set(rd, 0x11111111)
                case.run(("csrrw", 0, MSCRATCH, 8))
                case.attempt(name, rd, number, source)
                case.reg(rd)
                case.show(MSCRATCH, MCAUSE, MTVAL)


def modes():
    """Each existing register, and some that do not exist, read and written from each mode."""
    for letter, mode in (("m", M), ("s", S), ("u", U)):
        case = Accesses("read_in_" + letter)
        case.to(mode)
        for number in sorted([*KEPT, *MISSING]):
            case.set(5, 0x11111111)
            case.attempt("csrrs", 5, number, 0)
            case.reg(5)
        case = Accesses("written_in_" + letter)
        case.to(mode)
        case.set(6, 0x7FFFFFF5)
        numbers = READ_ONLY + MISSING if mode == M else sorted([*KEPT, *MISSING])
        for number in numbers:
            case.attempt("csrrw", 0, number, 6)
            case.show(number)
    case = Accesses("read_only_in_m_by_every_form")
    for name in named("csr") + named("csr_number"):
        for number, source in [(number, source) for number in READ_ONLY for source in (0, 1)]:
            case.attempt(name, 5, number, source)
            case.reg(5)
    for name, mode, tvm in (("m_under_tvm", M, TVM), ("s", S, 0), ("s_under_tvm", S, TVM), ("u_under_tvm", U, TVM)):
        case = Accesses("satp_in_" + name)
        case.to(mode, tvm)
        for instruction in (("csrrs", 5, SATP, 0), ("csrrw", 5, SATP, 6), ("csrrw", 0, SATP, 6), ("csrrci", 0, SATP, 0),
                            ("csrrsi", 5, SATP, 1), ("csrrs", 5, SSTATUS, 0)):
            case.set(5, 0x11111111)
            case.attempt(*instruction)
            case.reg(5)
        case.show(SATP, MSTATUS)


def pending():
    case = Case("csr_table", "timer_bit_of_mip_is_the_line")
    for raised in (True, False, True):
        case.timer(raised)
        case.show(MIP)
        for name, source in (("csrrw", 6), ("csrrw", 0), ("csrrs", 6), ("csrrc", 6), ("csrrc", 0), ("csrrsi", 2),
                             ("csrrci", 2)):
            case.set(6, ONES)
            case.run((name, 5, MIP, source))
            case.reg(5)
            case.show(MIP)


def main(arguments):
    for part in (readings, writings, setting_and_clearing, reading_and_writing, modes, pending):
        part()
    return case_files.main(arguments, Case.all, Case.words, __doc__)


if __name__ == "__main__":
    sys.exit(main(sys.argv[1:]))
