#!/usr/bin/env python3
"""Generates the cases of traps, returns, interrupts and counters. They have each cause from each mode, mret and sret, and instructions that are
illegal below a mode. They also have the priority of interrupts, and the steps that count.

    python3 -m generators.traps                      writes their digests and samples
    python3 -m generators.traps --check              checks that they are up to date
    python3 -m generators.traps --check-with-llvm    checks each instruction word against llvm-mc

Independent of the code under test: the reference hart is in privileged_hart.py.
"""
import sys

from generators import case_files
from generators.privileged_case import Case, Opened
from models.privileged_hart import (M, MCAUSE, MCOUNTINHIBIT, MCYCLE, MEPC, MIE, MINSTRET, MIP, MPIE, MPRV, MSTATUS, MTVAL, MTVEC,
                             ONES, PAST, S, SEPC, SIE, SPIE, SPP, TSR, TVM, TW, U)

MODES = (M, S, U)
COUNT, MRET, SRET, ECALL, EBREAK = ("addi", 10, 10, 1), ("mret",), ("sret",), ("ecall",), ("ebreak",)
WFI, VMA, FENCE = ("wfi",), ("sfence.vma", 0, 0), ("fence iorw, iorw",)
DIRECT, VECTORED = 0, 1  # the modes of mtvec
COUNTERS = (MCYCLE, MCYCLE + 0x80, MINSTRET, MINSTRET + 0x80)
ALL_BITS = 0x007A19AA  # of mstatus


def each_cause():
    """Each exception from each mode, with interrupts enabled and disabled, and with both modes of mtvec, which are equivalent here."""
    for name, *parts in (
            ("misaligned_jump", [("jal", 1, 2)]), ("fetch_behind_ram", [("jalr", 0, 0, 8), None]), ("ebreak", [EBREAK]),
            ("load_outside_ram", [("lw", 1, -1, 8)]), ("store_outside_ram", [("sw", 1, 3, 8)]), ("ecall", [ECALL]),
            ("words_of_no_instruction", *([(".word", word)] for word in (0, ONES, 0xC0102573, 0x0000100F)))):  # rdtime, fence.i
        case = Opened("traps", name)
        case.set(8, PAST)
        case.set(1, 0x11111111)
        for i, (mode, enabled, vector) in enumerate((m, e, v) for m in MODES for e in (MPIE, 0) for v in (DIRECT, VECTORED)):
            case.enter(mode, case.after_enter(2) + vector, enabled)
            case.show(MSTATUS)
            case.run(*parts[i % len(parts)])
            case.show(MSTATUS, MEPC, MCAUSE, MTVAL)
        case.reg(1)


def what_a_trap_leaves():
    """A trap keeps all other fields of mstatus and the registers of S; so does a trap in a handler."""
    case = Opened("traps", "fields_that_a_trap_leaves")
    for mode in MODES:
        case.write(stvec=0x80000F00, sscratch=0x11111111, sepc=0x22222220, scause=0x33333333, stval=0x44444444,
                   mscratch=0x55555555)
        for rest in (ALL_BITS & ~(MIE | 3 << 11), 0):
            case.enter(mode, case.after_enter(3), rest)
            case.show(MSTATUS, 0x100)
            case.run(ECALL)
            case.show(MSTATUS, 0x100, 0x105, 0x140, 0x141, 0x142, 0x143, 0x340, MTVEC)
        case.write(mtvec=case.hart.pc + 12)
        case.run(EBREAK)
        case.show(MSTATUS, MEPC, MCAUSE, MTVAL)
    case = Case("traps", "previous_bits_in_m")
    for before in (0, MIE, MPIE, MIE | MPIE, MIE | S << 11, ALL_BITS):
        case.write(mtvec=case.hart.pc + 16, mstatus=before)
        case.run(ECALL)
        case.show(MSTATUS)


def returns():
    others = ALL_BITS & ~(MIE | SPP | 3 << 11)
    for name, instruction, fields in (
            ("mret", MRET, [mode << 11 | rest for mode in MODES
                            for rest in (0, MPIE, MIE, MPRV, MPRV | MPIE | MIE, others)]),
            ("sret_in_m", SRET, [spp | rest for spp in (SPP, 0)
                                 for rest in (0, SPIE, SIE, MPRV, M << 11, TSR | TW | TVM, others)])):
        case = Opened("returns", name)
        for before in fields:
            target = case.hart.pc + 24
            epcs = (target + 3, 0x80000400) if instruction == MRET else (0x80000400, target + 3)  # bits 1:0 are not kept
            case.write(instruction, mtvec=target + 8, mepc=epcs[0], sepc=epcs[1], mstatus=before)
            case.show(MSTATUS, MEPC, SEPC)
            case.run(ECALL)  # shows the mode, and returns to M
            case.show(MSTATUS, MCAUSE)
    case = Opened("returns", "sret_in_s")
    for rest in (0, SPIE, SPP, SPIE | SPP, SIE, SPP | SIE, others, others | SPP):
        case.write(sepc=case.after_enter(1) + 8)
        case.enter(S, case.after_enter(4), rest & ~TSR)
        case.run(SRET)
        case.show(MSTATUS, SEPC)
        case.run(ECALL)
        case.show(MSTATUS, MCAUSE)


def refused_below():
    """mret, sret, wfi, sfence.vma and a fence in each mode, with TSR, TW and TVM, except returns that succeed."""
    for name, instruction in (("mret", MRET), ("sret", SRET), ("wfi", WFI), ("sfence_vma", VMA), ("fence", FENCE)):
        case = Opened("traps", name + "_by_mode")
        for mode, field in [(m, f) for m in MODES for f in (0, TSR, TW, TVM, TSR | TW | TVM)]:
            if mode == M and name in ("mret", "sret") or name == "sret" and mode == S and not field & TSR:
                continue
            case.enter(mode, case.after_enter(3), field)
            if not case.run(instruction):
                case.run(ECALL)
            case.show(MSTATUS, MEPC, MCAUSE, MTVAL)


def raised(case, numbers):
    """Sets exactly these interrupts pending: 7 by the timer line, the others in mip."""
    if case.hart.timer != (7 in numbers):
        case.timer(7 in numbers)
    case.write(mip=sum(1 << number for number in numbers if number != 7))


def interrupted(case, mode, numbers, enabled, vector=VECTORED, mstatus=MPIE):
    """Goes from mode M to an instruction in another mode, with these interrupts pending and these enabled; then back to M."""
    case.write(mie=0, mstatus=0)
    raised(case, numbers)
    case.write(MRET, mie=enabled, mtvec=case.hart.pc + 32 + vector, mstatus=mstatus | mode << 11, mepc=case.hart.pc + 20)
    taken = case.run(COUNT)
    case.reg(10)
    if not taken and mode < M:
        case.run(ECALL)
    case.show(MSTATUS, MEPC, MCAUSE, MTVAL, MIP, MCYCLE, MINSTRET)


def interrupts():
    choices = [[number for i, number in enumerate((1, 5, 7, 9)) if chosen >> i & 1] for chosen in range(16)]
    for name, vector in (("vectored", VECTORED), ("direct", DIRECT)):
        case = Opened("interrupts", "each_" + name)
        for mode, number in [(mode, number) for mode in MODES for number in (7, 9, 1, 5)]:
            for enabled in (0, 1 << number, 0xAAA & ~(1 << number), 0xAAA):
                interrupted(case, mode, [number], enabled, vector)
    case = Opened("interrupts", "first_of_those_that_are_raised")
    for mode, numbers in [(mode, numbers) for mode in MODES for numbers in choices]:
        interrupted(case, mode, numbers, 0xAAA)
    case = Opened("interrupts", "first_of_those_that_are_enabled")
    for mode, numbers in [(mode, numbers) for mode in MODES for numbers in choices]:
        interrupted(case, mode, [1, 5, 7, 9], sum(1 << number for number in numbers))
    case = Opened("interrupts", "by_mode_with_mie_clear")
    for mode, mstatus in [(mode, mstatus) for mode in MODES for mstatus in (0, SIE, SPIE | SIE | SPP)]:
        interrupted(case, mode, [1, 5, 7, 9], 0xAAA, VECTORED, mstatus)
    case = Opened("interrupts", "fields_that_an_interrupt_leaves")
    for mode in MODES:
        interrupted(case, mode, [7], 0x80, DIRECT, ALL_BITS & ~(MIE | 3 << 11))


def when_taken():
    case = Opened("interrupts", "line_stays_up")
    case.write(mie=0x80)
    case.enter(U, case.after_enter(4))
    case.run(COUNT, COUNT)
    case.timer(True)
    for instructions in ((COUNT,), (MRET, None)):  # taken before the third one, and after the return once more
        case.run(*instructions)
        case.show(MSTATUS, MEPC, MIP)
    case.timer(False)
    case.run(MRET, COUNT)
    case.reg(10)
    case.show(MIP, *COUNTERS)

    case = Case("interrupts", "in_a_handler_that_enables_them")
    case.timer(True)
    case.write(COUNT, mie=0x80, mtvec=case.hart.pc + 24)  # mode M, MIE is clear
    for _ in range(2):
        case.run(("csrrsi", 0, MSTATUS, MIE))
        case.run(COUNT)
        case.show(MSTATUS, MEPC, MCAUSE)
        case.write(mtvec=case.hart.pc + 16)
    case.timer(False)
    case.run(MRET, COUNT)
    case.reg(10)

    case = Case("interrupts", "from_the_step_behind_the_one_that_raises_or_enables")
    for before, change in (({"mie": 0, "mip": 2, "mstatus": MIE}, {"mie": 2}),
                           ({"mip": 0, "mie": 2, "mstatus": MIE}, {"mip": 2}),
                           ({"mie": 0x220, "mip": 0x220, "mstatus": 0}, {"mstatus": MIE})):
        case.write(mtvec=case.hart.pc + 32, **before)
        case.write(**change)
        case.run(COUNT)
        case.reg(10)
        case.show(MSTATUS, MEPC, MCAUSE)

    case = Opened("interrupts", "before_any_exception")
    for address, instruction in ((PAST, None), (None, ECALL), (None, (".word", ONES)), (None, EBREAK)):
        there = address or case.hart.pc + 28
        case.write(MRET, mie=0x20, mip=0x20, mtvec=case.hart.pc + 32, mstatus=0, mepc=there)
        case.run(instruction)
        case.show(MEPC, MCAUSE, MTVAL)
        case.write(MRET, mie=0, mtvec=case.hart.pc + 16)
        case.run(None)
        case.show(MEPC, MCAUSE, MTVAL)

    case = Case("interrupts", "last_trap_of_several_steps")
    case.timer(True)
    case.write(MRET, mie=0x80, mtvec=case.hart.pc + 24, mstatus=0, mepc=case.hart.pc + 20)
    case.run(COUNT, COUNT, COUNT)
    case.write(mtvec=case.hart.pc + 16)
    case.run(COUNT, ECALL, COUNT)
    case.show(MCAUSE)


def counted(case, *instructions):
    case.run(*instructions)
    case.show(*COUNTERS)


def what_counts():
    case = Case("counters", "steps_and_traps")
    case.show(*COUNTERS)
    case.set(8, PAST)
    for instruction in (COUNT, FENCE, WFI, VMA, ("csrrs", 5, 0x340, 0), ("csrrw", 0, 0x340, 5), ("jal", 0, 8),
                        ECALL, EBREAK, (".word", 0), ("jal", 1, 2), ("lw", 1, -1, 8), ("sw", 1, 0, 8), ("csrrw", 0, 0xC00, 0),
                        ("csrrw", 0, 0xF14, 5)):
        case.write(mtvec=case.hart.pc + 16)
        counted(case, instruction)
    case = Opened("counters", "each_mode")
    for mode in MODES:
        case.enter(mode, case.after_enter(6))
        for instructions in ([], [COUNT] * 4, [ECALL]):
            counted(case, *instructions) if instructions else case.show(*COUNTERS)
    case.write(SRET, mtvec=case.hart.pc + 24, mstatus=SPP, sepc=case.hart.pc + 16)
    case.show(*COUNTERS)
    case = Case("counters", "values_before_the_step")
    for counter in (MCYCLE, MINSTRET, MCYCLE, MCYCLE, MINSTRET):
        case.run(COUNT, ("csrrs", 5, counter, 0))
        case.reg(5)


def written_counters():
    case = Case("counters", "written_halves")
    for counter in COUNTERS:
        for word in (5, ONES, 0x80000000, 0):
            case.set(6, word)
            counted(case, ("csrrw", 5, counter, 6))
            case.reg(5)
            counted(case, COUNT)
    case = Case("counters", "who_writes")
    case.set(6, 0)
    for counter in COUNTERS:
        for name, source in (("csrrs", 0), ("csrrs", 6), ("csrrc", 0), ("csrrc", 6), ("csrrsi", 0), ("csrrsi", 1),
                             ("csrrci", 0), ("csrrci", 1), ("csrrwi", 9), ("csrrw", 0)):
            counted(case, COUNT, (name, 5, counter, source))
            case.reg(5)
    case = Case("counters", "wrap")
    for low, high in (("mcycle", "mcycleh"), ("minstret", "minstreth")):
        for word in (0, 7, 0x7FFFFFFF, ONES):
            for registers in ({high: word, low: ONES - 1}, {low: ONES, high: word}):
                case.write(**registers)
                for _ in range(3):
                    case.show(*COUNTERS)
                    case.run(COUNT)


def inhibited_counters():
    case = Case("counters", "inhibited")
    case.set(6, 100)
    for word in (1, 4, 5, 0, 5, 2, 4, 1, 31, 0):
        counted(case, ("csrrwi", 0, MCOUNTINHIBIT, word))  # from the next step on
        case.show(MCOUNTINHIBIT)
        counted(case, COUNT, COUNT)
        case.write(mtvec=case.hart.pc + 8)
        counted(case, ECALL)
        for counter in COUNTERS[::2]:
            counted(case, ("csrrw", 5, counter, 6), COUNT)
            case.reg(5)
    case = Case("counters", "inhibited_at_an_interrupt")
    for inhibited in (0, 1, 4, 5):
        case.write(mcountinhibit=inhibited)
        interrupted(case, U, [1], 2)
        case.show(*COUNTERS)


def main(arguments):
    for part in (each_cause, what_a_trap_leaves, returns, refused_below, interrupts, when_taken, what_counts, written_counters,
                 inhibited_counters):
        part()
    return case_files.main(arguments, Case.all, Case.words, __doc__)


if __name__ == "__main__":
    sys.exit(main(sys.argv[1:]))
