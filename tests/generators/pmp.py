#!/usr/bin/env python3
"""Generates the cases of pmp: verdicts at the boundaries of sets of PMP entries, and writes to pmpcfg and pmpaddr under locks. There are also
fetches, loads and stores across the boundaries in each mode and with MPRV.

    python3 -m generators.pmp                      writes its digest and sample
    python3 -m generators.pmp --check              checks that they are up to date
    python3 -m generators.pmp --check-with-llvm    checks each instruction word against llvm-mc

Independent of the code under test: pmp_entries.py has the reference entries, and privileged_hart.py the reference hart.
"""
import sys

from generators import case_files
from models.instruction_words import named
from models.pmp_entries import NA4, NAPOT, OFF, TOR, L, R, W, X, napot
from generators.privileged_case import Case, Returning
from models.privileged_hart import LETTER, M, MCAUSE, MEPC, MPRV, MSTATUS, MTVAL, ONES, PAST, PMPADDR, PMPCFG, S, START, U, WIDTH

MODES = (M, S, U)
AREA = START + 0x2000  # data, after the code
FORMS = (0, R, R | W, X, R | X, R | W | X)  # all permissions
# the offsets of an access of a width at a boundary: before it, across it, after it
PLACES = [(offset, width) for width in (1, 2, 4) for offset in range(-width, 1)]
CODE = (NAPOT | X, napot(START, 0x2000))  # S and U may fetch the code, but not access data in it


def word(address):
    return address >> 2


# name: the entries {number: (cfg, pmpaddr)} and the boundaries; no locked entry covers code, and entry 0 is reserved for the code
SETS = {
    "napot_in_tor": (
        {1: (NAPOT | R | W, napot(AREA + 0x100, 0x100)), 2: (OFF | R | W | X, word(AREA)),
         3: (TOR | R | X, word(AREA + 0x400))},
        [AREA, AREA + 0x100, AREA + 0x200, AREA + 0x400]),
    "tor_in_napot": (
        {3: (OFF, word(AREA + 0x44)), 4: (TOR | X, word(AREA + 0x4C)), 5: (TOR | R | W, word(AREA + 0x50)),
         15: (NAPOT | R, napot(AREA, 0x80))},
        [AREA, AREA + 0x44, AREA + 0x4C, AREA + 0x50, AREA + 0x80]),
    "na4_at_a_boundary": (
        {1: (OFF, word(AREA)), 2: (TOR | R, word(AREA + 0x200)), 3: (NA4 | R | W, word(AREA + 0x200)),
         4: (NA4 | X, word(AREA + 0x204))},
        [AREA, AREA + 0x200, AREA + 0x204, AREA + 0x208]),
    "locked_entries_bind_m": (
        {3: (L | NAPOT, napot(AREA + 0x10, 8)), 4: (L | NA4 | R, word(AREA + 0x18)), 5: (OFF, word(AREA + 0x1C)),
         6: (L | TOR | R | X, word(AREA + 0x40)), 7: (L | NA4 | X, word(AREA + 0x40)), 8: (L | NA4 | R | W, word(AREA + 0x44)),
         15: (NAPOT | R | W | X, napot(AREA, 0x1000))},
        [AREA, AREA + 0x10, AREA + 0x18, AREA + 0x1C, AREA + 0x40, AREA + 0x44, AREA + 0x48, AREA + 0x1000]),
    "all_ones_under_tor_with_nothing": (
        {1: (OFF, word(AREA + 0x100)), 2: (TOR | R | W | X, word(AREA + 0x100)), 3: (L | TOR, word(AREA)),
         9: (NAPOT | R | X, ONES)},
        [AREA, AREA + 0x100]),
    "last_bytes_of_ram": (
        {1: (NA4 | R, word(PAST - 4)), 2: (NAPOT | R | W, napot(PAST - 8, 8)), 3: (OFF, word(PAST - 16)),
         4: (TOR | R | X, 0x3FFFFFFF), 5: (NA4 | R | W | X, 0x3FFFFFFF)},
        [PAST - 16, PAST - 8, PAST - 4, PAST]),
    "two_entries_side_by_side": (
        {1: (NAPOT | R | W, napot(AREA, 16)), 2: (NAPOT | R | W, napot(AREA + 16, 16)), 3: (NA4 | R | W, word(AREA + 32)),
         4: (NA4 | R | W, word(AREA + 36))},
        [AREA, AREA + 16, AREA + 32, AREA + 36, AREA + 40]),
}
# sets whose accesses are checked by `access`, not made
MORE_SETS = {
    "tor_with_nothing_alone": (
        {0: (TOR | R | W | X, 0), 1: (TOR | R | W | X, 0), 2: (OFF, word(AREA)), 3: (TOR | R | W | X, word(AREA)),
         4: (L | TOR | R | W | X, word(AREA - 0x100))},
        [START, AREA - 0x100, AREA]),
    "tor_from_the_first_address": (  # for any value of the last pmpaddr
        {0: (TOR | R | X, word(AREA)), 15: (OFF, word(AREA + 0x100))}, [START, AREA, AREA + 0x100]),
    "addresses_from_2_to_the_32": (  # none of these lies in RAM but the last two, which hold it in them
        {0: (NA4 | R | W | X, word(AREA | 1 << 32)), 1: (NAPOT | R | W | X, napot(AREA | 2 << 32, 0x1000)),
         2: (OFF, word(AREA + 0x100 | 1 << 32)), 3: (TOR | R | W | X, word(AREA + 0x200)),
         4: (TOR | R, word(AREA + 0x10)), 5: (TOR | R | W, word(AREA + 0x20 | 3 << 32)), 7: (NAPOT | X, 0x7FFFFFFF)},
        [START, AREA, AREA + 0x10, AREA + 0x20, AREA + 0x100, AREA + 0x200, AREA + 0x1000]),
    "sixteen_around_each_other": (
        {i: (NAPOT | FORMS[i % 6], napot(AREA, 8 << i)) for i in range(10)}
        | {10 + i: (TOR | FORMS[(i + 1) % 6], word(AREA + 0x2000 + 0x400 * i)) for i in range(6)},
        [AREA] + [AREA + (8 << i) for i in range(10)] + [AREA + 0x2000 + 0x400 * i for i in range(6)]),
    "permissions": (
        {i: (NAPOT | FORMS[i % 6] | (L if i > 5 else 0), napot(AREA + 8 * i, 8)) for i in range(12)},
        [AREA + 8 * i for i in range(13)]),
}


def written(case, entries):
    """Writes the entries in mode M, addresses first."""
    for i in sorted(entries):
        case.write(**{"pmpaddr%d" % i: entries[i][1]})
    for number in sorted({i // 4 for i in entries}):
        case.write(**{"pmpcfg%d" % number: sum(entries.get(4 * number + i, (0, 0))[0] << 8 * i for i in range(4))})


def asked(case, boundaries):
    """Checks every mode, kind and width at every boundary."""
    for boundary in boundaries:
        for offset, width in PLACES:
            for kind in "rwx":
                for mode in MODES:
                    case.access(mode, kind, boundary + offset & ONES, width)


def verdicts():
    for name, (entries, boundaries) in (SETS | MORE_SETS).items():
        case = Case("pmp", "verdicts_of_" + name)
        written(case, entries)
        case.pmp()
        asked(case, boundaries)
    case = Case("pmp", "verdicts_at_reset")
    case.pmp()
    asked(case, [START, AREA, PAST])
    case = Case("pmp", "verdicts_of_napot_of_each_size")
    for k in range(33):  # the smallest aligned range that contains the area
        size = 8 << k
        base = AREA // size * size
        case.write(pmpaddr0=napot(base, size), pmpcfg0=NAPOT | R)
        for boundary in [boundary for boundary in (base, base + size) if START <= boundary <= PAST] + [AREA]:
            for offset in (-4, -2, 0):
                case.access(U, "r", boundary + offset, 4)
        case.show(PMPADDR[0])
    case = Case("pmp", "outside_comes_before_the_entries")
    for cfg in (0, NAPOT | R | W | X, L | NAPOT | R | W | X):
        written(case, {0: (cfg, ONES)})
        for address, width in [(START - 1, 1), (START - 1, 2), (START - 2, 4), (PAST, 1), (PAST - 1, 2), (PAST - 3, 4), (0, 4),
                               (0x7FFFFFFC, 4), (0xFFFFFFFC, 4), (ONES, 1), (ONES, 2), (0xFFFFFFFE, 4), (START, 4),
                               (PAST - 4, 4)]:
            for mode, kind in zip(MODES * 3, "rwxwxrxrw"):
                case.access(mode, kind, address, width)
    case = Case("pmp", "verdicts_ask_no_field_of_mstatus")
    written(case, {0: (NAPOT | R, napot(AREA, 16)), 15: (NAPOT | X, napot(START, 0x1000))})
    for mstatus in (MPRV, MPRV | S << 11, MPRV | M << 11, 1 << 19, ONES):
        case.write(mstatus=mstatus)
        asked(case, [AREA])
    case.write(("mret",), mstatus=0, mepc=case.hart.pc + 12)  # nor the mode of the hart
    asked(case, [AREA])


def operands():
    """Lines that are not commands, or have invalid operands, have no effect."""
    case = Case("pmp", "operands")
    for line in ("access", "access M", "access M r", "access M r 80000000", "access M r 80000000 4 4", "access m r 80000000 4",
                 "access H r 80000000 4", "access 3 r 80000000 4", "access M R 80000000 4", "access M rw 80000000 4",
                 "access M f 80000000 4", "access M r 8000000g 4", "access M r 080000000 4", "access M r 0X80000000 4",
                 "access M r 0x 4", "access M r -1 4", "access M r 80000000 0", "access M r 80000000 3",
                 "access M r 80000000 8", "access M r 80000000 04", "access M r 80000000 0x4", "access r M 80000000 4",
                 "access MM r 80000000 4", "pmp 0", "pmp pmp", "pmp # all of them", "access M r 7fffffff 3"):
        case.say(line, "error operand")
    for line in ("Access M r 80000000 4", "ACCESS M r 80000000 4", "PMP", "pmps", "pm", "acces", "pmp0", "pmpcfg0"):
        case.say(line, "error command")
    for line in ("access M r 0x80000000 4", "  access\tM  w\t80000000   2 ", "access M x 8000000A 1"):
        case.say(line, "allowed free")
    for line, reply in (("access U x 80000000 4", "denied free"), ("access S w 0x800FFFFF 1", "denied free"),
                        ("access S r 0 1", "denied outside"), ("access U w FFFFFFFF 4", "denied outside")):
        case.say(line, reply)
    case.pmp()


def each_word(case, number, words):
    for value in words:
        case.set(6, value)
        case.run(("csrrw", 5, number, 6))
        case.reg(5)
        case.show(number)


def stored_forms():
    """The writable bits of each cfg byte for each value, and of each pmpaddr."""
    case = Case("pmp", "stored_forms_without_a_lock")
    for value in range(128):  # each byte of the four has each value
        number = PMPCFG[value % 4]
        each_word(case, number, [sum((value + 32 * i) % 128 << 8 * i for i in range(4))])
    case.pmp()
    for first in (0, 32, 64, 96):
        for part in (0, 16):
            case = Case("pmp", "stored_forms_with_a_lock_from_%02x" % (0x80 | first | part))
            for number in range(4):
                each_word(case, PMPCFG[number], [sum((0x80 | first + part + 4 * number + i) << 8 * i for i in range(4))])
            case.pmp()
    case = Case("pmp", "stored_addresses")
    for i, number in enumerate(PMPADDR):
        each_word(case, number, [ONES, 1 << 2 * i, 1 << 2 * i + 1, 0x2000000F, 0x01234567 * (i + 1) & ONES])
        case.pmp()
    case = Case("pmp", "set_and_cleared_bits")
    case.set(7, 0x9D9F0703)
    for name, number, source in (
            ("csrrsi", 0x3A0, 2), ("csrrsi", 0x3A0, 1), ("csrrsi", 0x3A0, 2), ("csrrci", 0x3A0, 1), ("csrrsi", 0x3A0, 28),
            ("csrrwi", 0x3A1, 31), ("csrrwi", 0x3A1, 30), ("csrrsi", 0x3A1, 1), ("csrrs", 0x3A2, 7), ("csrrc", 0x3A2, 7),
            ("csrrwi", 0x3A2, 3), ("csrrs", 0x3B2, 7), ("csrrc", 0x3B2, 7), ("csrrwi", 0x3B5, 21), ("csrrsi", 0x3B5, 10),
            ("csrrci", 0x3B5, 1), ("csrrs", 0x3BA, 7), ("csrrs", 0x3A0, 0), ("csrrci", 0x3A2, 0)):
        case.run((name, 5, number, source))
        case.reg(5)
        case.show(number)
    case.pmp()


def all_written(case, first, step, cfg_word):
    """Writes every address, every cfg, and the addresses again; shows them each time."""
    for turn in range(2):
        for i in range(16):
            case.write(**{"pmpaddr%d" % i: first + step * i + turn & ONES})
        case.pmp()
        if not turn:
            for number in range(4):
                case.write(**{"pmpcfg%d" % number: cfg_word})
            case.pmp()


def locks():
    """Locks the entries with even or odd numbers, then writes all, with ranges without code."""
    for matching, name in ((OFF, "off"), (TOR, "tor"), (NA4, "na4"), (NAPOT, "napot")):
        for parity, which in ((0, "even"), (1, "odd")):
            case = Case("pmp", "locked_%s_at_%s_entries" % (name, which))
            pair = [OFF | R, OFF | R]
            pair[parity] = L | matching | X
            for i in range(16):
                case.write(**{"pmpaddr%d" % i: 0x10000000 + 0x100 * i})
            for number in range(4):
                case.write(**{"pmpcfg%d" % number: (pair[0] | pair[1] << 8) * 0x10001})
            case.pmp()
            all_written(case, 0x08000000, 0x1000, 0x0F1F0F1F)
            all_written(case, 0, 0, 0)
    case = Case("pmp", "locked_tor_that_covers_nothing")
    for i in range(16):
        case.write(**{"pmpaddr%d" % i: 0x10000000 - 0x100 * (i // 3)})  # equal bounds, and the first above the second
    for number, value in enumerate((0x89008900, 0x89000089, 0x00008900, 0x00890089)):
        case.write(**{"pmpcfg%d" % number: value})
    case.pmp()
    all_written(case, 0x08000000, 0x1000, 0x0F1F0F1F)
    case = Case("pmp", "tor_without_a_lock_and_locks_without_tor_leave_the_address_below")
    for i, (below, above) in enumerate(((0, TOR), (0, L), (0, L | NA4), (0, L | NAPOT), (0, L | TOR), (TOR | R, L | TOR))):
        case.write(**{"pmpaddr%d" % (2 * i): 0x10000000 + i, "pmpaddr%d" % (2 * i + 1): 0x10000000 + 2 * i})
        case.write(**{"pmpcfg%d" % (i // 2): case.hart.entries.cfg_word(i // 2) | (below | above << 8) << 16 * (i % 2)})
        case.write(**{"pmpaddr%d" % (2 * i): 0x0FFFFFFF - i, "pmpaddr%d" % (2 * i + 1): 0x0FFFFFF0 - i})
        case.pmp()


def bytes_by_their_own_lock():
    """Sixteen choices of locked bytes in one register, and a write that changes and locks others."""
    for first in range(0, 16, 4):
        case = Case("pmp", "bytes_by_their_own_lock_from_%d" % first)
        for number in range(4):
            before = sum((0x80 | i if first + number >> i & 1 else i) << 8 * i for i in range(4))
            for value in (before, 0x1F9B1C99, 0x9F1D8F0B, 0x00000000, ONES & 0x7F7F7F7F):
                each_word(case, PMPCFG[number], [value])
        case.pmp()
    case = Case("pmp", "locks_of_the_same_write")
    # the lower entry is written with the TOR entry that locks, or in the write behind it; its own cfg stays open
    for number in range(4):
        case.write(**{"pmpaddr%d" % (4 * number + i): 0x10000000 + 4 * number + i for i in range(4)})
        case.write(**{"pmpcfg%d" % number: (0x00008900, 0x00890000, 0x89000000, 0x00000089)[number]})
        case.write(**{"pmpcfg%d" % number: 0x01010101})
        case.write(**{"pmpaddr%d" % (4 * number + i): 0x08000000 for i in range(4)})
        case.pmp()
    case.write(pmpaddr11=0x07000000)  # below entry 12, which pmpcfg3 has locked
    case.show(*PMPCFG, *PMPADDR)


def registers_below_m():
    """The registers are accessible only in M."""
    for mode in (S, U):
        case = Returning("pmp", "registers_in_" + LETTER[mode].lower())
        written(case, {0: CODE})
        case.to(mode)
        case.set(6, 0x11111111)
        for number in (*PMPCFG, *PMPADDR):
            case.attempt("csrrw", 0, number, 6)
            case.attempt("csrrs", 5, number, 0)
        case.reg(5)
        case.pmp()


def filled(case, boundaries):
    """Stores distinct bytes on both sides of the boundaries, in mode M before any entry is written."""
    for i, boundary in enumerate(boundaries):
        for offset in (-4, 0):
            if boundary + offset < PAST:
                case.set(6, boundary + offset)
                case.set(7, 0xF1E2D3C4 ^ 0x01010101 * (16 * i + offset & 0xFF))
                case.run(("sw", 7, 0, 6))


def shown(case, boundary):
    first = min(boundary - 4, PAST - 8)
    case.mem(first, 8)


def loaded_and_stored(case, boundaries, mstatus=None):
    """Makes each load and store across each boundary; shows the bytes after each store, and the registers of each trap. In mode M mstatus may be
    written before each."""
    for i, boundary in enumerate(boundaries):
        for name in (*(("lb", "lhu"), ("lbu", "lh"))[i % 2], "lw", "sb", "sh", "sw"):
            width = WIDTH[name[1]]
            for offset in range(-width, 1):
                case.set(6, boundary + offset)
                if name in named("load"):
                    case.set(5, 0x11111111)
                else:
                    case.set(7, 0x01020304 + 0x10101010 * (offset + width))
                if mstatus is not None:
                    case.set(28, mstatus)
                    case.run(("csrrw", 0, MSTATUS, 28))
                trap = case.attempt(name, 5 if name in named("load") else 7, 0, 6)
                if trap and offset == 1 - width:
                    case.show(MCAUSE, MTVAL, MEPC)
                if name in named("load"):
                    case.reg(5)
                else:
                    shown(case, boundary)


def accesses():
    for name, (entries, boundaries) in SETS.items():
        for mode in MODES:
            case = Returning("pmp", "%s_in_%s" % (name, LETTER[mode].lower()))
            filled(case, boundaries)
            written(case, {0: CODE} | entries)
            case.to(mode)
            loaded_and_stored(case, boundaries)


def under_mprv():
    """From mode M in the previous mode, while the code may be fetched in M alone; without MPRV, that mode is nothing."""
    for name in ("napot_in_tor", "locked_entries_bind_m", "two_entries_side_by_side"):
        entries, boundaries = SETS[name]
        for mode in MODES:
            case = Returning("pmp", "%s_by_m_under_mprv_in_%s" % (name, LETTER[mode].lower()))
            filled(case, boundaries)
            written(case, entries)
            loaded_and_stored(case, boundaries[:3], MPRV | mode << 11)
    case = Returning("pmp", "previous_mode_without_mprv")
    filled(case, [AREA])
    written(case, {3: (NAPOT | R, napot(AREA, 8))})
    for mode in (U, S, M):
        loaded_and_stored(case, [AREA], mode << 11)
    case = Returning("pmp", "mprv_and_fetches")
    # the code is for M alone, and one word behind it for U alone: a fetch goes by the mode of the hart
    written(case, {0: (L | NA4 | R | W, word(AREA)), 1: (NA4 | X, word(AREA + 4))})
    for mprv, mode in [(mprv, mode) for mode in (U, S) for mprv in (0, MPRV)]:
        for address in (AREA, AREA + 4, AREA + 8):
            case.set(28, mprv | mode << 11)
            case.set(6, address)
            case.set(30, case.hart.pc + 8)
            case.run(("csrrw", 0, MSTATUS, 28), ("jalr", 0, 0, 6), None, None, None)
            case.show(MCAUSE, MTVAL, MSTATUS)

def fetched(case, address):
    """Jumps to an address and fetches the word 0 there: cause 2 if the fetch is permitted, else 1."""
    case.set(6, address)
    case.set(30, case.hart.pc + 4)
    case.run(("jalr", 0, 0, 6), None, None, None)
    case.show(MCAUSE, MTVAL, MEPC)


def fetches():
    for name, (entries, boundaries) in SETS.items():
        for mode in MODES:
            case = Returning("pmp", "%s_fetched_in_%s" % (name, LETTER[mode].lower()))
            written(case, {0: CODE} | entries)
            case.to(mode)
            for boundary in boundaries:
                for offset in (-8, -4, 0, 4):
                    fetched(case, boundary + offset)
    for mode in MODES:
        case = Case("pmp", "code_runs_to_a_boundary_in_" + LETTER[mode].lower())
        count = 24  # words of code
        end = START + 4 * count
        cfg = L if mode == M else 0
        case.write(pmpaddr0=word(end), pmpcfg0=TOR | X | cfg)
        if mode == M:
            case.write(pmpaddr2=napot(end, 32), pmpcfg0=(L | NAPOT | R | W) << 16)
        case.write(("mret",), mstatus=mode << 11, mepc=case.hart.pc + 12)
        case.run(*[("addi", 5, 5, 1)] * ((end - case.hart.pc) // 4))
        case.reg(5)
        case.run(None)
        case.show(MEPC, MCAUSE, MTVAL)
    case = Case("pmp", "no_entry_and_no_fetch_below_m")
    for mode in (S, U):
        case.write(("mret",), mtvec=case.hart.pc + 16, mstatus=mode << 11, mepc=case.hart.pc + 16)
        case.run(None)
        case.show(MSTATUS, MEPC, MCAUSE, MTVAL)


def main(arguments):
    for part in (verdicts, operands, stored_forms, locks, bytes_by_their_own_lock, registers_below_m, accesses, under_mprv,
                 fetches):
        part()
    return case_files.main(arguments, Case.all, Case.words, __doc__)


if __name__ == "__main__":
    sys.exit(main(sys.argv[1:]))
