#!/usr/bin/env python3
"""Prints the table of verdicts at the boundaries of a few sets of PMP entries, for crates/rv_machine_tests/src/pmp_tests/verdict_table.rt.

    python3 -m generators.pmp_verdicts > crates/rv_machine_tests/src/pmp_tests/verdict_table.rt && (cd crates/rv_machine_tests && rt fmt)

pmp_entries.py computes each verdict byte by byte.
"""


from models.pmp_entries import NA4, NAPOT, OFF, TOR, Entries, L, R, W, X, napot

KINDS = {"Fetch": "x", "Read": "r", "Write": "w"}

# name, description, the entries {number: (cfg, pmpaddr)}, the boundaries
SETS = [
    ("NAPOT_IN_TOR", "A NAPOT range inside a TOR range of lower priority.",
     {0: (NAPOT | R | W, napot(0x80000100, 256)), 1: (OFF | R | W | X, 0x80000000 >> 2), 2: (TOR | R | X, 0x80000400 >> 2)},
     [0x80000000, 0x80000100, 0x80000200, 0x80000400]),
    ("NA4_AT_BORDER", "Four bytes on either side of the end of a TOR range that begins at 0.",
     {0: (TOR | R, 0x80000200 >> 2), 1: (NA4 | R | W, 0x80000200 >> 2), 2: (NA4 | X, 0x80000204 >> 2)},
     [0x00000004, 0x80000200, 0x80000204, 0x80000208]),
    ("LOCKED", "Locked entries bind M, and an open one of the lowest priority lies under them.",
     {3: (L | NAPOT, napot(0x80000010, 8)), 4: (L | NA4 | R, 0x80000018 >> 2), 6: (L | TOR | R | X, 0x80000040 >> 2),
      5: (OFF, 0x8000001C >> 2), 15: (NAPOT | R | W | X, napot(0x80000000, 0x1000))},
     [0x80000000, 0x80000010, 0x80000018, 0x8000001C, 0x80000040, 0x80001000]),
    ("ALL_ONES", "NAPOT of all ones under TOR ranges with nothing in them.",
     {0: (OFF, 0x80000100 >> 2), 1: (TOR | R | W | X, 0x80000100 >> 2), 2: (L | TOR | R | W | X, 0x80000000 >> 2),
      9: (NAPOT | R | X, 0xFFFFFFFF)},
     [0x00000004, 0x80000000, 0x80000100, 0xFFFFFFFC]),
    ("PAST_THE_TOP", "The last addresses of 32 bits, past which an access may go, and the next 2^32 after them.",
     {12: (TOR | R, 0x3FFFFF00), 13: (NA4 | W | R, 0x3FFFFFFF), 14: (NAPOT | X, 0x5FFFFFFF)},
     [0xFFFFFC00, 0xFFFFFFFC]),
    ("SIDE_BY_SIDE", "A word inside the range of another entry, and a range that begins where that one ends.",
     {0: (NA4 | R, 0x80000104 >> 2), 1: (NAPOT | R | W | X, napot(0x80000000, 0x1000)), 2: (NAPOT | R | W | X, napot(0x80001000, 16))},
     [0x80000104, 0x80001000]),
    ("OVERLAPPING_TORS", "TOR ranges that overlap, one of them with nothing in it, and one that is hidden by a lower entry.",
     {0: (OFF, 0x80000100 >> 2), 1: (TOR | R | W, 0x80000300 >> 2), 2: (TOR | X, 0x80000200 >> 2), 3: (TOR | R | X, 0x80000280 >> 2),
      4: (L | TOR | R | W | X, 0x80000400 >> 2)},
     [0x80000200, 0x80000280, 0x80000300]),
    ("SIXTEEN_APART", "Sixteen entries of four bytes with four bytes between: as many segments as there can be.",
     {i: (NA4 | (R, R | W, X)[i % 3], (0x80000004 + 8 * ((5 * i) % 16)) >> 2) for i in range(16)},
     [0x80000004, 0x80000044, 0x8000007C]),
]


def hexadecimal(number):
    return f"0x{number >> 16:04x}_{number & 0xFFFF:04x}"


def main():
    print("//! Verdicts at the borders of a few sets of entries, worked out byte by byte. Written by tests/generators/pmp_verdicts.py.")
    print()
    print("use super::Expected::{Allowed, AllowedFree, Denied, DeniedFree, DeniedPartial};")
    print("use super::Row;")
    print("use rv_pmp::Access::{Fetch, Read, Write};")
    print("use rv_pmp::Mode::{M, S, U};")
    print("use rv_word::Width::{Byte, Half, Word};")
    turn = 0
    for name, shows, entries, boundaries in SETS:
        written = Entries(entries)
        rows = []
        for boundary in boundaries:
            for offset, width in [(-4, 4), (-3, 4), (-1, 4), (0, 4), (-2, 2), (-1, 2), (0, 2), (-1, 1), (0, 1), (2, 4), (3, 2)]:
                address = boundary + offset
                if not 0 <= address < 1 << 32:
                    continue
                access = list(KINDS)[turn % 3]
                turn += 1
                width_name = {1: "Byte", 2: "Half", 4: "Word"}[width]
                for mode in "US"[turn % 2], "M":
                    verdict, i = written.verdict(mode, KINDS[access], address, width)
                    shown = verdict if i is None else f"{verdict}({i})"
                    rows.append(f"    ({mode}, {access}, {hexadecimal(address)}, {width_name}, {shown}),")
        print()
        print(f"/// {shows} Each entry is its number, cfg byte and pmpaddr.")
        print(f"pub(crate) const {name}_ENTRIES: [(u8, u8, u32); {len(entries)}] = [")
        for i in sorted(entries):
            print(f"    ({i}, 0x{entries[i][0]:02x}, {hexadecimal(entries[i][1])}),")
        print("];")
        print()
        print("/// Accesses, and the verdicts on them.")
        print(f"pub(crate) const {name}: [Row; {len(rows)}] = [")
        print("\n".join(rows))
        print("];")


main()
