"""The names and numbers of the compared registers. A state is a dictionary from these names, `pc` and `mode` to words."""
from __future__ import annotations

from typing import Dict

State = Dict[str, int]

U, S, M = 0, 1, 3
RAM, RAM_BYTES = 0x80000000, 65536
RAM_END = RAM + RAM_BYTES
ONES = 0xFFFFFFFF
INTEGERS = ["x%d" % number for number in range(1, 32)]
NUMBERS = {
    "sstatus": 0x100, "sie": 0x104, "stvec": 0x105, "scounteren": 0x106, "senvcfg": 0x10A, "sscratch": 0x140, "sepc": 0x141, "scause": 0x142,
    "stval": 0x143, "sip": 0x144, "satp": 0x180, "mstatus": 0x300, "misa": 0x301, "medeleg": 0x302, "mideleg": 0x303, "mie": 0x304,
    "mtvec": 0x305, "mcounteren": 0x306, "menvcfg": 0x30A, "mstatush": 0x310, "menvcfgh": 0x31A, "mcountinhibit": 0x320, "mscratch": 0x340,
    "mepc": 0x341, "mcause": 0x342, "mtval": 0x343, "mip": 0x344, **{"pmpcfg%d" % it: 0x3A0 + it for it in range(4)},
    **{"pmpaddr%d" % it: 0x3B0 + it for it in range(16)}, **{"mhpmevent%d" % it: 0x320 + it for it in range(3, 32)},
    "mcycle": 0xB00, "minstret": 0xB02, "mcycleh": 0xB80, "minstreth": 0xB82, "mvendorid": 0xF11, "marchid": 0xF12, "mimpid": 0xF13,
    "mhartid": 0xF14, "mconfigptr": 0xF15}
NAMES = {number: name for name, number in NUMBERS.items()}
# Compared after each step. The first and the last of the 29 event selectors are enough: each is zero here, and only a write could change one.
COMPARED = [name for name in NUMBERS if not name.startswith("mhpmevent")] + ["mhpmevent3", "mhpmevent31"]
PMPCFG = ("pmpcfg0", "pmpcfg1", "pmpcfg2", "pmpcfg3")
MHPMEVENT = tuple("mhpmevent%d" % number for number in range(3, 32))
COUNTERS = ("mcycle", "minstret", "mcycleh", "minstreth")


def mode_bits(status: int) -> int:
    """Returns MPP of a value of mstatus."""
    return status >> 11 & 3
