"""Names for numbers: ABI registers, causes of traps, and calls and statuses of the monitor."""
from __future__ import annotations

import re
from enum import IntEnum
from typing import Sequence

ABI = ("zero ra sp gp tp t0 t1 t2 s0 s1 a0 a1 a2 a3 a4 a5 a6 a7 s2 s3 s4 s5 s6 s7 s8 s9 s10 s11 t3 t4 t5 t6").split()
NUMBER_OF = {name: number for number, name in enumerate(ABI)}
NUMBER_OF.update({"fp": 8}, **{"x%d" % number: number for number in range(32)})
LAST_SLOT = 12  # the number of the last slot for an enclave
KEY = 0x0A454E43  # a7 of each call of the monitor
REGISTER = re.compile(r"\bx(\d+)\b")
TIMER = "80000007"  # mcause of the timer interrupt of M
ECALL_FROM_S = "00000009"  # mcause, as also below
FETCH_FAULTS = ("00000001",)
ACCESS_FAULTS = ("00000005", "00000007")
ILLEGAL = "00000002"
MARKS = {"4348000b": "failed check", "4153000b": "failed assumption"}  # instructions of examples/shared/enclave_check.h, which are illegal
CAUSES = {"00000000": "fetch target misaligned", "00000001": "fetch access fault", "00000002": "illegal instruction", "00000003": "ebreak",
          "00000005": "load access fault", "00000007": "store access fault", "00000008": "ecall from U", "00000009": "ecall from S",
          "0000000b": "ecall from M", "80000001": "software interrupt of S", "80000003": "software interrupt of M",
          "80000005": "timer interrupt of S", "80000007": "timer interrupt", "80000009": "external interrupt of S",
          "8000000b": "external interrupt of M"}


class Call(IntEnum):
    """The calls of the monitor, by a6."""
    create = 1  # creates an enclave
    destroy = 2  # ends an enclave and clears its region
    run = 3  # enters an enclave for the first time
    resume = 4  # enters a stopped enclave again
    measure = 5  # stores the measurement of an enclave
    stop = 6  # a stop of an enclave, which can be resumed
    exit = 7  # an exit of an enclave, which has ended


NUMBERED = {call.value: call for call in Call}
ARGUMENTS = {Call.create: ("base", "size", "window", "window_size", "entry"), Call.destroy: ("slot",), Call.run: ("slot",),
             Call.resume: ("slot",), Call.measure: ("slot", "address"), Call.stop: ("value",), Call.exit: ("value",)}
STATUSES = {0xFFFFFFFF: "NotSupported", 0xFFFFFFFE: "BadRegion", 0xFFFFFFFD: "BadWindow", 0xFFFFFFFC: "Overlap", 0xFFFFFFFB: "BadEntry",
            0xFFFFFFFA: "NoSlot", 0xFFFFFFF9: "NoEnclave", 0xFFFFFFF8: "BadState", 0xFFFFFFF7: "BadAddress"}
CSRS = {"sstatus": 0x100, "sie": 0x104, "stvec": 0x105, "scounteren": 0x106, "senvcfg": 0x10A, "sscratch": 0x140, "sepc": 0x141,
        "scause": 0x142, "stval": 0x143, "sip": 0x144, "satp": 0x180, "mstatus": 0x300, "misa": 0x301, "medeleg": 0x302,
        "mideleg": 0x303, "mie": 0x304, "mtvec": 0x305, "mcounteren": 0x306, "menvcfg": 0x30A, "mstatush": 0x310, "menvcfgh": 0x31A,
        "mcountinhibit": 0x320, "mscratch": 0x340, "mepc": 0x341, "mcause": 0x342, "mtval": 0x343, "mip": 0x344, "mcycle": 0xB00,
        "minstret": 0xB02, "mcycleh": 0xB80, "minstreth": 0xB82, "mvendorid": 0xF11, "marchid": 0xF12, "mimpid": 0xF13,
        "mhartid": 0xF14, "mconfigptr": 0xF15, **{"pmpcfg%d" % n: 0x3A0 + n for n in range(4)}, **{"pmpaddr%d" % n: 0x3B0 + n for n in range(16)}}
CSR_NAMES = {number: name for name, number in CSRS.items()}
CSR_OPERAND = re.compile(r"(?<=, )0x([0-9a-f]+)(?=, )")  # finds the number of a csr in the text of an instruction on it


def abi_name(number: int) -> str:
    """Returns the ABI name of a register."""
    return ABI[number]


def with_abi_names(text: str) -> str:
    """Returns the text of an instruction with ABI names, and with the names of control and status registers."""
    text = REGISTER.sub(lambda match: ABI[int(match[1])], text)
    if text.startswith("csr"):
        return CSR_OPERAND.sub(lambda match: CSR_NAMES.get(int(match[1], 16), match[0]), text)
    return text


def trap_name(cause: str, value: str) -> str:
    """Returns the name of a trap, or of the mark of enclave_check.h that trapped."""
    return MARKS.get(value, cause_name(cause)) if cause == ILLEGAL else cause_name(cause)


def cause_name(cause: str) -> str:
    """Returns the name of a trap."""
    return CAUSES.get(cause, "cause " + cause)


def call_of(registers: Sequence[int]) -> Call | None:
    """Returns the call of the monitor that an ecall with these registers makes, or None."""
    return NUMBERED.get(registers[16]) if registers[17] == KEY else None


def size_text(size: int) -> str:
    """Returns a number of bytes in the largest unit that divides it."""
    for unit, name in ((1 << 20, "M"), (1 << 10, "K")):
        if size and size % unit == 0:
            return "%d%s" % (size // unit, name)
    return str(size)
