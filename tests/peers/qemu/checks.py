"""Directed checks: short lists of actions from reset on, for which QEMU and the bench agree, apart from the deviations."""
from __future__ import annotations

from typing import Dict, List

from .actions import Action, instruction
from .cases import EBREAK, ECALL, MIE, MPRV, MRET, NOP, OPEN, TVM, VECTOR, access, below, read, write
from .registers import NUMBERS, ONES, RAM, S

HANDLER = RAM + 0x400
DATA = RAM + 0x8000
TW, TSR, SPP, SPIE, MPIE = 1 << 21, 1 << 22, 0x100, 0x20, 0x80
WFI, SRET = instruction("wfi"), instruction("sret")
LOCKED, TOR, NA4, NAPOT, ALL = 0x80, 0x08, 0x10, 0x18, 0x07


def in_s(*actions: Action, status: int = 0) -> List[Action]:
    """Returns actions in S, after a return from M with these bits of mstatus."""
    return [VECTOR, *OPEN, *below(status), *actions]


def in_u(*actions: Action) -> List[Action]:
    """Returns actions in U."""
    return [VECTOR, *OPEN, write("mepc", RAM + 0x100), write("mstatus", 0), MRET, *actions]


def around(cfg: int, *addresses: int) -> List[Action]:
    """Returns loads around DATA in M, under a locked entry 0 without permissions."""
    return [VECTOR, write("pmpaddr0", addresses[0]), write("pmpcfg0", LOCKED | cfg),
            *(access("lw", DATA + at) for at in (-8, -4, 0, 4, 8, 12, 16, 28, 32))]


def over(name: str, *pairs: "tuple[int, int]") -> List[Action]:
    """Returns an instruction on pairs of values."""
    return [instruction(name, 5, 6, 7, registers={6: left, 7: right}) for left, right in pairs]


def both(name: str, value: int) -> List[Action]:
    """Returns a write of a register, and a read."""
    return [write(name, value), read(NUMBERS[name])]


QUOTIENTS = ((7, 0), (0x80000000, 0), (0x80000000, ONES), (ONES - 6, 2), (7, ONES - 1))
PRODUCTS = ((ONES, ONES), (0x80000000, ONES), (3, 0x80000000), (0x80000000, 0x80000000))
CHECKS: Dict[str, List[Action]] = {
    "quotients": [it for name in ("div", "divu", "rem", "remu") for it in over(name, *QUOTIENTS)],
    "products": [it for name in ("mul", "mulh", "mulhsu", "mulhu") for it in over(name, *PRODUCTS)],
    "shifts": [it for name in ("sll", "srl", "sra") for it in over(name, (0x80000001, 4), (0x7FFFFFFF, 31), (ONES, 32))],
    "wfi with TW": in_s(WFI, status=TW),
    "sret with TSR": in_s(SRET, status=TSR),
    "sfence.vma with TVM": in_s(instruction("sfence.vma", 0, 0), status=TVM),
    "wfi, sret and mret in U": in_u(WFI, MRET, SRET),
    "sret": [VECTOR, *OPEN, write("sepc", RAM + 0x200), write("mstatus", SPP | SPIE | MPRV), SRET, NOP, ECALL],
    "mret to M": [VECTOR, write("mepc", RAM + 0x200), write("mstatus", 0x1800 | MPIE | MPRV), MRET, NOP],
    "ecall of S": in_s(ECALL),
    "ecall of U": in_u(ECALL),
    "ebreak in S": in_s(EBREAK),
    "trap with MIE": [VECTOR, write("mstatus", MIE), ECALL, NOP],
    "interrupt in S": [VECTOR, *OPEN, write("mie", 0x80), *below(), NOP],
    "interrupt in M with MIE clear": [VECTOR, write("mie", 0x80), NOP, NOP],
    "vectored interrupt": [write("mtvec", HANDLER | 1), write("mie", 0x80), write("mstatus", MIE), NOP],
    "vectored exception": [write("mtvec", HANDLER | 1), ECALL],
    "SSI and STI": [VECTOR, write("mip", 0x22), write("mie", 0x22), write("mstatus", MIE), NOP],
    "SEI": [VECTOR, write("mip", 0x200), write("mie", 0x200), write("mstatus", MIE), NOP],
    "MPRV": [VECTOR, write("pmpaddr0", ONES), write("pmpcfg0", NAPOT), write("mstatus", MPRV | S << 11), access("lw", DATA)],
    "NA4": around(NA4, DATA >> 2),
    "NAPOT of 8 bytes": around(NAPOT, DATA >> 2),
    "NAPOT of 32 bytes": around(NAPOT, DATA >> 2 | 3),
    "TOR": [VECTOR, write("pmpaddr0", DATA >> 2), write("pmpaddr1", DATA + 16 >> 2), write("pmpcfg0", (LOCKED | TOR) << 8),
            *(access("lw", DATA + at) for at in (-4, 0, 12, 16, 14))],
    "lower bound of a locked TOR entry": [write("pmpaddr0", DATA >> 2), write("pmpaddr1", DATA + 16 >> 2),
                                          write("pmpcfg0", (LOCKED | TOR | ALL) << 8), write("pmpaddr0", RAM >> 2), write("pmpaddr1", RAM >> 2)],
    "no match in S": [VECTOR, write("pmpaddr0", RAM >> 2 | 0x1FF), write("pmpcfg0", NAPOT | ALL), *below(), access("lw", DATA), NOP],
    "read-only register": [VECTOR, instruction("csrrw", 1, 0xF14, 2), instruction("csrrs", 1, 0xF14, 0)],
    "registers of S in U": in_u(read(NUMBERS["sscratch"])),
    "registers of M in S": in_s(read(NUMBERS["mscratch"])),
    "status": [*both("mstatus", ONES), *both("sstatus", ONES), *both("sstatus", 0), *both("mstatus", 0)],
    "interrupt bits": [*both("mie", ONES), *both("mip", ONES)],
    "plain registers": [it for name in ("sscratch", "scause", "stval", "mscratch", "mcause", "mtval", "pmpaddr15") for it in both(name, 0x80000005)],
    "vectors and addresses": [it for name in ("mtvec", "stvec", "mepc", "sepc") for it in both(name, HANDLER | 1)],
    "misa": [read(NUMBERS["misa"]), write("misa", 0), read(NUMBERS["misa"])],
    "counters": [VECTOR, write("mcycle", 5), NOP, write("mcycleh", 3), NOP, write("minstret", 9), NOP, write("minstreth", 2), NOP, read(0x7FF), NOP],
    "event counters": [VECTOR, *(read(number) for number in (0xB03, 0xB1F, 0xB83, 0xB9F, 0x323, 0x33F))],
}
