"""A case for each deviation of QEMU: actions from reset on. The deviation shows after the last one."""
from __future__ import annotations

from typing import Dict, List

from .actions import Action, instruction
from .registers import NUMBERS, ONES, RAM, RAM_END, S

MIE, MPRV, SUM, TVM = 8, 1 << 17, 1 << 18, 1 << 20
HANDLER = RAM + 0x400
NOP = instruction("addi", 0, 0, 0)
ECALL, EBREAK, MRET = instruction("ecall"), instruction("ebreak"), instruction("mret")


def write(name: str, value: int) -> Action:
    """Returns the write of a control and status register, by x31."""
    return instruction("csrrw", 0, NUMBERS[name], 31, registers={31: value})


def read(number: int) -> Action:
    """Returns the read of a control and status register to x1."""
    return instruction("csrrs", 1, number, 0)


def access(name: str, address: int) -> Action:
    """Returns a load or a store of x5 at an address."""
    return instruction(name, 5, 0, 6, registers={5: 0x11223344, 6: address})


VECTOR = write("mtvec", HANDLER)
OPEN = [write("pmpaddr15", ONES), write("pmpcfg3", 0x1F000000)]


def below(status: int = 0) -> List[Action]:
    """Returns the actions that enter S with these bits of mstatus."""
    return [write("mepc", RAM + 0x100), write("mstatus", S << 11 | status), MRET]


CASES: Dict[str, List[Action]] = {
    "SUM": [write("mstatus", SUM)],
    "VS": [write("sstatus", 0x600)],
    "MPP 2": [write("mstatus", 2 << 11)],
    "mode of a vector": [write("stvec", HANDLER | 2)],
    "low bits of epc": [write("mepc", 3)],
    "reserved bits of pmpcfg": [write("pmpcfg0", 0x60)],
    "W without R": [write("pmpcfg1", 0x200)],
    "mcountinhibit": [write("mcountinhibit", 2)],
    "VS bits of mip and mie": [write("mip", 4)],
    "delegation": [write("mideleg", 0x222)],
    "counter enables": [write("mcounteren", 1)],
    "environment": [write("menvcfg", 1)],
    "MPRV after mret or sret": [*OPEN, *below(MPRV)],
    "mret without PMP entries": below(),
    "write of nothing": [VECTOR, instruction("csrrs", 1, 0xF14, 2)],
    "mhpmcounter": [VECTOR, read(0xB03)],
    "mhpmevent": [write("mhpmevent7", 1)],
    "counter reads": [read(NUMBERS["mcycle"])],
    "counter writes": [write("minstreth", 5)],
    "counters that stop": [write("mcountinhibit", 5)],
    "instructions that trap retire": [VECTOR, ECALL],
    "misaligned target": [VECTOR, instruction("jal", 1, 6)],
    "mtval of two pages": [VECTOR, access("lw", RAM_END - 2)],
    "mtval outside RAM": [VECTOR, access("lw", 0x90000001)],
    "store past RAM": [VECTOR, access("sw", RAM_END - 2)],
    "TVM": [VECTOR, *OPEN, *below(TVM), read(NUMBERS["satp"])],
    "mstatush": [write("mstatush", 0x40)],
    "priority": [VECTOR, write("mip", 0x222), write("mie", 0xAAA), write("mstatus", MIE), NOP],
    "carry": [write("mcycle", ONES), NOP],
    "mtval of ebreak": [VECTOR, EBREAK],
    "mcycle of a trap": [VECTOR, read(0x7FF)],
    "mtval of a short word": [VECTOR, instruction(".word", 0x12345678)],
    # The last action is the one that a stop refuses.
    "TOR up to 0": [VECTOR, *OPEN, write("pmpcfg0", 0x8), *below(), NOP],
    "bits 33:32": [VECTOR, write("pmpaddr0", (1 << 30) + (RAM >> 2) + 0x100), write("pmpaddr1", (1 << 30) + (RAM >> 2) + 0x200),
                   write("pmpcfg0", 0x0800), *OPEN, *below(), access("lw", RAM + 0x500)],
    "MPRV in the page of pc": [VECTOR, write("pmpaddr0", ONES), write("pmpcfg0", 0x18), write("mstatus", MPRV | S << 11), access("lw", RAM + 0x40)],
    "Zicntr": [VECTOR, read(0xC00)],
    "devices": [VECTOR, access("lw", 0x1000)],
}
