"""The values that the manual, or a choice of docs/ISA.md, requires of the bench in the steps in which QEMU deviates. Each function gives bits of
registers after a step. Independent of the code under test. Sections are those of the Privileged Architecture 20211203.
"""
from __future__ import annotations

from .actions import LOAD_OPCODE, MRET, STORE_OPCODE, Prediction, Step, is_inhibited, whole
from .registers import COUNTERS, M, NAMES, NUMBERS, ONES, S, mode_bits

MPP, MPRV, TVM = 3 << 11, 1 << 17, 1 << 20
JAL, JALR, BRANCH = 0x6F, 0x67, 0x63
PRIORITY = (11, 3, 7, 9, 1, 5)


def mode_of_mpp(step: Step) -> Prediction:
    """Requires that MPP is a mode: 2 is stored as 0 (3.1.6.1, ISA.md)."""
    name = NAMES.get(step.csr) if step.is_csr else None
    if name == "mstatus" and step.writes_csr and not step.trap and mode_bits(step.written(step.before["mstatus"])) == 2:
        return {"mstatus": (MPP, 0)}
    return {}


def vector_bits(step: Step) -> Prediction:
    """Requires that a vector keeps all bits but bit 1 (3.1.7, ISA.md)."""
    name = NAMES.get(step.csr, "") if step.is_csr else ""
    if name not in ("mtvec", "stvec") or not step.writes_csr or step.trap:
        return {"mtvec": (2, 0), "stvec": (2, 0)}
    return whole(**{name: step.written(step.before[name]) & ~2})


def no_write_without_read(step: Step) -> Prediction:
    """Requires that no cfg byte has W = 1 and R = 0 (3.7.1)."""
    return {"pmpcfg%d" % it: ((~step.after["pmpcfg%d" % it] & 0x01010101) << 1, 0) for it in range(4)}


def mprv_below(step: Step) -> Prediction:
    """Requires that MPRV is 0 below M (3.1.6.3)."""
    return {"mstatus": (MPRV, 0)} if step.after["mode"] < M else {}


def returns(step: Step) -> Prediction:
    """Requires that mret in M goes to mepc in the mode of MPP (3.3.2)."""
    if step.word != MRET or step.before["mode"] != M or step.is_interrupt or step.trap and step.trap.cause == 1:
        return {}
    return whole(pc=step.before["mepc"], mode=mode_bits(step.before["mstatus"]))


def refused_satp(step: Step) -> Prediction:
    """Requires that S does not access satp while TVM is set (3.1.6.5)."""
    is_access = step.is_csr and step.csr == NUMBERS["satp"] and step.before["mode"] == S and step.before["mstatus"] & TVM
    if not is_access or step.is_interrupt or step.trap and step.trap.cause == 1:
        return {}
    return whole(mcause=2, mode=M)


def zero_counters(step: Step) -> Prediction:
    """Requires that M reads 0 from mhpmcounter3 to 31 and their upper halves (3.1.10)."""
    is_access = step.is_csr and 0xB03 <= step.csr & ~0x80 <= 0xB1F and step.before["mode"] == M
    if not is_access or step.is_interrupt or step.trap and step.trap.cause == 1:
        return {}
    return whole(pc=step.before["pc"] + 4, **({"x%d" % step.rd: 0} if step.rd else {}))


def counters(step: Step) -> Prediction:
    """Requires the values of the counters: mcycle counts steps, and minstret instructions that do not trap (3.1.10, 3.1.12, 3.3.1). A write of a half
    replaces the count. An instruction reads a counter as it was before the step."""
    found: Prediction = {}
    name = NAMES.get(step.csr, "") if step.is_csr and not step.trap else ""
    for low, counts in (("mcycle", True), ("minstret", step.trap is None)):
        value = step.before[low + "h"] << 32 | step.before[low]
        if name in (low, low + "h") and step.writes_csr:
            word = step.written(step.before[name])
            value = value & ONES | word << 32 if name == low + "h" else value & ONES << 32 | word
        elif counts and not is_inhibited(step, low):
            value += 1
        found.update(whole(**{low: value, low + "h": value >> 32}))
    if name in COUNTERS and step.rd:
        found.update(whole(**{"x%d" % step.rd: step.before[name]}))
    return found


def first_interrupt(step: Step) -> Prediction:
    """Requires that the interrupt that is taken is the first in the order of 3.1.9."""
    pending = step.before["mip"] & step.before["mie"]
    first = next((number for number in PRIORITY if pending >> number & 1), None)
    return whole(mcause=1 << 31 | first) if step.is_interrupt and first is not None else {}


def target(step: Step) -> int:
    """Returns the target of a jump or a branch (Unprivileged ISA, section 2.5)."""
    word, pc = step.word or 0, step.before["pc"]
    sign = word >> 31
    if step.opcode == JALR:
        return step.value(step.rs1) + (word >> 20) - (sign << 12) & ONES & ~1
    if step.opcode == JAL:
        return pc + (word >> 21 & 0x3FF) * 2 + (word >> 20 & 1) * 0x800 + (word >> 12 & 0xFF) * 0x1000 - (sign << 20) & ONES
    return pc + (word >> 8 & 0xF) * 2 + (word >> 25 & 0x3F) * 32 + (word >> 7 & 1) * 0x800 - (sign << 12) & ONES


def trap_value(step: Step) -> Prediction:
    """Requires mtval of an exception: a target, an address, the word, or pc (3.1.16, ISA.md)."""
    if step.trap is None:
        return {}
    if step.trap.cause == 0 and step.opcode in (JAL, JALR, BRANCH):
        return whole(mtval=target(step))
    if step.trap.cause in (5, 7) and step.access is not None and step.opcode in (LOAD_OPCODE, STORE_OPCODE):
        return whole(mtval=step.access.start)
    return whole(mtval={2: step.word or 0, 3: step.before["pc"]}[step.trap.cause]) if step.trap.cause in (2, 3) else {}
