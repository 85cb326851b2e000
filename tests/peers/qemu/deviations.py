"""The deviations of QEMU 7.2 from this machine, as predictions. A prediction gives bits of registers that QEMU shows after a step instead of the
bench's. Any other difference, and any other value, is reported. A deviation therefore explains only its own case.

Sections are those of the Privileged Architecture 20211203. A `choice` is left open by the manual; in the other rows QEMU contradicts it.
"""
from __future__ import annotations

from dataclasses import dataclass
from typing import Callable, Optional, Tuple

from . import manual
from .actions import MRET, SRET, Prediction, Step, is_inhibited, whole
from .registers import COUNTERS, M, MHPMEVENT, NAMES, NUMBERS, ONES, PMPCFG, RAM, RAM_END, S, mode_bits

SIE, MIE, SPIE, MPIE, SPP, VS, MPP, MPRV, SUM, TVM, SD = (2, 8, 0x20, 0x80, 0x100, 0x600, 0x1800, 1 << 17, 1 << 18, 1 << 20, 1 << 31)
SSTATUS = SIE | SPIE | SPP | VS | SUM | 1 << 19 | SD


@dataclass(frozen=True)
class Deviation:
    """A deviation: its name, the section of the manual, and what QEMU does. `predict` gives what QEMU shows after a step, and `manual` what the
    bench must show, so that an error that both have is noticed. `is_choice`: the manual permits both."""

    name: str
    section: str
    text: str
    predict: Callable[[Step], Prediction]
    manual: Callable[[Step], Prediction]
    is_choice: bool = False
    stored: Optional[Callable[[Step, bytes, int], bytes]] = None


def trapped(step: Step, cause: int, value: int) -> Prediction:
    """Predicts a trap in place of what the bench did: no register is written, and no counter counts."""
    before, status = step.before, step.before["mstatus"]
    stacked = status & ~(MPP | MPIE | MIE) | before["mode"] << 11 | (MPIE if status & MIE else 0)
    kept = {name: before[name] for name in before if name.startswith("x") or name in COUNTERS}
    written = NAMES.get(step.csr) if step.is_csr else None
    kept.update({written: before[written]} if written in before else {})
    kept.update(before if step.word in (MRET, SRET) else {})
    return whole(**{**kept, "pc": before["mtvec"] & ~3, "mode": M, "mepc": before["pc"], "mcause": cause, "mtval": value, "mstatus": stacked,
                    "sstatus": stacked & SSTATUS})


def written_to(step: Step, *names: str) -> Optional[int]:
    """Returns the word that an instruction without a trap writes to one of these registers, before the register legalizes it."""
    name = NAMES.get(step.csr) if step.is_csr else None
    if name not in names or not step.writes_csr or step.trap:
        return None
    return step.written(step.before.get(name, 0))


def kept_bits(mask: int, *names: str) -> Callable[[Step], Prediction]:
    """Returns the deviation of registers that keep the bits of a mask as they are written."""
    def predict(step: Step) -> Prediction:
        word = written_to(step, *names)
        return {} if word is None else {NAMES[step.csr]: (mask, word & mask)}
    return predict


def cleared_bits(mask: int, *names: str) -> Callable[[Step], Prediction]:
    """Returns the manual's value of registers in which the bits of a mask read 0."""
    return lambda step: {name: (mask, 0) for name in names if name in step.after}


def status_bits(mask: int) -> Callable[[Step], Prediction]:
    """Returns the deviation of mstatus and sstatus, which keep the bits of a mask as they are written to one of them."""
    def predict(step: Step) -> Prediction:
        word = written_to(step, "mstatus", "sstatus")
        if word is None:
            return {}
        dirty = SD if mask & VS and word & VS == VS else 0
        bits, covered = word & mask | dirty, mask | (SD if mask & VS else 0)
        return {"mstatus": (covered, bits), "sstatus": (covered & SSTATUS, bits & SSTATUS)}
    return predict


def delegation(step: Step) -> Prediction:
    """Predicts the kept bits of medeleg and mideleg, and what sip and sie show by them."""
    word, found = written_to(step, "mideleg"), kept_bits(ONES, "medeleg", "mideleg")(step)
    if word is not None:
        found.update(whole(sip=step.before["mip"] & word & 0x222, sie=step.before["mie"] & word & 0x222))
    return found


def mpp_two(step: Step) -> Prediction:
    """Predicts MPP 2, which is no mode."""
    word = written_to(step, "mstatus")
    return {"mstatus": (MPP, 2 << 11)} if word is not None and mode_bits(word) == 2 else {}


def vector_mode(step: Step) -> Prediction:
    """Predicts that a write of mtvec or stvec with a reserved mode has no effect."""
    word = written_to(step, "mtvec", "stvec")
    name = NAMES.get(step.csr, "")
    return whole(**{name: step.before[name]}) if word is not None and word & 2 else {}


def returned_mprv(step: Step) -> Prediction:
    """Predicts that mret and sret to a mode below M leave MPRV."""
    if step.word in (MRET, SRET) and not step.trap and step.before["mstatus"] & MPRV and step.after["mode"] < M:
        return {"mstatus": (MPRV, MPRV)}
    return {}


def entries_on(step: Step) -> bool:
    """Returns whether a PMP entry is on."""
    return any(step.before["pmpcfg%d" % number] & 0x18181818 for number in range(4))


def return_without_entries(step: Step) -> Prediction:
    """Predicts that mret to a mode below M is illegal while no PMP entry is on."""
    if step.word == MRET and not step.trap and mode_bits(step.before["mstatus"]) != M and not entries_on(step):
        return trapped(step, 2, MRET)
    return {}


def absent_counters(step: Step) -> Prediction:
    """Predicts that mhpmcounter3 to 31 and their upper halves do not exist."""
    is_counter = 0xB03 <= step.csr & ~0x80 <= 0xB1F
    return trapped(step, 2, step.word or 0) if step.is_csr and is_counter and not step.trap else {}


def cycles_of_traps(step: Step) -> Prediction:
    """Predicts that mcycle does not count a step that traps."""
    if not step.trap:
        return {}
    return whole(mcycle=step.before["mcycle"], mcycleh=step.before["mcycleh"])


def short_words(step: Step) -> Prediction:
    """Predicts that mtval has 16 bits of an illegal word whose lowest two bits are not ones."""
    is_short = step.trap is not None and step.trap.cause == 2 and (step.word or 0) & 3 != 3
    return whole(mtval=(step.word or 0) & 0xFFFF) if is_short else {}


def counter_parts(step: Step) -> Tuple[str, str, int]:
    """Returns the names of the halves of the counter that an instruction accesses, and its value before; no names if it accesses none."""
    name = NAMES.get(step.csr, "") if step.is_csr else ""
    if name not in COUNTERS or step.trap:
        return "", "", 0
    low = name[:-1] if name.endswith("h") else name
    return low, low + "h", step.before[low + "h"] << 32 | step.before[low]


def counted_reads(step: Step) -> Prediction:
    """Predicts that an instruction that reads a counter counts itself before, also if it writes what it read."""
    low, high, value = counter_parts(step)
    if not low or is_inhibited(step, low):
        return {}
    ahead = value + 1 & (1 << 64) - 1
    read = ahead >> 32 if step.csr & 0x80 else ahead & ONES
    found = whole(**{"x%d" % step.rd: read}) if step.rd else {}
    if step.writes_csr:
        found.update(whole(**{high if step.csr & 0x80 else low: step.written(read)}))
    return found


def counted_writes(step: Step) -> Prediction:
    """Predicts that the write of the upper half of a counter does not replace the count of the lower half."""
    low, high, value = counter_parts(step)
    if not low or not step.writes_csr or not step.csr & 0x80 or is_inhibited(step, low):
        return {}
    return whole(**{low: value + 1})


def inhibited_at_once(step: Step) -> Prediction:
    """Predicts that mcountinhibit has an effect on the step that writes it."""
    word = written_to(step, "mcountinhibit")
    if word is None:
        return {}
    found: Prediction = {}
    for low, bit in (("mcycle", 1), ("minstret", 4)):
        count = (step.before[low + "h"] << 32 | step.before[low]) + (0 if word & bit else 1)
        found.update(whole(**{low: count, low + "h": count >> 32}))
    return found


def retired_traps(step: Step) -> Prediction:
    """Predicts that ecall, ebreak, a jump to a misaligned target, and a word that is no instruction retire."""
    if step.trap is None or step.trap.cause not in (0, 2, 3, 8, 9, 11):
        return {}
    count = (step.before["minstreth"] << 32 | step.before["minstret"]) + (0 if is_inhibited(step, "minstret") else 1)
    return whole(minstret=count, minstreth=count >> 32)


def carry(step: Step) -> Prediction:
    """Predicts that a counter does not carry to its upper half."""
    found: Prediction = {}
    for low in ("mcycle", "minstret"):
        if step.before[low] == ONES:
            found.update(whole(**{low + "h": step.before[low + "h"]}))
    return found


def lowest_interrupt(step: Step) -> Prediction:
    """Predicts that the pending interrupt with the lowest number is taken."""
    pending, vector = step.before["mip"] & step.before["mie"], step.before["mtvec"]
    if not step.is_interrupt or not pending:
        return {}
    number = (pending & -pending).bit_length() - 1
    return whole(mcause=1 << 31 | number, pc=(vector & ~3) + (4 * number if vector & 1 else 0))


def misaligned_target(step: Step) -> Prediction:
    """Predicts that mtval is the address of a jump with a misaligned target."""
    return whole(mtval=step.before["pc"]) if step.trap and step.trap.cause == 0 else {}


def breakpoint_value(step: Step) -> Prediction:
    """Predicts that mtval of an ebreak is 0."""
    return whole(mtval=0) if step.trap and step.trap.cause == 3 else {}


def completed(step: Step, **changes: int) -> Prediction:
    """Predicts that an instruction is executed in place of a trap: pc goes on, and these registers change."""
    before = step.before
    kept = {name: before[name] for name in ("mode", "mstatus", "sstatus", "mepc", "mcause", "mtval")}
    counted = {"minstret": before["minstret"] + (0 if is_inhibited(step, "minstret") else 1)}
    return whole(**{**kept, **counted, "pc": before["pc"] + 4, **changes})


def satp_with_tvm(step: Step) -> Prediction:
    """Predicts that S reads and writes satp while TVM is set, since QEMU has no MMU here."""
    is_refused = step.is_csr and step.csr == NUMBERS["satp"] and step.before["mode"] == S and step.before["mstatus"] & TVM
    if not is_refused or not step.trap or step.trap.cause != 2:
        return {}
    return completed(step, **({"x%d" % step.rd: 0} if step.rd else {}))


def writes_nothing(step: Step) -> bool:
    """Returns whether M sets or clears no bit of a read-only register by an integer register other than x0."""
    is_change = step.is_csr and step.funct3 in (2, 3) and step.rs1 != 0 and step.value(step.rs1) == 0
    return is_change and 0xF11 <= step.csr <= 0xF15 and step.before["mode"] == M and not step.is_interrupt


def read_of_read_only(step: Step) -> Prediction:
    """Predicts that such an instruction reads the register."""
    if not writes_nothing(step) or not step.trap or step.trap.cause != 2:
        return {}
    return completed(step, **({"x%d" % step.rd: 0} if step.rd else {}))


def misaligned_outside(step: Step) -> Prediction:
    """Predicts that mtval of a misaligned load outside RAM is aligned."""
    access = step.access
    if not step.trap or step.trap.cause != 5 or access is None or RAM <= access.start < RAM_END:
        return {}
    return whole(mtval=access.start & ~(len(access) - 1))


def partly_stored(step: Step, ours: bytes, start: int) -> bytes:
    """Predicts the bytes of a store that begins in RAM and ends outside: those in RAM are written."""
    access = step.access
    if access is None or not RAM <= access.start < RAM_END < access.stop:
        return ours
    data = step.value(step.rs2).to_bytes(4, "little")[:RAM_END - access.start]
    return ours[:access.start - start] + data + ours[access.start - start + len(data):]


def second_page(step: Step) -> Prediction:
    """Predicts that mtval is the first address of the second page, if an access to two pages is refused there."""
    access = step.access
    if not step.trap or step.trap.cause not in (5, 7) or access is None or access.start >> 12 == access.stop - 1 >> 12:
        return {}
    return whole(mtval=(access.stop - 1) >> 12 << 12)


DEVIATIONS = [
    Deviation("SUM", "3.1.6.3", "mstatus and sstatus keep SUM, although satp is read-only zero", status_bits(SUM),
              cleared_bits(SUM, "mstatus", "sstatus")),
    Deviation("VS", "3.1.6.6", "mstatus and sstatus keep VS, and set SD if VS is dirty", status_bits(VS),
              cleared_bits(VS | SD, "mstatus", "sstatus"), True),
    Deviation("MPP 2", "3.1.6.1", "mstatus keeps MPP 2, which is not a mode", mpp_two, manual.mode_of_mpp),
    Deviation("mode of a vector", "3.1.7", "a write of mtvec or stvec with mode 2 or 3 has no effect", vector_mode, manual.vector_bits, True),
    Deviation("low bits of epc", "3.1.14", "mepc and sepc keep bits 1:0", kept_bits(3, "mepc", "sepc"), cleared_bits(3, "mepc", "sepc")),
    Deviation("reserved bits of pmpcfg", "3.7.1", "pmpcfg keeps bits 6:5 of a byte", kept_bits(0x60606060, *PMPCFG),
              cleared_bits(0x60606060, *PMPCFG)),
    Deviation("W without R", "3.7.1", "pmpcfg keeps W = 1 with R = 0", kept_bits(0x02020202, *PMPCFG), manual.no_write_without_read),
    Deviation("mcountinhibit", "3.1.12", "mcountinhibit keeps all written bits, also bit 1", kept_bits(ONES & ~5, "mcountinhibit"),
              cleared_bits(ONES & ~5, "mcountinhibit")),
    Deviation("VS bits of mip and mie", "3.1.9", "mip and mie keep bits 2, 6 and 10 of the absent hypervisor extension, and bit 13",
              kept_bits(0x2444, "mip", "mie"), cleared_bits(0x2444, "mip", "mie")),
    Deviation("delegation", "3.1.8", "medeleg and mideleg keep written bits, and sip and sie show the delegated interrupts", delegation,
              cleared_bits(ONES, "medeleg", "mideleg", "sip", "sie"), True),
    Deviation("counter enables", "3.1.11", "mcounteren and scounteren keep all written bits", kept_bits(ONES, "mcounteren", "scounteren"),
              cleared_bits(ONES, "mcounteren", "scounteren"), True),
    Deviation("environment", "3.1.18", "menvcfg and senvcfg keep written bits", kept_bits(ONES, "menvcfg", "menvcfgh", "senvcfg"),
              cleared_bits(ONES, "menvcfg", "menvcfgh", "senvcfg"), True),
    Deviation("mstatush", "3.1.6", "mstatush keeps MPV and GVA of the absent hypervisor extension", kept_bits(0xC0, "mstatush"),
              cleared_bits(ONES, "mstatush")),
    Deviation("MPRV after mret or sret", "3.1.6.3", "mret and sret to a mode below M leave MPRV set", returned_mprv, manual.mprv_below),
    Deviation("mret without PMP entries", "3.3.2", "mret to a mode below M is illegal while no PMP entry is on", return_without_entries,
              manual.returns),
    Deviation("TVM", "3.1.6.5", "S can access satp although TVM is set", satp_with_tvm, manual.refused_satp),
    Deviation("write of nothing", "Unprivileged 9.1", "csrrs and csrrc of a read-only register are legal if rs1 holds 0", read_of_read_only,
              lambda step: whole(mcause=2) if writes_nothing(step) and not (step.trap and step.trap.cause == 1) else {}),
    Deviation("mhpmcounter", "3.1.10", "mhpmcounter3 to 31 do not exist", absent_counters, manual.zero_counters),
    Deviation("mhpmevent", "3.1.10", "mhpmevent3 to 31 keep written bits", kept_bits(ONES, *MHPMEVENT), cleared_bits(ONES, *MHPMEVENT), True),
    Deviation("counter reads", "3.1.10", "a read of mcycle or minstret counts the reading instruction", counted_reads, manual.counters),
    Deviation("counter writes", "3.1.10", "a write of the upper half of a counter does not replace the count of the lower half", counted_writes,
              manual.counters, True),
    Deviation("counters that stop", "3.1.12", "a write of mcountinhibit already affects the step of the write", inhibited_at_once, manual.counters,
              True),
    Deviation("carry", "3.1.10", "mcycle and minstret do not carry to their upper halves", carry, manual.counters),
    Deviation("mcycle of a trap", "3.1.10", "mcycle does not count a step that traps", cycles_of_traps, manual.counters, True),
    Deviation("instructions that trap retire", "3.3.1", "minstret counts ecall, ebreak, illegal words and jumps to a misaligned target",
              retired_traps, manual.counters),
    Deviation("priority", "3.1.9", "if several interrupts are pending, QEMU takes the interrupt with the lowest number", lowest_interrupt,
              manual.first_interrupt),
    Deviation("misaligned target", "3.1.16", "mtval is the address of the jump, not the target", misaligned_target, manual.trap_value),
    Deviation("mtval of two pages", "3.1.16", "mtval is the first address of the second page of an access to two pages", second_page,
              manual.trap_value),
    Deviation("mtval outside RAM", "3.1.16", "mtval of a misaligned load outside RAM is rounded down", misaligned_outside, manual.trap_value),
    Deviation("mtval of ebreak", "3.1.16", "mtval is 0", breakpoint_value, manual.trap_value, True),
    Deviation("mtval of a short word", "3.1.16", "mtval has 16 bits of an illegal word whose lowest bits are not 11", short_words, manual.trap_value,
              True),
    Deviation("store past RAM", "3.6", "a store that ends outside RAM traps, but writes its bytes inside RAM", lambda step: {}, lambda step: {}, True,
              partly_stored),
]
