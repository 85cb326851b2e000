"""Compares two monitors after one step: everything that S and U can observe."""
from __future__ import annotations

from enum import Enum
from typing import NamedTuple

from rvlook.monitors.rights import Right, closed_outside, rights_of, shape
from rvlook.monitors.sides import BELOW, DECIDING_BITS, EXACT_CSRS, REGISTER_LINES, MonitorSetup, SideState
from rvlook.protocol.memory_map import RAM_BASE
from rvlook.protocol.replies import bytes_of

SHOWN_BYTES = 8  # bytes of memory that a difference shows, from the first different one on
SHOWN_RANGES = 4  # ranges of each monitor that a difference of access rights shows


class DifferenceKind(Enum):
    """What differs."""
    fault = "fault in M"  # the author's monitor does not return
    trap = "trap"  # the trap of the step below M
    mode = "mode"  # the mode after the step
    pc = "pc"  # the pc after the step
    register = "register"  # x1 to x31
    csr = "csr"  # a register of S, or a part of M that affects S
    entry = "PMP entry"  # the stored PMP entry, with --exact
    rights = "access rights"  # the rights that PMP entries give
    memory = "memory"  # the memory of host and enclaves


class MonitorDifference(NamedTuple):
    """One difference of two monitors."""
    kind: DifferenceKind  # what differs
    name: str  # the name, such as `x10` or `sepc`
    own: str  # the value of the author's monitor
    reference: str  # the value of the reference
    place: int | None = None  # number of a register or PMP entry, or an address; None for others


def differences(own: SideState, reference: SideState, setup: MonitorSetup) -> list[MonitorDifference]:
    """Returns all differences except those of memory. A fault in M is returned alone."""
    is_exact = setup.exact
    if own.fault:
        return [MonitorDifference(DifferenceKind.fault, own.fault, "pc %08x" % own.pc, "pc %08x" % reference.pc, own.pc)]
    differences = []
    if own.trap != reference.trap:
        differences.append(MonitorDifference(DifferenceKind.trap, "trap of the step", own.trap, reference.trap))
    if own.mode != reference.mode:
        differences.append(MonitorDifference(DifferenceKind.mode, "mode", own.mode, reference.mode))
    differences += below_differences(own.below, reference.below)
    differences += above_differences(own.above, reference.above, is_exact)
    differences += entry_differences(own.entries, reference.entries) if is_exact else rights_differences(own, reference, setup)
    return differences


def below_differences(own: bytes, reference: bytes) -> list[MonitorDifference]:
    """Returns the differences of x1 to x31, pc and the S-mode registers; pc comes first."""
    if own == reference:
        return []
    pairs = zip(own.decode().splitlines(), reference.decode().splitlines())
    differences = [below_difference(number, *lines) for number, lines in enumerate(pairs) if lines[0] != lines[1]]
    return sorted(differences, key=lambda it: it.kind is not DifferenceKind.pc)


def below_difference(number: int, own: str, reference: str) -> MonitorDifference:
    """Returns the difference of two replies, `NAME=VALUE`. `number` is the index of the reply: x0 to x31, pc, then the registers in BELOW."""
    values = own.partition("=")[2], reference.partition("=")[2]
    if number == REGISTER_LINES - 1:
        return MonitorDifference(DifferenceKind.pc, "pc", *values)
    if number < REGISTER_LINES:
        return MonitorDifference(DifferenceKind.register, "x%d" % number, *values, number)
    return MonitorDifference(DifferenceKind.csr, BELOW[number - REGISTER_LINES], *values, number)


def above_differences(own: tuple[int, ...], reference: tuple[int, ...], is_exact: bool) -> list[MonitorDifference]:
    """Returns the differences of the deciding bits of mstatus, mie and mip, and of mepc, mcause and mtval if they are compared."""
    names = (*DECIDING_BITS, *EXACT_CSRS)[:len(DECIDING_BITS) + (len(EXACT_CSRS) if is_exact else 0)]
    return [MonitorDifference(DifferenceKind.csr, name, "%08x" % one, "%08x" % other)
            for name, one, other in zip(names, own, reference) if one != other]


def entry_differences(own: bytes, reference: bytes) -> list[MonitorDifference]:
    """Returns the PMP entries that differ."""
    pairs = enumerate(zip(own.decode().splitlines(), reference.decode().splitlines()))
    return [MonitorDifference(DifferenceKind.entry, "PMP entry %d" % index, own_line.split(None, 2)[2], reference_line.split(None, 2)[2], index)
            for index, (own_line, reference_line) in pairs if own_line != reference_line]


def rights_differences(own: SideState, reference: SideState, setup: MonitorSetup) -> list[MonitorDifference]:
    """Returns one difference if S and U can access different memory under the two monitors; else an empty list."""
    if own.entries == reference.entries:
        return []
    own_rights, reference_rights = rights_of(own.entries, setup.ram), rights_of(reference.entries, setup.ram)
    if setup.memory:  # the reference closes only the memory below 80010000
        reference_rights = closed_outside(reference_rights, setup.placement.first, setup.placement.end, RAM_BASE + setup.ram)
    if shape(own_rights) == shape(reference_rights):
        return []
    only_own = [right for right in own_rights if shape((right,))[0] not in shape(reference_rights)]
    only_reference = [right for right in reference_rights if shape((right,))[0] not in shape(own_rights)]
    entry = next((right.entry for right in only_own if right.entry is not None), None)  # the first PMP entry that decides a range
    return [MonitorDifference(DifferenceKind.rights, "access rights of S and U", ranges_text(only_own), ranges_text(only_reference), entry)]


def ranges_text(rights: list[Right]) -> str:
    """Returns the first ranges of a list as text."""
    return ", ".join(map(str, rights[:SHOWN_RANGES])) + (", ..." if len(rights) > SHOWN_RANGES else "")


def memory_difference(own: bytes, reference: bytes) -> list[MonitorDifference]:
    """Returns the first difference of memory, from the replies of `mem`."""
    if own == reference:
        return []
    own_row, reference_row = next(lines for lines in zip(own.decode().splitlines(), reference.decode().splitlines()) if lines[0] != lines[1])
    own_bytes, reference_bytes = bytes_of(own_row), bytes_of(reference_row)
    offset = next(n for n in range(len(own_bytes)) if own_bytes[n] != reference_bytes[n])
    address = int(own_row[:8], 16) + offset
    return [MonitorDifference(DifferenceKind.memory, "memory at %08x" % address, own_bytes[offset:offset + SHOWN_BYTES].hex(" "),
                              reference_bytes[offset:offset + SHOWN_BYTES].hex(" "), address)]
