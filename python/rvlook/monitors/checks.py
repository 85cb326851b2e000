"""The checks of `guard` at each return from M. Each check returns the first violation of its rule as text, or an empty text."""
from __future__ import annotations

import struct
from dataclasses import dataclass

from rvlook.monitors.guarded import SUPERVISOR, StayInM, HartState
from rvlook.monitors.ownership import HOST, MONITOR, Ownership, OwnedRange
from rvlook.monitors.rights import Right
from rvlook.protocol.memory_map import MONITOR_END
from rvlook.protocol.names import ECALL_FROM_S, TIMER, abi_name
from rvlook.protocol.replies import ROW

SIE, SPIE, SPP, MXR = 2, 0x20, 0x100, 0x80000  # bits of sstatus
MARKED_CSRS = ("sscratch", "sepc", "scause", "stval")
SWITCHING = (ECALL_FROM_S, TIMER)  # causes of traps that may switch worlds on purpose
A0, A7 = 10, 17  # numbers of registers


@dataclass
class LeftWorld:
    """A world that was left, with the marks (random values) that `guard` put into its registers before M ran."""
    state: HartState  # the state before the marks
    registers: dict[int, int]  # the mark of each marked register, by register number
    csrs: dict[str, int]  # the mark of each marked S-mode register, by name
    is_call: bool  # whether the world made a call


@dataclass
class MemoryAndRights:
    """The memory after the range of the monitor, and the rights to it, in one stay in M."""
    before: bytes  # bytes at the entry to M
    after: bytes  # bytes at the return
    rights: tuple[Right, ...] = ()  # the rights of the world that trapped


def may_at(rights: tuple[Right, ...], at: int) -> str:
    """Returns the access that S and U have to the byte at an address, as three letters such as `rw-`; `---` for none."""
    return next((right.may for right in rights if right.first <= at < right.end), "---")


# ---- access

def forbidden_access(ownership: Ownership, world: str, pc: int, rights: tuple[Right, ...], live: set[OwnedRange]) -> str:
    """Checks that a world can access only what it owns or shares. The host may also access ranges of enclaves that are not live."""
    for right in rights:
        for owned in ownership.ranges if right.may != "---" else ():
            is_foreign = owned.owner == MONITOR or owned in live and owned.owner != world and world not in owned.sharers
            if is_foreign and owned.overlaps(right):
                return "%s at %08x may access %s %08x-%08x, which belongs to %s" % (
                    world, pc, right.may, max(right.first, owned.first), min(right.end, owned.end) - 1, owned.owner)
        if world != HOST and right.may != "---":
            permitted = [permission for permission in ownership.open_to(world) if not set(right.may) - set(permission.may) - {"-"}]
            if not is_covered(right.first, right.end, permitted):
                return "%s at %08x may access %s %08x-%08x, which is neither its own nor shared with it" % (
                    world, pc, right.may, right.first, right.end - 1)
    return ""


def missing_access(ownership: Ownership, world: str, pc: int, rights: tuple[Right, ...], live: set[OwnedRange]) -> str:
    """Checks that a world can access all that it owns or shares, except for bytes in live ranges of other owners."""
    for owned in ownership.open_to(world):
        for right in rights:
            missing = set(owned.may) - set(right.may) - {"-"}
            first, end = max(owned.first, right.first), min(owned.end, right.end)
            if missing and first < end and not is_covered(first, end, [range_ for range_ in live if range_.owner != world]):
                return "%s at %08x may access only %s %08x-%08x, of which it has %s" % (world, pc, right.may, first, end - 1, owned.may)
    return ""


def is_covered(first: int, end: int, covering: list[OwnedRange]) -> bool:
    """Returns whether the ranges in `covering` together have each byte from `first` up to before `end`."""
    covered_end = first
    while covered_end < end:
        next_end = max((range_.end for range_ in covering if range_.has(covered_end)), default=covered_end)
        if next_end == covered_end:  # no range has this byte
            return False
        covered_end = next_end
    return True


# ---- registers

def visible_mark(ownership: Ownership, left_name: str, left_world: LeftWorld, world: str, state: HartState) -> str:
    """Checks that another world sees no mark of the world that was left, except in the registers that pass values at a call."""
    name_of_mark = {mark: abi_name(number) for number, mark in left_world.registers.items()}
    name_of_mark.update({mark: name for name, mark in left_world.csrs.items() if name in MARKED_CSRS})
    visible = [(abi_name(number), value) for number, value in enumerate(state.registers) if not (left_world.is_call and number in ownership.hands)]
    visible += [(name, state.csrs[name]) for name in SUPERVISOR]
    for name, value in visible:
        if value in name_of_mark:
            return "%s at %08x has in %s what %s had in %s, %08x" % (world, state.pc, name, left_name, name_of_mark[value], value)
    return ""


def leftover(left_name: str, left_world: LeftWorld, world: str, state: HartState) -> str:
    """Checks that a world that is entered for the first time has neither stvec nor marked sstatus bits of the world that was left."""
    left_stvec = left_world.state.csrs["stvec"]
    if left_stvec and state.csrs["stvec"] == left_stvec:
        return "%s is entered at %08x with stvec of %s, %08x" % (world, state.pc, left_name, left_stvec)
    common_bits = state.csrs["sstatus"] & left_world.csrs.get("sstatus", 0)
    return "%s is entered at %08x with bits of sstatus of %s, %08x" % (world, state.pc, left_name, common_bits) if common_bits else ""


def changed_context(ownership: Ownership, world: str, left_world: LeftWorld, state: HartState) -> str:
    """Checks that a world continues with its registers, pc and mode, except for the registers that pass values at a call."""
    before = left_world.state
    pc = before.pc + 4 if left_world.is_call else before.pc  # a call continues after its ecall
    if (state.pc, state.mode) != (pc & 0xFFFFFFFF, before.mode):
        return "%s continues at %08x in %s, not at %08x in %s" % (world, state.pc, state.mode, pc, before.mode)
    for number in range(1, 32):
        expected = left_world.registers.get(number, before.registers[number])
        if state.registers[number] != expected and not (left_world.is_call and number in ownership.hands):
            return "%s continues at %08x with %s %08x, not %08x" % (world, state.pc, abi_name(number), state.registers[number], expected)
    for name in SUPERVISOR:
        expected = left_world.csrs.get(name, before.csrs[name])
        if state.csrs[name] != expected:
            return "%s continues at %08x with %s %08x, not %08x" % (world, state.pc, name, state.csrs[name], expected)
    return ""


def is_redirect(stay: StayInM) -> bool:
    """Returns whether M redirected the trap to S of the same world: whether it returns to the address in stvec."""
    return stay.exit.pc == stay.exit.csrs["stvec"] & ~3


def redirected_status(status: int, mode: str) -> int:
    """Returns sstatus as a trap to S leaves it: SIE goes to SPIE, and the mode to SPP. `status` and `mode` are those at the exception."""
    return status & MXR | (SPIE if status & SIE else 0) | (SPP if mode == "S" else 0)


def wrong_redirect(world: str, left_world: LeftWorld, stay: StayInM, tval: int) -> str:
    """Checks that a redirected exception changes only what a trap to S changes (Privileged 20211203, 4.1.1). `tval` is mtval at the trap."""
    before, after = left_world.state, stay.exit
    if after.mode != "S":
        return "an exception of %s at %08x is redirected to %s, not to S" % (world, before.pc, after.mode)
    expected = {"sepc": before.pc, "scause": int(stay.cause, 16), "stval": tval, "sscratch": left_world.csrs["sscratch"],
                "stvec": before.csrs["stvec"], "sstatus": redirected_status(left_world.csrs["sstatus"], before.mode)}
    for name, value in expected.items():
        if after.csrs[name] != value:
            return "an exception of %s at %08x is redirected with %s %08x, not %08x" % (world, before.pc, name, after.csrs[name], value)
    for number in range(1, 32):
        value = left_world.registers.get(number, before.registers[number])
        if after.registers[number] != value:
            return "an exception of %s at %08x changes %s from %08x to %08x" % (world, before.pc, abi_name(number), value, after.registers[number])
    return ""


def wrong_emulation(world: str, left_world: LeftWorld, stay: StayInM) -> str:
    """Checks that an exception that M handles itself changes at most one register, the result of the instruction."""
    changed = [n for n in range(1, 32) if stay.exit.registers[n] != left_world.registers.get(n, left_world.state.registers[n])]
    if len(changed) > 1:
        return "an exception of %s at %08x, which M handles, changes %s" % (world, left_world.state.pc, ", ".join(map(abi_name, changed)))
    return ""


# ---- memory

def changed_bytes(ownership: Ownership, world: str, memory: MemoryAndRights) -> str:
    """Checks that M changes only its own memory, memory to which the world that trapped may store, and bytes of an enclave that it zeroes."""
    if memory.before == memory.after:
        return ""
    for offset in range(0, len(memory.before), ROW):  # compares rows, which is faster than comparing bytes
        if memory.before[offset:offset + ROW] != memory.after[offset:offset + ROW]:
            violation = changed_row(ownership, world, memory, offset)
            if violation:
                return violation
    return ""


def changed_row(ownership: Ownership, world: str, memory: MemoryAndRights, row_offset: int) -> str:
    """Makes the check of `changed_bytes` for the row of ROW bytes whose first byte is `row_offset` bytes after MONITOR_END."""
    for byte_offset in range(row_offset, row_offset + ROW):
        address, value = MONITOR_END + byte_offset, memory.after[byte_offset]
        owner = ownership.owner_of(address)
        if memory.before[byte_offset] != value and owner != MONITOR and "w" not in may_at(memory.rights, address):
            is_clearing = not value and owner not in (HOST, None)  # whether the monitor clears an enclave that it destroys
            if not is_clearing:
                return "M changes %08x of %s from %02x to %02x, which %s may not store to" % (
                    address, owner or "nobody", memory.before[byte_offset], value, world)
    return ""


def zeroed_range(live_ranges: list[OwnedRange], memory: MemoryAndRights) -> str:
    """Checks that M changes no byte of a range that stays live, unless the world that trapped may store there. `live_ranges` stay live."""
    for live_range in live_ranges:
        first, end = live_range.first - MONITOR_END, live_range.end - MONITOR_END
        before, after = memory.before[first:end], memory.after[first:end]
        offset = next((n for n in range(len(before)) if before[n] != after[n]), None) if before != after else None
        if offset is not None and "w" not in may_at(memory.rights, live_range.first + offset):
            return "M changes %08x of %s from %02x to %02x, and %s stays closed" % (
                live_range.first + offset, live_range.owner, before[offset], after[offset], live_range)
    return ""


def marks_in_memory(ownership: Ownership, left_name: str, left_world: LeftWorld, memory: bytes) -> str:
    """Checks that each mark of the world that was left is only in memory of that world or of the monitor."""
    name_of_bytes = {struct.pack("<I", value): abi_name(number) for number, value in left_world.registers.items()}
    name_of_bytes.update({struct.pack("<I", value): name for name, value in left_world.csrs.items() if name in MARKED_CSRS})
    for data, name in name_of_bytes.items():
        offset = memory.find(data)
        while offset >= 0:
            if ownership.owner_of(MONITOR_END + offset) not in (left_name, MONITOR):
                return "memory at %08x has what %s had in %s, %08x" % (MONITOR_END + offset, left_name, name, struct.unpack("<I", data)[0])
            offset = memory.find(data, offset + 1)
    return ""


def not_zeroed(owned: OwnedRange, memory: bytes, rights: tuple[Right, ...]) -> str:
    """Checks that a range of an enclave is all zeros, and that `rights` open all of it, when the host gets it back."""
    data = memory[owned.first - MONITOR_END:owned.end - MONITOR_END]
    if any(data):
        at = owned.first + next(n for n, byte in enumerate(data) if byte)
        return "%s may access %s of %s, which is not zeroed: byte %08x is %02x" % (HOST, owned, owned.owner, at, data[at - owned.first])
    closed_right = next((right for right in rights if right.may == "---" and owned.overlaps(right)), None)
    return "%s may access only a part of %s of %s" % (HOST, owned, owned.owner) if closed_right else ""


def closed_ranges(ownership: Ownership, rights: tuple[Right, ...]) -> list[OwnedRange]:
    """Returns the ranges of enclaves in which `rights` permit no access to any byte."""
    return [range_ for range_ in ownership.private() if not any(right.may != "---" and range_.overlaps(right) for right in rights)]
