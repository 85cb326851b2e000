"""The deviations of QEMU 7.2 that change which accesses are permitted. No prediction covers all of them: a stream ends before such a step.

Sections are those of the Privileged Architecture 20211203. A `choice` is left open by the manual; in the other rows QEMU contradicts it.
"""
from __future__ import annotations

from dataclasses import dataclass
from typing import Callable, List, Tuple

from .actions import Step
from .registers import M, ONES, State, mode_bits

MPRV = 1 << 17

# The ranges of the devices of QEMU's machine. Here nothing is at these addresses.
DEVICES = (range(0x1000, 0x10000), range(0x1000000, 0x1001000), range(0x2000000, 0x2010000))


@dataclass(frozen=True)
class Stop:
    """A deviation that no prediction covers, since it changes which accesses are permitted. A stream ends before the step to which it applies."""

    name: str
    section: str
    text: str
    applies: Callable[[Step], bool]
    is_choice: bool = False


def entries_of(state: State) -> List[Tuple[int, int]]:
    """Returns the matching mode and the address of each PMP entry that is on."""
    kinds = [state["pmpcfg%d" % (number // 4)] >> 8 * (number % 4) + 3 & 3 for number in range(16)]
    return [(kind, state["pmpaddr%d" % number]) for number, kind in enumerate(kinds) if kind]


def tor_to_zero(step: Step) -> bool:
    """Returns whether an entry is TOR with address 0."""
    return (1, 0) in entries_of(step.before)


def high_addresses(step: Step) -> bool:
    """Returns whether an entry has one of the bits 33:32 of an address. If all 32 bits are ones, QEMU matches the same bytes of RAM."""
    return any(address >> 30 and address != ONES for _, address in entries_of(step.before))


def mprv_in_page(step: Step) -> bool:
    """Returns whether M with MPRV accesses the page of the instruction in a lower mode."""
    status, page = step.before["mstatus"], step.before["pc"] >> 12
    is_lower = step.before["mode"] == M and bool(status & MPRV) and mode_bits(status) < M
    return is_lower and step.access is not None and any(address >> 12 == page for address in step.access)


def zicntr(step: Step) -> bool:
    """Returns whether M accesses cycle, time or instret."""
    return step.is_csr and step.csr & ~0x80 in (0xC00, 0xC01, 0xC02) and step.before["mode"] == M


def at_device(step: Step) -> bool:
    """Returns whether the step fetches, loads or stores at an address of a device of QEMU's machine."""
    fetched = range(step.before["pc"], step.before["pc"] + 4)
    return any(address in it for address in (*fetched, *(step.access or ())) for it in DEVICES)


STOPS = [
    Stop("TOR up to 0", "3.7.1", "a TOR entry with address 0 matches all addresses from the preceding address on", tor_to_zero),
    Stop("bits 33:32", "3.7.1", "QEMU ignores bits 33:32 of the addresses of PMP entries", high_addresses),
    Stop("MPRV in the page of pc", "3.1.6.3", "a load or a store in the page of the instruction has the permissions of M", mprv_in_page),
    Stop("Zicntr", "2.2", "M can read cycle, time and instret, and no option of QEMU 7.2 removes them", zicntr, True),
    Stop("devices", "3.6", "a boot ROM, a console and a timer are at 1000, 1000000 and 2000000", at_device, True),
]
