"""The memory of host and enclaves in a comparison. The scripts are written for a host at 80010000, and are moved for a monitor that needs
another place or more memory than that below 80010000."""
from __future__ import annotations

import re
from typing import NamedTuple

from rvlook.errors import UsageError
from rvlook.monitors.items import Item
from rvlook.protocol.memory_map import MONITOR_END, RAM_BASE
from rvlook.protocol.replies import Enclave

STEP = 0x10000  # bytes; the first byte and the end of a placement are multiples of it
ADDRESS = re.compile(r"\b[0-9a-f]{8}\b")  # finds the addresses in the text of an item
RANGE = re.compile(r"([0-9a-f]{1,8})-([0-9a-f]{1,8})\Z", re.I)


class Placement(NamedTuple):
    """The memory of host and enclaves. Everything else is closed to S and U. If the monitor needs more than the memory below 80010000, addresses
    of a script move by `offset` bytes."""
    first: int  # the first byte
    end: int  # the byte after the last one

    @property
    def offset(self) -> int:
        """Returns the bytes by which addresses move."""
        return self.first - RAM_BASE if self.first != MONITOR_END else 0

    @property
    def host(self) -> int:
        """Returns the address of the host's first instruction."""
        return MONITOR_END + self.offset

    @property
    def ram(self) -> int:
        """Returns the size of the RAM for which scripts are written."""
        return self.end - RAM_BASE - self.offset

    def address(self, value: int) -> int:
        """Moves an address of a script. Other values stay."""
        return value + self.offset if MONITOR_END <= value <= RAM_BASE + self.ram else value

    def address_before(self, value: int) -> int:
        """Returns the address in a script that was moved to this one. Other values stay."""
        return value - self.offset if self.host <= value <= self.end else value

    def item(self, item: Item) -> Item:
        """Returns an item of a script with its addresses moved: in its registers, its bytes and its text."""
        if not self.offset:
            return item
        text = ADDRESS.sub(lambda match: "%08x" % self.address(int(match[0], 16)), item.text)
        return item._replace(text=text, registers=tuple((n, self.address(value)) for n, value in item.registers),
                             data=tuple((self.address(at), data) for at, data in item.data))

    def enclave_before(self, enclave: Enclave) -> Enclave:
        """Returns an entry of the enclave table with the addresses that they have in a script, before they are moved."""
        base, window, entry = map(self.address_before, (enclave.base, enclave.window, enclave.entry))
        return enclave._replace(base=base, window=window, entry=entry)


def placement_of(text: str | None, ram: int, least: int) -> Placement:
    """Returns the placement that --memory names; without it all of the RAM from 80010000 on. `least` is the smallest RAM of a script. Raises
    UsageError if the range is invalid, or if it or the RAM is too small."""
    end = RAM_BASE + ram
    if text is None:
        if ram < least:
            raise UsageError("--ram %d is less than %d" % (ram, least))
        return Placement(MONITOR_END, end)
    match = RANGE.match(text)
    if not match:
        raise UsageError("invalid --memory '%s' (expected FIRST-LAST, in hexadecimal digits)" % text)
    placement = Placement(int(match[1], 16), int(match[2], 16) + 1)
    if placement.first < MONITOR_END or placement.end > end or placement.first % STEP or placement.end % STEP:
        raise UsageError("--memory %s must be in the RAM from 80010000 to %08x, and its ends at multiples of 10000" % (text, end - 1))
    if placement.ram < least:
        size = least - (0 if placement.offset else MONITOR_END - RAM_BASE)
        raise UsageError("--memory %s is too small; it must have %x bytes or more" % (text, size))
    return placement
