"""Caches what a debugger reads from a halted bench: registers, and memory in lines of 64 bytes. A debugger reads two bytes at a time, and
those around pc and above sp after each step; the step brings them in the same exchange."""
from __future__ import annotations

from itertools import takewhile
from typing import Any

from rvlook.protocol.replies import Ran, bytes_of, step_of
from rvlook.protocol.timeline import Timeline

LINE = 64  # bytes that are cached together, as many as one `mem` shows
SP, PC, REGISTERS = 2, 32, 33  # numbers of registers, and lines of `regs`


def line_of(address: int) -> str:
    """Returns the command that reads the line of an address."""
    return "mem %x %d" % (address & -LINE & 0xFFFFFFFF, LINE)


class CachedView:
    """The registers and the memory of a timeline, cached until anything changes."""

    def __init__(self, timeline: Timeline) -> None:
        self.timeline, self.changes = timeline, -1  # `changes` of the timeline when the cache was filled
        self.values: dict[Any, Any] = {}  # registers by hart, and control registers by hart and number
        self.lines: dict[int, bytes] = {}  # memory by address, LINE bytes each

    def check(self) -> None:
        """Discards the cached values if something may have changed."""
        if self.changes != self.timeline.changes:
            self.changes, self.values, self.lines = self.timeline.changes, {}, {}

    def registers(self, hart: int) -> list[str]:
        """Returns x0 to x31 and pc, in hexadecimal digits."""
        self.check()
        if hart not in self.values:
            self.timeline.choose(hart)
            self.values[hart] = [line.partition("=")[2] for line in self.timeline.ask("regs")[0]]
        return self.values[hart]

    def csr(self, hart: int, number: int) -> str | None:
        """Returns a control and status register in hexadecimal digits, or None for a number without a register."""
        self.check()
        if (hart, number) not in self.values:
            self.timeline.choose(hart)
            reply = self.timeline.ask("csr %x" % number)[0][0]
            self.values[hart, number] = None if reply.startswith("error ") else reply.partition("=")[2]
        return self.values[hart, number]

    def bytes(self, first: int, count: int) -> bytes:
        """Returns bytes, up to the first that is outside RAM."""
        self.check()
        lines = range(first & -LINE, first + count, LINE)
        missing = [at for at in lines if at not in self.lines]
        for at, (reply,) in zip(missing, self.timeline.ask(*map(line_of, missing)) if missing else ()):
            self.cache_line(at, reply)
        data = b"".join(takewhile(bool, map(self.lines.__getitem__, lines)))
        return data[first & LINE - 1:][:count]

    def cache_line(self, address: int, reply: str) -> None:
        """Caches the bytes in a reply of `mem` for an address; no bytes if the reply is an error."""
        self.lines[address] = b"" if reply.startswith("error ") else bytes_of(reply)

    def step(self, hart: int, turns: str) -> Ran:
        """Does `run 1` on a hart by the schedule `turns`; returns its reply. Also caches the registers, and memory at pc and sp."""
        before = self.registers(hart)
        self.timeline.choose(hart)
        near = {address & -LINE & 0xFFFFFFFF for address in (int(before[PC], 16) + 4, int(before[SP], 16))}
        ran, *seen = self.timeline.do_at_once("run 1", ["regs", *map(line_of, near)], 1 + REGISTERS + len(near), turns)
        self.check()
        self.values[hart] = [line.partition("=")[2] for line in seen[:REGISTERS]]
        for at, reply in zip(near, seen[REGISTERS:]):
            self.cache_line(at, reply)
        return step_of(ran)
