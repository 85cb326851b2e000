"""Declares who owns which memory of a monitor with its host and enclaves. Some ranges begin and end in a run."""
from __future__ import annotations

from dataclasses import dataclass, field
from typing import Callable, Iterator, NamedTuple

from rvlook.monitors.items import MASK
from rvlook.monitors.rights import Right

MONITOR, HOST = "monitor", "host"  # owners that every file declares
SHARED, HANDS, ONCE, SECRET = "shared", "hands", "once", "secret"  # other words with which a line of the file of ranges can begin
ALL, DATA = "rwx", "rw-"  # default access rights: of ranges, and of windows in a table
Words = Callable[[int], int]  # returns the word in memory at an address


class WordCondition(NamedTuple):
    """A comparison of a word in memory, or of the number of calls of the host, with a value."""
    at: int | None  # address of the word; None: the number of calls
    compare: Callable[[int, int], bool]  # the operator
    value: int  # the right operand

    def holds(self, words: Words, calls: int, base: int = 0) -> bool:
        """Returns whether the condition holds after a number of calls of the host; `base` is added to the address of the word."""
        return self.compare(calls if self.at is None else words(base + self.at & MASK), self.value)


@dataclass(frozen=True)
class RangesTable:
    """A table in memory of the monitor that has the ranges of its enclaves. An element counts while all conditions hold."""
    name: str  # begins the names of its enclaves
    count: int  # number of elements
    first: int  # address of the first element
    stride: int  # bytes from element to element
    region: tuple[int, int]  # offsets of the words with base and size of the region
    window: tuple[int, int] | None  # likewise of the window; None without windows
    when: tuple[WordCondition, ...]  # addresses are offsets in the element

    def ranges(self, words: Words, calls: int) -> Iterator[OwnedRange]:
        """Yields the ranges of the elements that count."""
        for number in range(self.count):
            at = self.first + number * self.stride
            if all(condition.holds(words, calls, base=at) for condition in self.when):
                yield from self.ranges_at(words, at, "%s%d" % (self.name, number))

    def ranges_at(self, words: Words, at: int, owner: str) -> Iterator[OwnedRange]:
        """Yields the ranges of an element at an address."""
        base, size = (words(at + offset & MASK) for offset in self.region)
        if size:
            yield OwnedRange(base, base + size, owner, is_timed=True)
        if size and self.window:
            base, size = (words(at + offset & MASK) for offset in self.window)
            if size:
                yield OwnedRange(base, base + size, SHARED, DATA, sharers=(owner,), is_timed=True)


class OwnedRange(NamedTuple):
    """A range of memory and its owner."""
    first: int  # the first byte
    end: int  # the byte after the last one
    owner: str  # monitor, host, shared, or an enclave
    may: str = ALL  # what the owner, or each sharer, may do
    sharers: tuple[str, ...] = ()  # the worlds that share it
    is_timed: bool = False  # whether it exists only while its conditions hold, or while a table has it
    when: tuple[WordCondition, ...] = ()  # the conditions under which the range exists

    def has(self, at: int) -> bool:
        """Returns whether an address is in the range."""
        return self.first <= at < self.end

    def overlaps(self, right: Right) -> bool:
        """Returns whether a range of access rights has a byte of this range."""
        return right.first < self.end and self.first < right.end

    def __str__(self) -> str:
        return "%08x-%08x" % (self.first, self.end - 1)


@dataclass
class Ownership:
    """The owners of all memory, and what else the author declares."""
    ranges: list[OwnedRange] = field(default_factory=list)  # all ranges of the file
    hands: set[int] = field(default_factory=lambda: {10, 11})  # registers that hand values over at a call
    once: set[str] = field(default_factory=set)  # owners that run once
    tables: list[RangesTable] = field(default_factory=list)  # tables in memory that have further ranges
    secrets: list[OwnedRange] = field(default_factory=list)  # secret ranges of the monitor

    def active(self, words: Words, calls: int) -> Ownership:
        """Returns the ranges that exist with these words of memory after a number of calls. Returns this object if all ranges exist always."""
        if not self.tables and not any(range_.when for range_ in self.ranges):
            return self
        ranges = [range_ for range_ in self.ranges if all(condition.holds(words, calls) for condition in range_.when)]
        ranges += [range_ for table in self.tables for range_ in table.ranges(words, calls)]
        return Ownership(ranges, self.hands, self.once, tables=[], secrets=self.secrets)

    def enclaves(self) -> list[str]:
        """Returns the names of the enclaves that own a range, and then the names of the tables."""
        return [*dict.fromkeys(range_.owner for range_ in self.private()), *(table.name for table in self.tables)]

    def runs_once(self, owner: str) -> bool:
        """Returns whether the author declares, with `once`, that an enclave or all enclaves of its table need not continue after they are left."""
        return owner in self.once or any(table.name in self.once and owner.rstrip("0123456789") == table.name for table in self.tables)

    def owner_of(self, at: int) -> str | None:
        """Returns who owns a byte, or None. The smallest range that has the byte decides."""
        owned = [range_ for range_ in self.ranges if range_.owner != SHARED and range_.has(at)]
        return min(owned, key=lambda it: it.end - it.first).owner if owned else None

    def is_monitor(self, at: int) -> bool:
        """Returns whether the monitor owns a byte."""
        return self.owner_of(at) == MONITOR

    def private(self) -> list[OwnedRange]:
        """Returns the ranges that an enclave owns: neither shared ones nor those of monitor and host."""
        return [range_ for range_ in self.ranges if range_.owner not in (SHARED, MONITOR, HOST)]

    def open_to(self, world: str) -> list[OwnedRange]:
        """Returns the ranges that a world owns or shares."""
        return [range_ for range_ in self.ranges if world == range_.owner or world in range_.sharers]
