"""Access rights to ranges of RAM. They are the replies of `access` between the boundaries that `pmp` shows. For worlds that run on no hart,
the enclave table gives them."""
from __future__ import annotations

from typing import Iterable, NamedTuple, Sequence

from rvlook.protocol.bench import Bench
from rvlook.protocol.memory_map import MONITOR_END, RAM_BASE
from rvlook.protocol.replies import Enclave, PmpEntry, entry_of

KINDS = "rwx"
TOR, NA4, NAPOT = 1, 2, 3  # values of the field A of pmpcfg
NOTHING, ALL, DATA = "---", "rwx", "rw-"  # access rights


class Range(NamedTuple):
    """A range of addresses, from `first` up to before `end`."""
    first: int  # the address of the first byte
    end: int  # the address after the last byte


class Verdicts(NamedTuple):
    """The access rights to a range."""
    range: Range
    may: dict[str, str]  # the rights by mode, such as `rw-`
    replies: tuple[str, ...]  # the replies of `access`, which name the entry that decides


def entry_range(entries: Sequence[PmpEntry], index: int) -> Range | None:
    """Returns the range that a PMP entry covers, or None if it is off or empty."""
    entry = entries[index]
    mode = entry.cfg >> 3 & 3  # the field A
    if mode == TOR:
        first = 4 * entries[index - 1].addr if index else 0
        return Range(first, 4 * entry.addr) if first < 4 * entry.addr else None
    if mode == NA4:
        return Range(4 * entry.addr, 4 * entry.addr + 4)
    if mode == NAPOT:
        low_bits = entry.addr ^ (entry.addr + 1)  # the lowest bits of pmpaddr that are 1, and the 0 above them
        size = 8 * (low_bits + 1) // 2
        first = 4 * (entry.addr & ~low_bits)
        return Range(first, first + size)
    return None


def boundaries(entries: Sequence[PmpEntry], ram: int) -> list[int]:
    """Returns the boundaries of the PMP entries in RAM, sorted. All bytes between two of them have the same access rights."""
    ends = {RAM_BASE, RAM_BASE + ram}
    for index in range(len(entries)):
        covered = entry_range(entries, index)
        if covered:
            ends.update(at for at in (covered.first, covered.end) if RAM_BASE < at < RAM_BASE + ram)
    return sorted(ends)


def verdicts_of(bench: Bench, pmp_lines: Sequence[str], modes: str, ram: int) -> list[Verdicts]:
    """Queries the access rights to all of RAM in each of `modes`, by `access` to the first byte after each boundary of the PMP entries."""
    ends = boundaries([entry_of(line) for line in pmp_lines], ram)
    queries = [(mode, kind) for mode in modes for kind in KINDS]
    lines = ["access %s %s %x 1" % (mode, kind, at) for at in ends[:-1] for mode, kind in queries]
    replies = [reply[0] for reply in bench.ask(*lines)]
    ranges = []
    for index, (first, end) in enumerate(zip(ends, ends[1:])):
        verdicts = replies[index * len(queries):(index + 1) * len(queries)]
        may = dict.fromkeys(modes, "")
        for (mode, kind), verdict in zip(queries, verdicts):
            may[mode] += kind if verdict.startswith("allowed") else "-"
        ranges.append(Verdicts(Range(first, end), may, tuple(verdicts)))
    return merged(ranges)


def merged(ranges: Iterable[Verdicts]) -> list[Verdicts]:
    """Joins adjacent ranges that have the same replies, including the entry that decides. An access across their boundary has that reply too."""
    joined: list[Verdicts] = []
    for verdicts in ranges:
        if joined and (joined[-1].may, joined[-1].replies) == (verdicts.may, verdicts.replies):
            joined[-1] = Verdicts(Range(joined[-1].range.first, verdicts.range.end), verdicts.may, verdicts.replies)
        else:
            joined.append(verdicts)
    return joined


def derived_rights(world: str, enclaves: Sequence[Enclave], at: int) -> str:
    """Returns the access rights to the byte at an address of a world that runs on no hart, by the enclave table: three letters, as `rw-`."""
    if at < MONITOR_END:
        return NOTHING
    regions = [enclave.world for enclave in enclaves if enclave.has(at)]
    if regions:
        return ALL if regions == [world] else NOTHING
    if world == "host":
        return ALL
    return DATA if any(enclave.world == world and enclave.shares(at) for enclave in enclaves) else NOTHING


def table_boundaries(enclaves: Sequence[Enclave], ram: int) -> set[int]:
    """Returns the boundaries of the monitor's range, the regions and the windows."""
    ends = {RAM_BASE, MONITOR_END, RAM_BASE + ram}
    for enclave in enclaves:
        ends.update((enclave.base, enclave.base + enclave.size))
        if enclave.window_size:
            ends.update((enclave.window, enclave.window + enclave.window_size))
    return ends


def meaning(enclaves: Sequence[Enclave], at: int) -> str:
    """Returns the owner of a byte in words, by the enclave table; empty if there is none."""
    if at < MONITOR_END:
        return "monitor"
    names = ["region of " + enclave.world for enclave in enclaves if enclave.has(at)]
    names += ["window of " + enclave.world for enclave in enclaves if enclave.shares(at)]
    return ", ".join(names)
