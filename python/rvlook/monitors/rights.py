"""Access rights below M, computed from the PMP entries over all of RAM."""
from __future__ import annotations

from functools import lru_cache
from typing import NamedTuple

from rvlook.access.ranges import NOTHING, boundaries, entry_range
from rvlook.protocol.memory_map import RAM_BASE
from rvlook.protocol.replies import entry_of

BITS = (("r", 1), ("w", 2), ("x", 4))  # the bits R, W and X of pmpcfg


class Right(NamedTuple):
    """A range with the access rights of S and U."""
    first: int  # the first byte
    end: int  # the byte after the last one
    may: str  # three letters, such as `rw-`
    entry: int | None  # index of the PMP entry that decides; None if no entry matches

    def __str__(self) -> str:
        return "%08x-%08x %s" % (self.first, self.end - 1, self.may)


@lru_cache(maxsize=4096)
def rights_of(lines: bytes, ram: int) -> tuple[Right, ...]:
    """Returns the access rights of all RAM under the replies of `pmp`. Ranges of two entries stay apart: an access across them is refused."""
    entries = [entry_of(line.decode()) for line in lines.splitlines()]
    covered = [entry_range(entries, index) for index in range(len(entries))]
    ends = boundaries(entries, ram)
    rights: list[Right] = []
    for first, end in zip(ends, ends[1:]):
        index = next((n for n, entry in enumerate(covered) if entry and entry.first <= first < entry.end), None)  # the lowest entry decides
        cfg = 0 if index is None else entries[index].cfg
        may = "".join(letter if cfg & bit else "-" for letter, bit in BITS)
        if rights and rights[-1].may == may and (may == NOTHING or rights[-1].entry == index):
            rights[-1] = Right(rights[-1].first, end, may, index)
        else:
            rights.append(Right(first, end, may, index))
    return tuple(rights)


def closed_outside(rights: tuple[Right, ...], first: int, end: int, last: int) -> tuple[Right, ...]:
    """Returns the given access rights from `first` up to before `end`, and no access outside this range. `last` is the end of the RAM."""
    inside = [right._replace(first=max(right.first, first), end=min(right.end, end)) for right in rights if right.first < end and first < right.end]
    closed: list[Right] = []
    for right in (Right(RAM_BASE, first, NOTHING, None), *inside, Right(end, last, NOTHING, None)):
        if closed and closed[-1].may == right.may == NOTHING:
            closed[-1] = Right(closed[-1].first, right.end, NOTHING, closed[-1].entry)
        elif right.first < right.end:
            closed.append(right)
    return tuple(closed)


def shape(rights: tuple[Right, ...]) -> list[tuple[int, int, str]]:
    """Returns the rights without the entries that decide, which may differ between two monitors."""
    return [(right.first, right.end, right.may) for right in rights]
