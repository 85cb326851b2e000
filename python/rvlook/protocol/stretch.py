"""Single steps of one hart with their replies."""
from __future__ import annotations

from array import array
from dataclasses import dataclass, field
from functools import cached_property, lru_cache
from itertools import compress
from operator import ne
from typing import Any, Dict, Iterator, Mapping, Optional, Sequence

from rvlook.protocol.replies import NO_TRAP, RanFields, fields_of

CACHED_STRETCHES = 16  # stretches whose columns are cached
MODE_NUMBERS = {b"U": 0, b"S": 1, b"M": 3}  # as the privileged specification encodes modes


@dataclass(eq=False)
class Columns:
    """The steps of a stretch, as the bytes of the replies. Each column has one element for each step."""
    pcs: Sequence[bytes]  # the pc before each step
    modes: Sequence[bytes]  # the mode before each step
    worlds: Sequence[bytes]  # the world before each step
    traps: Sequence[bytes]  # the trap of each step, a hyphen without a trap
    after: Sequence[bytes]  # world after the step
    questions: Dict[Any, Any] = field(default_factory=dict, init=False)  # cache of readers: their commands for these steps, by what decides them

    @cached_property
    def executed(self) -> Sequence[bytes]:
        """Returns each executed pc once, in the order in which they were first executed."""
        return list(dict.fromkeys(self.pcs))

    @cached_property
    def pcs_with_modes(self) -> array[int]:
        """Returns each pc as a number, with the number of its mode in the lowest bits."""
        return array("I", map(pc_and_mode, self.pcs, self.modes))

    def part(self, first: int, end: int) -> Columns:
        """Returns the columns of the steps with index `first` up to before `end`."""
        return Columns(*(column[first:end] for column in (self.pcs, self.modes, self.worlds, self.traps, self.after)))


@dataclass
class Stretch:
    """Single steps of one hart with their replies."""
    first: int  # number of the first step in the run
    hart: int  # the hart that steps
    data: bytes  # the replies, a line for each step
    count: int  # number of steps
    before: RanFields = (b"", b"", b"", NO_TRAP)  # the location of the hart before the first step
    lines: Sequence[bytes] = ()  # the reply of `dis` before each step; empty until a reader has decoded them
    part: Optional[Columns] = None  # the columns, if the stretch is a part of another; None: decoded from the replies

    @property
    def last(self) -> RanFields:
        """Returns the fields of the reply to the last step."""
        return fields_of(self.data[self.data.rfind(b"\n", 0, -1) + 1:-1])

    @property
    def columns(self) -> Columns:
        """Returns the steps as columns."""
        return self.part or columns_of(self.data, self.before)

    def by_world(self) -> Iterator[Stretch]:
        """Divides the steps where the world changes; yields each part as a stretch."""
        for at, data, before, columns in parts_of(self.data, self.before):
            count = len(columns.pcs)
            yield Stretch(self.first + at, self.hart, data, count, before, self.lines[at:at + count], columns)


@lru_cache(maxsize=65536)
def pc_and_mode(pc: bytes, mode: bytes) -> int:
    """Returns a pc with the number of the mode in its lowest bits."""
    return int(pc, 16) | MODE_NUMBERS[mode]


@lru_cache(maxsize=CACHED_STRETCHES)
def parts_of(data: bytes, before: RanFields) -> Sequence[tuple[int, bytes, RanFields, Columns]]:
    """Divides replies to single steps where the world changes. Returns of each part index of its first step, replies, location before, columns."""
    columns, first = columns_of(data, before), 0
    ends = list(compress(range(1, len(columns.pcs)), map(ne, columns.worlds, columns.after)))  # indices after a step that changes the world
    if not ends:
        return [(0, data, before, columns)]
    lines, parts = data.splitlines(keepends=True), []
    for end in [*ends, len(lines)]:
        parts.append((first, b"".join(lines[first:end]), before, columns.part(first, end)))
        first, before = end, fields_of(lines[end - 1][:-1])
    return parts


@lru_cache(maxsize=CACHED_STRETCHES)
def columns_of(data: bytes, before: RanFields) -> Columns:
    """Returns replies to single steps as columns. Runs that differ in an input have most stretches in common, and most replies come many times."""
    lines = data.splitlines()
    decoded = {line: fields_of(line) for line in set(lines)}
    pcs, modes, worlds, traps = (column_of(lines, {line: fields[n] for line, fields in decoded.items()}) for n in range(len(before)))
    return Columns([before[0], *pcs[:-1]], [before[1], *modes[:-1]], [before[2], *worlds[:-1]], traps, worlds)


def column_of(lines: Sequence[bytes], field_of: Mapping[bytes, bytes]) -> list[bytes]:
    """Returns a field of each line. `field_of` has the field for each different line."""
    if len(set(field_of.values())) == 1:
        return [field_of[lines[0]]] * len(lines)
    return list(map(field_of.__getitem__, lines))
