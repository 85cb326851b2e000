"""Reads what the steps of a run executed: the instruction at pc before each step, and the registers that it needs.

The instructions of a stretch are decoded once, before it. This is right up to the first write to one of them. Only stores and the calls destroy and
measure of the monitor write memory (`rv_monitor/specs/Changes`). Therefore the base of each store is read, and the instructions are listed again
after each call that may be one of the two. If a step executes an instruction after such a write, each is decoded right before its step."""
from __future__ import annotations

import re
import sys
from array import array
from bisect import bisect
from dataclasses import dataclass
from functools import lru_cache
from itertools import accumulate, chain, compress
from operator import add, sub
from typing import Any, Callable, Dict, Generic, Iterator, Mapping, NamedTuple, Optional, Sequence, Tuple, TypeVar

from rvlook.protocol.bench import Closing
from rvlook.protocol.instructions import MemoryOperand, instruction_of
from rvlook.protocol.names import ECALL_FROM_S
from rvlook.protocol.replies import NO_TRAP
from rvlook.protocol.run import Run
from rvlook.protocol.stretch import Stretch
from rvlook.protocol.timeline import Timeline

Item = TypeVar("Item")
Need = Tuple[Item, Tuple[int, ...], bool]  # of an instruction: the reader's object for it; registers to read; whether to read them after the step
VALUE = re.compile(rb"x\d+=(.{8})")
CALL = ECALL_FROM_S.encode()  # how the trap of a monitor call begins


@lru_cache(maxsize=None)
def step_command(count: int) -> bytes:
    """Returns the command that does a number of steps; nothing for 0."""
    return b"step %d\n" % count if count else b""


class Probe(NamedTuple):
    """The commands that read the registers of an instruction."""
    questions: bytes  # the commands, `reg N` in a line each
    registers: int  # number of the commands
    is_after: bool  # whether the commands come after the step
    store: Optional[MemoryOperand]  # its first reply is the base of this store; None without a store
    skipped: int  # replies that are read only for the store, not for the item
    item: Any  # the reader's object for the instruction; None if the reader needs nothing of it


def probe_of(line: bytes, need: Need[Item] | None, has_store: bool) -> Probe | None:
    """Returns the probe of the instruction in a reply of `dis`: its need, and the base of its store if `has_store`; None without need and store."""
    code = instruction_of(line) if has_store else None
    store = code.memory if code and code.memory and code.memory.kind == "w" else None
    item, registers, is_after = need or (None, (), False)
    skipped = int(store is not None and registers[:1] != (store.base,))
    asked = (*[store.base for _ in range(skipped) if store], *registers)
    text = b"".join([b"reg %d\n" % number for number in asked])
    return Probe(text, len(asked), is_after, store, skipped, item) if need or store else None


@dataclass(frozen=True)
class Reads(Generic[Item]):
    """The steps of a stretch as a reader needs them."""
    lines: Sequence[bytes]  # the reply of `dis` before each step
    indices: Sequence[int]  # the indices of the steps that need something
    items: Sequence[Item]  # the reader's object for the instruction of each of these steps
    starts: Sequence[int]  # index in `values` of the first register of each of these steps
    values: Sequence[int]  # the values of all registers


@dataclass(frozen=True)
class Asked(Generic[Item]):
    """The probes of a stretch as columns, with one element for each probe."""
    lines: Sequence[bytes]  # the reply of `dis` before each step of the stretch
    indices: Sequence[int]  # the indices of the steps
    starts: Sequence[int]  # how many registers earlier probes read
    stores: Sequence[Optional[MemoryOperand]]  # the operand of the store; None without a store
    skipped: Sequence[int]  # how many replies are only for the base of the store
    items: Sequence[Optional[Item]]  # the reader's object for the instruction; None if the reader needs nothing of it
    calls: Sequence[int]  # indices of the steps after which the instructions are listed again
    text: bytes  # the commands for all probes


class Reader(Closing, Generic[Item]):
    """A bench that follows a run, stretch after stretch. `needs` returns what is needed of the instruction in a reply of `dis`, or None."""

    def __init__(self, run: Run, needs: Callable[[bytes], Optional[Need[Item]]]) -> None:
        self.run, self.replay, self.needs = run, run.replay(), needs  # `replay` follows the run
        self.probes: Dict[Tuple[bytes, bool], Optional[Probe]] = {}  # the probes by the reply of `dis`, and whether stores are read

    def close(self) -> None:
        """Ends the bench."""
        self.replay.bench.close()

    def read(self, stretch: Stretch) -> Reads[Item]:
        """Reads the steps of a stretch. The stretches come in the order of the run, but some may be left out."""
        if stretch.lines:
            return self.registers(self.replay, stretch)
        executed = stretch.columns.executed
        listing = b"".join([b"dis %s\n" % pc for pc in executed])
        begin(self.replay, stretch)
        text = self.replay.bench.block(listing, len(executed))
        code, questions, key = dict(zip(executed, text.splitlines())), stretch.columns.questions, (self.needs, self.run.setup.monitor, text)
        if key not in questions:
            questions[key] = self.asked(stretch, [code[pc] for pc in stretch.columns.pcs], listing)
        asked = questions[key]
        block = self.replay.bench.block(asked.text, asked.text.count(b"\n"))
        values = values_of(block)
        if is_changed(asked, values, stretch, changed_after(asked, block, code)):
            stretch.lines = lines_of(self.run, stretch)
            with self.run.replay() as replay:
                return self.registers(replay, stretch)
        stretch.lines = asked.lines
        return reads_of(asked, values)

    def registers(self, replay: Timeline, stretch: Stretch) -> Reads[Item]:
        """Reads the registers of the steps of a stretch from a replay. The instructions of the stretch are known: they are in its `lines`."""
        asked = self.asked(stretch, stretch.lines)
        if not asked.text:
            return reads_of(asked, ())
        begin(replay, stretch)
        return reads_of(asked, values_of(replay.bench.block(asked.text, asked.text.count(b"\n"))))

    def probe(self, line: bytes, has_store: bool) -> Probe | None:
        """Returns the probe of the instruction in a reply of `dis`, from the cache if possible; None if there is nothing to read."""
        if (line, has_store) not in self.probes:
            self.probes[line, has_store] = probe_of(line, self.needs(line), has_store)
        return self.probes[line, has_store]

    def asked(self, stretch: Stretch, lines: Sequence[bytes], listing: bytes = b"") -> Asked[Item]:
        """Returns the probes of the steps of a stretch. `listing` lists its instructions; it is empty if they are known for each step."""
        probes = {line: probe for line in set(lines) for probe in (self.probe(line, bool(listing)),) if probe}
        indices = [n for n, line in enumerate(lines) if line in probes]
        lines_with_probe = [lines[n] for n in indices]
        fields: Iterator[list[Any]] = (  # a column for each field of Probe
            list(map({line: probe[n] for line, probe in probes.items()}.__getitem__, lines_with_probe)) for n in range(len(Probe._fields)))
        questions, counts, is_after, stores, skipped, items = fields
        starts = list(accumulate(counts, initial=0))
        calls = calls_in(stretch) if self.run.setup.monitor and listing else []
        positions, texts = list(map(add, indices, is_after)), questions  # the steps before each text, and the texts that are sent there
        for n in calls:  # lists the instructions right after the step of the call
            index = bisect(positions, n + 1)
            positions.insert(index, n + 1)
            texts.insert(index, listing)
        steps = map(step_command, map(sub, [*positions, stretch.count], [0, *positions]))  # the steps between the texts
        text = b"".join(chain.from_iterable(zip(steps, [*texts, b""]))) if listing or starts[-1] else b""
        return Asked(lines, indices, starts, stores, skipped, items, calls, text)


def calls_in(stretch: Stretch) -> list[int]:
    """Returns the indices of the steps that called the monitor and stayed in their world. All calls that write memory are among them."""
    columns = stretch.columns
    calls = {trap for trap in set(columns.traps) if trap.startswith(CALL)}
    return [index for index, trap in enumerate(columns.traps) if trap in calls and columns.worlds[index] == columns.after[index]] if calls else []


def reads_of(asked: Asked[Item], values: Sequence[int]) -> Reads[Item]:
    """Returns the steps whose instructions the reader needs, with their registers."""
    is_needed = [item is not None for item in asked.items]
    columns = asked.indices, asked.items, map(add, asked.starts, asked.skipped)
    indices, items, starts = (list(compress(column, is_needed)) for column in columns)
    return Reads(asked.lines, indices, items, starts, values)


def values_of(block: bytes) -> Sequence[int]:
    """Returns the values of all registers in replies."""
    values = array("I", bytes.fromhex(b"".join(VALUE.findall(block)).decode()))
    if sys.byteorder == "little":
        values.byteswap()
    return values


def is_changed(asked: Asked[Item], values: Sequence[int], stretch: Stretch, changed: Mapping[bytes, int]) -> bool:
    """Returns whether a step executes an instruction after a write to it. `changed` has the pcs of those that the monitor wrote, each with the index
    of the step of the first call that did."""
    pcs, traps = stretch.columns.pcs, stretch.columns.traps
    is_store = [store is not None and traps[index] == NO_TRAP for index, store in zip(asked.indices, asked.stores)]
    stores, bases = list(compress(asked.stores, is_store)), [values[first_call] for first_call in compress(asked.starts, is_store)]
    stored_words = {address & -4 for memory, base in set(zip(stores, bases)) for address in bytes_at(base, memory)}
    if not changed and stored_words.isdisjoint([int(pc, 16) for pc in set(pcs)]):
        return False
    written = {int(pc, 16): first_call for pc, first_call in changed.items()}
    for index, memory, base in zip(compress(asked.indices, is_store), stores, bases):
        for address in bytes_at(base, memory):
            written[address & -4] = min(index, written.get(address & -4, index))
    return any(written.get(int(pc, 16), index) < index for index, pc in enumerate(pcs))


def bytes_at(base: int, memory: MemoryOperand | None) -> tuple[int, int]:
    """Returns the addresses of the first and the last byte of an access."""
    assert memory
    first = base + memory.offset
    return first & 0xFFFFFFFF, first + memory.width - 1 & 0xFFFFFFFF


def lines_of(run: Run, stretch: Stretch) -> list[bytes]:
    """Returns the reply of `dis` right before each step of a stretch."""
    with run.replay() as decoder:
        begin(decoder, stretch)
        text = b"".join([b"dis %s\nstep 1\n" % pc for pc in stretch.columns.pcs])
        return decoder.bench.block(text, 2 * stretch.count).split(b"\n")[:-1:2]


def changed_after(asked: Asked[Item], block: bytes, code: Mapping[bytes, bytes]) -> dict[bytes, int]:
    """Returns the pcs of the instructions that a call changed, each with the index of the step of the first such call. `code`: before the stretch."""
    lines = (line for line in block.splitlines() if not line.startswith((b"x", b"ran "))) if asked.calls else iter(())
    calls: dict[bytes, int] = {}
    for call in asked.calls:
        calls.update((pc, calls.get(pc, call)) for (pc, old_line), new_line in zip(code.items(), lines) if new_line != old_line)
    return calls


def begin(replay: Timeline, stretch: Stretch) -> None:
    """Brings a replay to the step before a stretch. Records the steps of the stretch as done, since the caller does them."""
    replay.go_before(stretch.first)
    replay.lines_to(stretch.first - 1 + stretch.count)
