"""Finds the code of a monitor that no run executed. The code is divided into basic blocks. Each run is repeated with breakpoints at blocks that were
not executed so far."""
from __future__ import annotations

import struct
from bisect import bisect_right
from dataclasses import dataclass
from typing import Iterable, Iterator, NamedTuple, Sequence

from rvlook.errors import BenchEnded
from rvlook.monitors.encodings import AUIPC, BRANCH, JAL, JALR, MRET, SRET, branch_offset, immediate_of, jump_offset
from rvlook.monitors.items import MASK
from rvlook.monitors.ownership import MONITOR, Ownership
from rvlook.monitors.sides import MonitorSetup
from rvlook.output.progress import Progress
from rvlook.protocol.replies import step_of
from rvlook.protocol.symbols import Symbols

BREAKPOINTS = 32  # that the bench can have at a time
EXECUTABLE = 1  # PF_X, a flag of a segment
ENTRY_OFFSET = 24  # the offset of the first instruction's address in the header of an ELF file
MAX_STEPS_PER_RUN = 1000000  # the most steps of one `run`


class Block(NamedTuple):
    """A basic block of the code of a monitor."""
    first: int  # address of its first instruction
    end: int  # address after its last instruction


@dataclass
class MonitorBlocks:
    """The basic blocks of a monitor."""
    blocks: dict[int, Block]  # the blocks by first address
    functions: dict[int, int]  # the end of each function, by first address; may be empty

    def __post_init__(self) -> None:
        self.ordered = sorted(self.functions)

    @property
    def instructions(self) -> int:
        """Returns the number of instructions."""
        return sum(block.end - block.first for block in self.blocks.values()) // 4

    def entry_of(self, at: int) -> int | None:
        """Returns the first address of the function that has an address, or None."""
        index = bisect_right(self.ordered, at) - 1
        first = self.ordered[index] if index >= 0 else at
        return first if at < self.functions.get(first, at) else None

    def count_in(self, entry: int) -> int:
        """Returns the number of blocks of a function."""
        return sum(entry <= block < self.functions[entry] for block in self.blocks)


def code_of(setup: MonitorSetup, ownership: Ownership, symbols: Symbols, vectors: Iterable[int]) -> MonitorBlocks:
    """Returns the code of the monitor: its functions, and what branches, jumps and calls reach from them, from the entry and from the trap
    vectors. Data in an executable segment is therefore left out."""
    words = {address: word for first, data in segments_of(setup, ownership) for address, word in words_of(first, data)}
    functions = {each.address: each.address + each.size for each in symbols.ordered if each.is_function and each.size and each.address in words}
    start = struct.unpack_from("<I", setup.image.data or b"", ENTRY_OFFSET)[0]
    roots = {start, *vectors, *functions}
    reached = reachable(words, roots) | {at for first, end in functions.items() for at in range(first, end, 4) if at in words}
    return MonitorBlocks(blocks_of(sorted(reached), leaders_of(words, reached) | roots), functions)


def segments_of(setup: MonitorSetup, ownership: Ownership) -> Iterator[tuple[int, bytes]]:
    """Yields the address and the bytes of the part of each executable segment that is in a range of the monitor."""
    data = setup.image.data or b""
    for segment in (segment for segment in setup.image.segments() if segment.flags & EXECUTABLE):
        for range_ in (range_ for range_ in ownership.ranges if range_.owner == MONITOR):
            first, end = max(segment.address, range_.first), min(segment.address + segment.in_file, range_.end)
            if first < end:
                yield first, data[segment.offset + first - segment.address:segment.offset + end - segment.address]


def words_of(first: int, data: bytes) -> Iterator[tuple[int, int]]:
    """Yields the address and the value of each word of a segment."""
    return ((first + 4 * number, word) for number, (word,) in enumerate(struct.iter_unpack("<I", data[:len(data) // 4 * 4])))


def targets_of(words: dict[int, int], at: int) -> list[int]:
    """Returns the addresses to which a branch, a jump or a call at an address goes, and the address after it if execution may come there."""
    word = words[at]
    opcode, link_register = word & 0x7F, word >> 7 & 31
    if opcode == BRANCH:
        targets = [at + branch_offset(word)]
    else:
        targets = [at + jump_offset(word)] if opcode == JAL else far_target(words, at)
    is_end = opcode in (JAL, JALR) and link_register == 0 or word in (MRET, SRET)  # a jump without a link does not come back
    return targets if is_end else [*targets, at + 4]


def far_target(words: dict[int, int], at: int) -> list[int]:
    """Returns the address to which a jalr goes whose base register the auipc before it has set; an empty list for other instructions."""
    previous_word, word = words.get(at - 4, 0), words[at]
    auipc_target, jalr_base = previous_word >> 7 & 31, word >> 15 & 31  # rd and rs1
    if word & 0x7F != JALR or previous_word & 0x7F != AUIPC or auipc_target != jalr_base:
        return []
    return [at - 4 + (previous_word & 0xFFFFF000) + immediate_of(word) & MASK]


def reachable(words: dict[int, int], roots: Iterable[int]) -> set[int]:
    """Returns the addresses of the instructions that execution can reach from the roots; it does not follow indirect jumps."""
    reached: set[int] = set()
    pending = list(roots)
    while pending:
        at = pending.pop()
        if at in words and at not in reached:
            reached.add(at)
            pending += targets_of(words, at)
    return reached


def leaders_of(words: dict[int, int], reached: set[int]) -> set[int]:
    """Returns the addresses at which a basic block begins: the targets of branches and jumps, and what follows them."""
    leaders: set[int] = set()
    for at in reached:
        word = words[at]
        if word & 0x7F in (BRANCH, JAL, JALR) or word in (MRET, SRET):
            leaders.update(targets_of(words, at))
            leaders.add(at + 4)
    return leaders


def blocks_of(addresses: Sequence[int], leaders: set[int]) -> dict[int, Block]:
    """Returns the basic blocks of instructions whose addresses are sorted."""
    blocks: dict[int, Block] = {}
    first = end = -1
    for at in addresses:
        if at != end or at in leaders:
            first = at
        end = at + 4
        blocks[first] = Block(first, end)
    return blocks


class BlockReplay:
    """A repeated run with breakpoints at the first BREAKPOINTS of some blocks. When a block is executed, the next one gets its breakpoint."""

    def __init__(self, setup: MonitorSetup, blocks: Sequence[Block]) -> None:
        self.bench = setup.own.bench()  # does the run
        self.waiting = [block.first for block in blocks]  # blocks without a breakpoint, by first address
        self.fully_watched = set(self.waiting[:BREAKPOINTS])  # these blocks have a breakpoint from the beginning of the run on
        self.missing = set(self.waiting)  # the addresses of blocks that were not executed so far
        self.pc = 0  # the pc that the run has reached

    def run(self, log: Sequence[str]) -> None:
        """Repeats a run up to its end."""
        with self.bench:
            self.do([self.break_next() for _ in range(min(BREAKPOINTS, len(self.waiting)))])
            self.pc = int(self.bench.ask("regs")[0][32][3:], 16)  # the line after x0 to x31 is `pc=ADDRESS`
            lines: list[str] = []
            try:
                for line in log:
                    if line.startswith("run "):
                        self.do(lines)
                        self.go(steps=int(line[4:]))
                        lines = []
                    else:
                        lines.append(line)
            except BenchEnded:
                pass  # the run ended here, too

    def break_next(self) -> str:
        """Returns the command that sets a breakpoint at the next block."""
        return "break %x" % self.waiting.pop(0)

    def do(self, lines: Sequence[str]) -> None:
        """Sends lines that have one line of reply each; takes over pc from the last reply that has it."""
        ran = next((reply for reply in reversed(self.bench.replies_to(lines)) if reply.startswith(b"ran ")), None)
        self.pc = int(step_of(ran.decode()).pc, 16) if ran else self.pc

    def go(self, steps: int) -> None:
        """Does the steps of a `run`. The instruction at pc is executed first, whether there is a breakpoint or not."""
        while steps > 0:
            self.note(self.pc)
            ran = step_of(self.bench.one("run %d" % min(steps, MAX_STEPS_PER_RUN)))
            steps -= ran.steps
            self.pc = int(ran.pc, 16)
            if not ran.steps:
                break

    def note(self, at: int) -> None:
        """Notes that the instruction at an address is executed, and removes its breakpoint."""
        if at in self.missing:
            self.missing.discard(at)
            if at in self.waiting:
                self.waiting.remove(at)
            else:
                self.do(["clear %x" % at] + ([self.break_next()] if self.waiting else []))


def unexecuted_in(setup: MonitorSetup, logs: Sequence[Sequence[str]], blocks: Sequence[Block], progress: Progress) -> list[Block]:
    """Returns the blocks that none of the runs with these logs executed."""
    missing = list(blocks)
    for number, log in enumerate(logs, 1):
        remaining, never_reached = missing, []
        while remaining:
            replay = BlockReplay(setup, remaining)
            replay.run(log)
            never_reached += [block for block in remaining if block.first in replay.missing and block.first in replay.fully_watched]
            remaining = [block for block in remaining if block.first in replay.missing and block.first not in replay.fully_watched]
            progress.show("code that was not executed: run %d of %d, %d blocks left", number, len(logs), len(remaining))
        missing = never_reached
    return missing


def unexecuted(setup: MonitorSetup, code: MonitorBlocks, logs: Sequence[Sequence[str]], progress: Progress) -> list[Block]:
    """Returns the blocks that no run executed. Function entries are searched first: without its entry no block of a function is executed."""
    never_entered = {block.first for block in unexecuted_in(setup, logs, [code.blocks[address] for address in code.ordered], progress)}
    blocks_of_functions = [block for block in code.blocks.values() if code.entry_of(block.first) in never_entered]
    other_blocks = [block for block in code.blocks.values() if block.first not in code.functions and code.entry_of(block.first) not in never_entered]
    return sorted(blocks_of_functions + unexecuted_in(setup, logs, other_blocks, progress), key=lambda it: it.first)
