"""The control flow of functions: the order of their instructions, their loops, and the places at which paths meet.

The control flow only decides which path is continued first, and where paths wait for each other. No answer of `verify` depends on it."""
from __future__ import annotations

from bisect import bisect_right
from types import MappingProxyType
from typing import Dict, List, Mapping, NamedTuple, Optional, Sequence, Set, Tuple

from rvlook.finders.inputs.code import LINKS
from rvlook.symbolic.decode import decode
from rvlook.symbolic.nodes import M32

MAX_INSTRUCTIONS = 6000  # the control flow of a function with more instructions is not analysed
MIN_TABLE_WORDS = 3  # fewer words in a row are not taken to be a jump table
BackEdge = Tuple[int, int]  # a jump back: its pc, and the pc of the head of the loop


class Flow(NamedTuple):
    """The control flow of a function, by the pcs of its instructions."""
    order: Dict[int, int]  # the number of each instruction: it comes after all that lead to it, except around a loop
    heads: Dict[int, Tuple[int, ...]]  # the heads of the loops around an instruction, the outermost first
    meeting_points: Set[int]  # the instructions at which paths meet
    calls: Set[int]  # the instructions that call a function or the monitor

    def is_innermost(self, head: int) -> bool:
        """Returns whether the loop with a head has no loop and no call inside."""
        return all(around[-1] == head and pc not in self.calls for pc, around in self.heads.items() if head in around)

    def innermost_head(self, pc: int) -> Optional[int]:
        """Returns the head of the innermost loop around an instruction; None outside loops."""
        heads = self.heads.get(pc)
        return heads[-1] if heads else None


class Flows:
    """The control flow of all functions of an image, by their entry, which is the pc of the first instruction."""

    def __init__(self, memory: Sequence[int], low: int, functions: Mapping[int, int] = MappingProxyType({})) -> None:
        self.memory = memory  # the bytes of the image
        self.low = low  # the address of the first byte
        self.functions = functions  # the sizes in bytes of the functions that symbols name, by entry
        self.entries = sorted(functions)
        self.by_entry: Dict[int, Optional[Flow]] = {}  # the control flow of each function that was analysed, by entry
        self.tables = self.jump_tables()  # the targets in the jump tables of each function, by entry

    def of(self, entry: int) -> Optional[Flow]:
        """Returns the control flow of the function with an entry, or None if it is not known."""
        if entry not in self.by_entry:
            self.by_entry[entry] = self.analyse(entry)
        return self.by_entry[entry]

    def function_at(self, pc: int) -> Optional[int]:
        """Returns the entry of the function that contains an address; None if no symbol names this function."""
        index = bisect_right(self.entries, pc) - 1
        if index < 0:
            return None
        entry = self.entries[index]
        return entry if pc < entry + self.functions[entry] else None

    def jump_tables(self) -> Dict[Optional[int], List[int]]:
        """Returns the targets in the jump tables of each function, by its entry. A table is a row of at least MIN_TABLE_WORDS words, one after
        another, that are addresses of instructions of one function, but not its entry."""
        targets_by_entry: Dict[Optional[int], Set[int]] = {}
        content = bytes(self.memory)
        row: List[int] = []  # the words of the present row
        last: Optional[int] = None  # the entry of the function to which they point
        for offset in range(0, len(content), 4):
            word = int.from_bytes(content[offset:offset + 4], "little")
            entry = self.function_at(word) if not word & 3 and word not in self.functions else None
            if entry != last:
                if last is not None and len(row) >= MIN_TABLE_WORDS:
                    targets_by_entry.setdefault(last, set()).update(row)
                row = []
            if entry:
                row.append(word)
            last = entry
        return {entry: sorted(targets) for entry, targets in targets_by_entry.items()}

    def next_of(self, pc: int) -> Optional[Tuple[Sequence[int], bool]]:
        """Returns the pcs to which an instruction leads in its function, and whether it calls a function or the monitor. Returns None if the pc
        is outside the image."""
        at = pc - self.low
        if not 0 <= at <= len(self.memory) - 4:
            return None
        instruction = decode(int.from_bytes(bytes(self.memory[at:at + 4]), "little"))
        following = pc + 4
        target = pc + instruction.imm & M32
        if instruction.kind == "branch":
            return (following, target), False
        if instruction.kind == "jal":
            return ((following,), True) if instruction.rd in LINKS else ((target,), False)
        if instruction.kind == "jalr":
            if instruction.rd in LINKS:
                return (following,), True
            return [] if instruction.rs1 in LINKS else self.tables.get(self.function_at(pc), []), False
        if instruction.kind in ("sret", "illegal", "ebreak"):
            return (), False
        return (following,), instruction.kind == "ecall"

    def analyse(self, entry: int) -> Optional[Flow]:
        """Returns the control flow from an entry on, by a depth-first search. Returns None if a path leaves the image, or the function is too
        long."""
        following: Dict[int, Sequence[int]] = {}  # the instructions to which each instruction leads
        meeting_points: Set[int] = set()
        calls: Set[int] = set()
        finished: List[int] = []  # the instructions from which everything was searched, in this order
        back_edges: List[BackEdge] = []
        stack: List[Tuple[int, int]] = [(entry, 0)]  # instructions, each with the number of its successors that were taken
        active: Set[int] = set()  # the instructions on the stack
        arrivals: Dict[int, int] = {}  # how many instructions lead to an instruction
        while stack:
            pc, taken = stack.pop()
            if taken == 0:
                following_and_call = self.next_of(pc)
                if following_and_call is None or len(following) >= MAX_INSTRUCTIONS:
                    return None
                following[pc], is_call = following_and_call
                active.add(pc)
                if is_call:
                    meeting_points.update(following[pc])
                    calls.add(pc)
            if taken < len(following[pc]):
                stack.append((pc, taken + 1))
                successor = following[pc][taken]
                arrivals[successor] = arrivals.get(successor, 0) + 1
                if successor in active:
                    back_edges.append((pc, successor))
                elif successor not in following:
                    stack.append((successor, 0))
                continue
            active.discard(pc)
            finished.append(pc)
        order = {pc: n for n, pc in enumerate(reversed(finished))}
        meeting_points.update(pc for pc, count in arrivals.items() if count > 1)
        meeting_points.update(head for _, head in back_edges)
        return Flow(order, loops_of(order, following, back_edges), meeting_points, calls)


def loops_of(order: Dict[int, int], following: Dict[int, Sequence[int]], back_edges: List[BackEdge]) -> Dict[int, Tuple[int, ...]]:
    """Returns the heads of the loops around each instruction that is in a loop, the outermost first. `order` numbers the instructions, and
    `following` has the instructions to which each one leads."""
    sources: Dict[int, List[int]] = {}  # the instructions that lead to each instruction
    for pc, targets in following.items():
        for target in targets:
            sources.setdefault(target, []).append(pc)
    bodies: Dict[int, Set[int]] = {}  # the instructions of each loop, by its head
    for end, head in back_edges:
        body = bodies.setdefault(head, {head})
        stack = [end]
        while stack:
            pc = stack.pop()
            if pc not in body and order[pc] >= order[head]:
                body.add(pc)
                stack += sources.get(pc, [])
    heads_by_pc: Dict[int, List[int]] = {}
    outermost_first = sorted(bodies, key=lambda head: (-len(bodies[head]), order[head]))  # a loop inside another one has fewer instructions
    for head in outermost_first:
        for pc in bodies[head]:
            heads_by_pc.setdefault(pc, []).append(head)
    return {pc: tuple(heads) for pc, heads in heads_by_pc.items()}
