"""Registers that decide into how many parts the merged state at the head of a loop is divided: indices of short arrays.

A parser of nested containers has the end of each container in an array, at the index of its depth. The order of the ends depends on the depth, so
paths at the head of a loop are merged only with paths of the same depth. Each path belongs to one part, which includes it: no answer depends on how a
head is divided."""
from __future__ import annotations

from typing import Dict, FrozenSet, Set, Tuple, TYPE_CHECKING

from rvlook.symbolic.decode import decode
from rvlook.symbolic.liveness import is_read

if TYPE_CHECKING:
    from rvlook.symbolic.decode import Decoded
    from rvlook.symbolic.fields import AnyState as State
    from rvlook.symbolic.flow import Flow, Flows

WORD_SHIFT = 2  # an index of words is shifted left by so many bits to get an offset in bytes
MAX_STEPS_TO_LOAD = 8  # a load counts as a use of the offset within so many instructions after the shift
MAX_STEPS_TO_JUMP = 4  # a loaded word is the target of a jump if the jump follows within so many instructions
INDEX_END = 8  # each value of an index below this number has a part of its own
MAX_PARTS = 8  # the most parts of one head; further values share one more part
Part = Tuple[int, ...]  # the values of the index registers of a path; -1 for a value that has no part of its own


class Indices:
    """The registers that are indices, by the place in the program. All searches share them."""

    def __init__(self, flows: Flows) -> None:
        self.flows = flows
        self.registers_by_pc: Dict[int, Tuple[int, ...]] = {}  # the index registers at each pc that was examined
        self.lives: Dict[int, FrozenSet[int]] = {}  # the live registers at each pc that was examined
        self.parts: Dict[Tuple[object, ...], Dict[Part, None]] = {}  # the parts of each head, by the key of the head

    def part(self, key: Tuple[object, ...], state: State) -> Part:
        """Returns the part to which a path at a head belongs. `key` names the head. If the head has MAX_PARTS parts already, a path with other values
        belongs to the part of all other values."""
        values = self.values(state)
        parts = self.parts.setdefault(key, {})
        if values not in parts and len(parts) >= MAX_PARTS:
            return tuple(-1 for _ in values)
        parts[values] = None
        return values

    def values(self, state: State) -> Part:
        """Returns the values of the index registers of a path at its pc: -1 for an expression, and for a value from INDEX_END on."""
        values = (state.regs[n] for n in self.of(state.entry, state.pc))
        return tuple(value if type(value) is int and value < INDEX_END else -1 for value in values)

    def live(self, pc: int) -> FrozenSet[int]:
        """Returns the registers that may be read from a pc on before they are written."""
        if pc not in self.lives:
            self.lives[pc] = frozenset(n for n in range(1, 32) if is_read(self.flows, pc, n, is_saved=False))
        return self.lives[pc]

    def of(self, entry: int, pc: int) -> Tuple[int, ...]:
        """Returns the live index registers at a pc of the function with an entry."""
        if pc not in self.registers_by_pc:
            flow = self.flows.of(entry)
            self.registers_by_pc[pc] = tuple(sorted(self.index_registers(flow, pc) & self.live(pc))) if flow else ()
        return self.registers_by_pc[pc]

    def is_changed(self, entry: int, head: int) -> bool:
        """Returns whether an instruction of a loop writes an index register. `entry` is the first instruction of the function, and `head` is the head
        of the loop."""
        flow = self.flows.of(entry)
        index_registers = self.of(entry, head)
        return flow is not None and any(self.at(pc).rd in index_registers for pc, heads in flow.heads.items() if head in heads)

    def index_registers(self, flow: Flow, pc: int) -> FrozenSet[int]:
        """Returns the registers that are shifted to the offset of a word which is then loaded, in any loop around an instruction."""
        around = set(flow.heads.get(pc, ()))
        registers: Set[int] = set()
        for place in flow.order:
            if around.isdisjoint(flow.heads.get(place, ())):
                continue
            instruction = self.at(place)
            is_word_offset = instruction.kind == "imm" and instruction.op == "sll" and instruction.imm == WORD_SHIFT
            if is_word_offset and self.is_loaded(place + 4, instruction.rd):
                registers.add(instruction.rs1)
        return frozenset(registers)

    def at(self, pc: int) -> Decoded:
        """Returns the instruction at a pc; after the end of the image, an illegal instruction."""
        offset = pc - self.flows.low
        return decode(int.from_bytes(bytes(self.flows.memory[offset:offset + 4]), "little"))

    def is_loaded(self, pc: int, register: int) -> bool:
        """Returns whether a word is loaded soon after a pc at an address that was computed from the offset in a register. A word that is the target
        of a jump does not count."""
        derived = {register}  # the registers that have the offset, or a sum with it
        for at in range(pc, pc + 4 * MAX_STEPS_TO_LOAD, 4):
            instruction = self.at(at)
            kind, rd, rs1 = instruction.kind, instruction.rd, instruction.rs1
            if kind == "load" and rs1 in derived:
                following = map(self.at, range(at + 4, at + 4 * MAX_STEPS_TO_JUMP, 4))
                is_target = any(later.kind == "jalr" and later.rs1 == rd for later in following)
                return instruction.width == 4 and not is_target
            has_derived = (kind in ("op", "imm") and rs1 in derived) or (kind == "op" and instruction.rs2 in derived)
            if instruction.op == "add" and has_derived:
                derived = derived | {rd}
            else:
                derived = derived - {rd}
            if not derived or kind in ("jal", "jalr", "ecall"):
                break
        return False
