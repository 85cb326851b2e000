"""Stack overflows: the first use of each stack that lies outside the range which its symbols give. A use is a write of sp, whatever the
instruction, a store through sp, or a store through another pointer that came from sp. A stack is a pair of symbols NAME_stack_bottom and
NAME_stack_top. The host uses those whose NAME ends with `host`, an enclave in mode S those with `runtime`, in mode U those with `application`. On
the bare bench M uses those with `monitor`, if there are any; S and U are not checked if the image has an enclave. All of this is derived from the
instruction at pc, registers before the step, and the symbols. For pointers that come from sp, each register has a coefficient: how often the stack
pointer is a summand of its value. It is 1 for a pointer into the stack, and 0 for a number, for any other pointer, and for the difference of two
pointers into the stack."""
from __future__ import annotations

import re
from dataclasses import dataclass, field
from functools import lru_cache
from itertools import groupby
from typing import Container, Iterator, NamedTuple, Optional, Sequence

from rvlook.errors import warn
from rvlook.output.findings import ReportedCases
from rvlook.protocol import names
from rvlook.protocol.instructions import Instruction, MemoryOperand, instruction_of
from rvlook.protocol.reader import Need, Reader, Reads
from rvlook.protocol.replies import NO_TRAP
from rvlook.protocol.run import Run
from rvlook.protocol.stretch import Stretch
from rvlook.protocol.symbols import Symbols

SP, A0, A1 = 2, 10, 11  # numbers of registers
WORD = 4  # bytes of a pointer
REGISTERS = 32
NAME = re.compile(r"(.*(host|runtime|application|monitor))_stack_bottom\Z")
WORLD_KINDS = {"host": ("host",), "runtime": ("runtime", "application"), "application": ("runtime", "application")}  # those of the same world
REACHABLE_KINDS = {"host": ("host",), "runtime": ("runtime", "application"), "application": ("application",)}  # the stacks that a store may reach
WORD_MASK = 0xFFFFFFFF
TIMER, CALL = names.TIMER.encode(), names.ECALL_FROM_S.encode()  # causes of traps
FACTORS = {"add": (1, 1), "or": (1, 1), "sub": (1, -1)}  # the result as a sum of the two operands, each with its factor
UPPER_INSTRUCTIONS = ("lui", "auipc")  # build the upper part of a constant


class PointerOperation(NamedTuple):
    """An instruction that writes a register or accesses memory, as far as it moves pointers into the stack. The result of a computation is a sum of
    its operands, each multiplied by its factor."""
    writes: int  # number of the destination register; 0 for none
    sources: tuple[int, int] = (0, 0)  # numbers of the operands
    factors: tuple[int, int] = (0, 0)  # 0 for an operand that is not a summand
    memory: Optional[MemoryOperand] = None  # the access; None for a computation
    register: Optional[int] = None  # the register to be read: the base of an access, or sp after a write; None: no register
    is_store: bool = False  # whether it stores
    is_upper: bool = False  # whether it is lui or auipc


def operation_of(line: bytes) -> PointerOperation | None:
    """Decodes a reply of `dis`; returns None for an instruction that neither writes a register nor accesses memory."""
    instruction = instruction_of(line)
    if instruction is None:
        return None
    memory = instruction.memory
    if memory:
        sources = memory.base, memory.register
        return PointerOperation(instruction.writes, sources, memory=memory, register=memory.base, is_store=memory.kind == "w")
    return computation_of(instruction) if instruction.writes else None


def computation_of(instruction: Instruction) -> PointerOperation:
    """Decodes an instruction that writes a register and accesses no memory."""
    name, writes, operands, sources, factors = instruction.name, instruction.writes, instruction.operands, (0, 0), (0, 0)
    if name in FACTORS:
        sources, factors = (operands[1], operands[2]), FACTORS[name]
    elif name in ("addi", "ori") or name == "andi" and operands[2] < 0:  # andi with a negative constant aligns a pointer
        sources, factors = (operands[1], 0), (1, 0)
    return PointerOperation(writes, sources, factors, register=SP if writes == SP else None, is_upper=name in UPPER_INSTRUCTIONS)


@dataclass
class Pointers:
    """The coefficients of the registers and stored words of a world: how often the stack pointer is a summand. 1 is a pointer into the stack."""
    registers: list[int] = field(default_factory=lambda: [int(number == SP) for number in range(REGISTERS)])  # coefficients of x0 to x31
    words: dict[int, int] = field(default_factory=dict)  # coefficients of stored words, by address

    def is_pointer(self, register: int) -> bool:
        """Returns whether a register has a pointer into the stack."""
        return self.registers[register] == 1

    def has_source(self, operation: PointerOperation) -> bool:
        """Returns whether an operand of a computation is a pointer into the stack."""
        return any(self.is_pointer(register) for register in operation.sources)

    def set_stack_pointer(self, operation: PointerOperation) -> None:
        """Sets the coefficient of sp after an instruction that writes sp and accesses no memory. The result of lui or auipc is no pointer."""
        self.registers[SP] = int(not operation.is_upper)

    def apply_access(self, memory: MemoryOperand, address: int) -> None:
        """Changes the coefficients as a load or store at an address does. After a load into sp, sp counts as a pointer into the stack."""
        kind, width, _, _, register = memory
        if kind == "r" and register == SP:
            self.registers[SP] = 1
        elif kind == "r":
            self.registers[register] = self.words.get(address, 0) if width == WORD and register else 0
        elif width == WORD and self.registers[register]:
            self.words[address] = self.registers[register]
        else:
            self.words.pop(address, None)

    def clear_answer(self) -> None:
        """Sets a0 and a1 to no pointer, because the monitor wrote its answer to a call there."""
        self.registers[A0] = self.registers[A1] = 0


class Stack(NamedTuple):
    """A stack of the monitor, of the host, or of the runtime or the application of an enclave."""
    name: str  # the name with which its symbols begin
    kind: str  # host, runtime, application or monitor
    bottom: int  # the address of the first byte
    top: int  # the address after the last byte


class Overflow(NamedTuple):
    """The first use of a stack outside its range: a store, or a write of sp."""
    step: int  # the number of the step
    hart: int  # the hart that did it
    world: str  # the world of the hart
    pc: int  # the pc of the instruction
    is_store: bool  # false for a write of sp
    address: int  # the first byte stored, or the new sp
    stack: Stack  # the stack that overflows


def stacks_of(symbols: Symbols) -> dict[str, list[Stack]]:
    """Returns the stacks that the symbols define, by kind: `host`, `runtime`, `application` or `monitor`."""
    stacks: dict[str, list[Stack]] = {}
    for name, symbol in symbols.by_name.items():
        match = NAME.match(name)
        top = symbols.by_name.get(match[1] + "_stack_top") if match else None
        if match and top and symbol.address < top.address:
            stacks.setdefault(match[2], []).append(Stack(match[1], match[2], symbol.address, top.address))
    return stacks


def kind_of(world: str, mode: str, kinds: Container[str] = ()) -> str | None:
    """Returns the kind of stack that a world uses in a mode, or None if the kind is unknown. `kinds` are the kinds that the symbols define."""
    if world == "bare" and mode == "M":
        return "monitor" if "monitor" in kinds else "host"
    if world == "bare" and "runtime" in kinds:
        return None  # the host or an enclave, below a monitor
    if world in ("host", "bare"):
        return "host"
    return "runtime" if mode == "S" else "application"


class UniformSteps(NamedTuple):
    """Successive steps of a stretch with equal world, mode and trap."""
    stretch: Stretch  # the stretch that has the steps
    begin: int  # index of the first step in the stretch
    end: int  # index after the last step
    world: bytes  # the world before each step
    kind: Optional[str]  # the kind of the stack that the world uses; None if it is not known
    trap: bytes  # the trap of each step, a hyphen without a trap


class OverflowFinder:
    """Finds the first overflow of each kind of stack."""
    def __init__(self, stacks: dict[str, list[Stack]]) -> None:
        self.stacks = stacks  # the stacks by kind
        self.found: dict[str, Overflow] = {}  # the first overflow, by kind of stack
        self.pointers: dict[str, Pointers] = {}  # the pointers of each world
        self.exit_pcs: dict[str, int] = {}  # by world: the pc of the step with which it last left
        self.kinds: dict[tuple[bytes, bytes], Optional[str]] = {}  # the kinds of stack, by world and mode

    def check_stretch(self, stretch: Stretch, reads: Reads[PointerOperation]) -> None:
        """Checks steps of one hart, one after another, in parts with equal world, mode and trap."""
        columns, world, at = stretch.columns, b"", 0  # `at`: the index of the next step
        values = map(reads.values.__getitem__, reads.starts)  # of the registers that were read, in the order of the steps
        decoded = {line: operation_of(line) for line in set(reads.lines)}  # each text once
        operations = list(map(decoded.__getitem__, reads.lines))  # the operation of each step
        for (step_world, mode, trap), steps in groupby(zip(columns.worlds, columns.modes, columns.traps)):
            if step_world != world:
                world = step_world
                pointers = self.enter(stretch.hart, world.decode(), int(columns.pcs[at], 16))
            part = UniformSteps(stretch, at, at + len(list(steps)), world, self.kind(world, mode), trap)
            if trap == NO_TRAP:
                self.check_untrapped(part, operations, values, pointers)
            else:
                self.check_trapped(part, operations, values, pointers)
            at = part.end

    def check_untrapped(self, part: UniformSteps, operations: Sequence[Optional[PointerOperation]], values: Iterator[int],
                        pointers: Pointers) -> None:
        """Checks the steps of a part without traps, and updates `pointers` after each. `values` yields the registers that the operations read."""
        registers = pointers.registers
        for at, operation in enumerate(operations[part.begin:part.end], part.begin):
            if operation is None:
                continue
            writes, (first_source, second_source), (first_factor, second_factor), memory, register, is_store, _ = operation
            if register is None:  # a computation with another destination than sp
                registers[writes] = first_factor * registers[first_source] + second_factor * registers[second_source]
                continue
            address = next(values) + memory.offset & WORD_MASK if memory else next(values)
            if is_store or writes == SP:
                self.check(part, at, operation, pointers, address)
            pointers.apply_access(memory, address) if memory else pointers.set_stack_pointer(operation)

    def check_trapped(self, part: UniformSteps, operations: Sequence[Optional[PointerOperation]], values: Iterator[int],
                      pointers: Pointers) -> None:
        """Checks the steps of a part that trapped. None of them changes a register or memory, but the monitor writes the answer to a call."""
        columns, is_timer = part.stretch.columns, part.trap.startswith(TIMER)
        for at in range(part.begin, part.end):
            operation = operations[at]
            if is_timer if operation else columns.after[at] != part.world:
                self.exit_pcs[part.world.decode()] = int(columns.pcs[at], 16)
            if part.trap.startswith(CALL):
                pointers.clear_answer()
            if operation is None or operation.register is None:
                continue
            address = next(values) + operation.memory.offset & WORD_MASK if operation.memory else next(values)
            if (operation.is_store or operation.writes == SP) and not is_timer:
                self.check(part, at, operation, pointers, address)

    def check(self, part: UniformSteps, at: int, operation: PointerOperation, pointers: Pointers, address: int) -> None:
        """Adds an overflow if a step uses a stack outside its range. `at` is the index of the step; `address` the stored one, or the new sp."""
        if part.kind and self.is_outside(part.kind, operation, pointers, address):
            stretch, pc = part.stretch, int(part.stretch.columns.pcs[at], 16)
            self.found[part.kind] = Overflow(stretch.first + at, stretch.hart, part.world.decode(), pc, operation.is_store, address,
                                             self.nearest(part.kind, address))

    def enter(self, hart: int, world: str, pc: int) -> Pointers:
        """Returns the pointers of a world that continues at pc. If an enclave is entered elsewhere than where it left, only sp is a pointer."""
        key = world if world.startswith("e") else "%s %d" % (world, hart)  # an enclave can move to another hart, with its registers
        exit_pc = self.exit_pcs.get(world)
        if key not in self.pointers or exit_pc is not None and pc not in (exit_pc, exit_pc + 4):
            self.pointers[key] = Pointers()
        return self.pointers[key]

    def kind(self, world: bytes, mode: bytes) -> str | None:
        """Returns the kind of stack that a world uses in a mode; None if it is not known."""
        if (world, mode) not in self.kinds:
            self.kinds[world, mode] = kind_of(world.decode(), mode.decode(), self.stacks)
        return self.kinds[world, mode]

    def is_outside(self, kind: str, operation: PointerOperation, pointers: Pointers, address: int) -> bool:
        """Returns whether a step uses a stack outside its range. Only the first use of each kind of stack counts."""
        if kind in self.found or kind not in self.stacks:
            return False
        allowed_kinds: Sequence[str] = ()
        is_store = operation.is_store
        if is_store:
            base = operation.sources[0]
            allowed_kinds = (kind,) if base == SP else REACHABLE_KINDS.get(kind, ()) if pointers.is_pointer(base) else ()
        elif operation.memory is None and not operation.is_upper and address:
            # an address of 0 is skipped: a trap handler exchanges sp with sscratch, which may be 0
            allowed_kinds = (kind,) if pointers.has_source(operation) else self.stacks_of_world(kind)
        stacks = [stack for name in allowed_kinds for stack in self.stacks.get(name, ())]
        # sp may be equal to the top, which is the sp of an empty stack; a store may not begin there
        return bool(stacks) and not any(stack.bottom <= address and address - (not is_store) < stack.top for stack in stacks)

    def nearest(self, kind: str, address: int) -> Stack:
        """Returns the stack of a kind that is nearest to an address."""
        return min(self.stacks[kind], key=lambda stack: min(abs(stack.bottom - address), abs(stack.top - address)))

    def stacks_of_world(self, kind: str) -> Sequence[str]:
        """Returns the kinds of stacks to which a world may switch. Returns no kind if the symbols do not define each of them."""
        kinds = WORLD_KINDS.get(kind, ())
        return kinds if all(kind in self.stacks for kind in kinds) else ()


@lru_cache(maxsize=65536)
def need_of(line: bytes) -> Need[PointerOperation] | None:
    """Returns the operation of the instruction in a reply of `dis`, and the register that must be read: the base of its access, or sp after a
    write of sp. Returns None if no register must be read."""
    operation = operation_of(line)
    return (operation, (operation.register,), operation.memory is None) if operation and operation.register is not None else None


def overflows(run: Run, symbols: Symbols) -> list[Overflow]:
    """Returns the first overflow of each kind of stack, in the order of the run. Returns no overflow if the symbols define no stack."""
    stacks = stacks_of(symbols)
    if not stacks:
        return []
    finder = OverflowFinder(stacks)
    with Reader(run, need_of) as reader:
        for item in run.stretches():
            if isinstance(item, Stretch):
                finder.check_stretch(item, reader.read(item))
    return sorted(finder.found.values(), key=lambda it: it.step)


def report_overflows(run: Run, symbols: Symbols, findings: ReportedCases) -> None:
    """Reports each stack overflow of the run as a finding."""
    for overflow in overflows(run, symbols):
        warn(overflow_text(overflow, symbols))
        findings.add("stack", overflow_text(overflow, symbols))


def overflow_text(overflow: Overflow, symbols: Symbols) -> str:
    """Returns an overflow as a line: its place, and how many bytes it is outside."""
    use = "store to" if overflow.is_store else "sp set to"
    stack, address = overflow.stack, overflow.address
    outside, bound, side = ("below", stack.bottom, "bottom") if address < stack.bottom else ("above", stack.top, "top")
    return "stack overflow in %s at step %d, %s: %s %08x, %d bytes %s %s_stack_%s" % (
        overflow.world, overflow.step, symbols.place(overflow.pc), use, address, abs(bound - address), outside, stack.name, side)
