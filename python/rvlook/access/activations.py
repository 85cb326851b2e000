"""The activations of enclaves in a run, from each entry to the exit after it, with their loads, stores and operands of divisions."""
from __future__ import annotations

from array import array
from collections import Counter
from dataclasses import dataclass, field
from functools import lru_cache
from typing import Generator, Iterable, Iterator, NamedTuple, Optional, Sequence

from rvlook.protocol import names
from rvlook.protocol.instructions import MemoryOperand, instruction_of
from rvlook.protocol.memory_map import RAM_BASE
from rvlook.protocol.reader import Need, Reader, Reads
from rvlook.protocol.replies import NO_TRAP, Enclave, enclave_of, register_values
from rvlook.protocol.run import End, Run
from rvlook.protocol.stretch import Stretch

DIVISIONS = ("div", "divu", "rem", "remu")  # instructions whose time may depend on the operands
ENDED_BY = {0: "exit", 1: "stop", 2: "timer"}  # why an enclave left, by a0 of the host after it
BARE = "bare"  # the world of a run without the monitor


class Operation(NamedTuple):
    """A load, a store or a division in a step."""
    step: int  # number of the step of the run
    pc: int  # the pc of the instruction
    kind: str  # r for a load, w for a store, d for a division
    address: int  # the address of the access; 0 for a division
    width: int  # bytes of the access; 0 for a division
    values: Sequence[int]  # the bytes of a store, or the operands of a division; empty for a load
    done: bool  # false if the step trapped


@dataclass
class Activation:
    """An activation: an enclave on a hart, from its first step to the step that leaves it. An index counts its steps from 0."""
    world: str  # the enclave, such as `e0`; `bare` on the bare bench
    hart: int  # the hart on which it runs
    first: int  # number of its first step
    number: int  # the number of the activation in its slot
    enclave: Enclave  # the entry of the enclave in the enclave table
    last: int = 0  # number of the step that leaves; 0 while it runs
    ended_by: str = ""  # exit, stop, timer, or none at the end of the run
    answer: tuple[int, ...] = ()  # a0 and a1 of the host after it; may be empty
    pc: Optional[int] = None  # the pc of the last step
    pcs: array[int] = field(default_factory=lambda: array("I"))  # the pc of each step, with its mode in the lowest bits
    steps: array[int] = field(default_factory=lambda: array("I"))  # the number of each step in the run
    traps: dict[int, bytes] = field(default_factory=dict)  # the traps of the steps that trapped, by index
    operations: list[Operation] = field(default_factory=list)  # loads and stores, and divisions if they are recorded
    operations_at: array[int] = field(default_factory=lambda: array("I"))  # the index of the step of each operation
    before: bytes = b""  # the window at the entry
    after: bytes = b""  # the window at the end
    others: tuple[str, ...] = ()  # the world of the other hart at the entry; empty if there is one hart
    table: tuple[Enclave, ...] = ()  # the table of the live enclaves at the entry

    @property
    def slot(self) -> int:
        """Returns the slot of the enclave, 0 on the bare bench."""
        return 0 if self.world == BARE else int(self.world[1:])


def access_of(line: bytes) -> Need[MemoryOperand] | None:
    """Returns the access in a reply of `dis`, with the registers of its address and its stored value; None for an instruction without one."""
    instruction = instruction_of(line)
    memory = instruction.memory if instruction else None
    return (memory, (memory.base, memory.register) if memory.kind == "w" else (memory.base,), False) if memory else None


def operands_of(line: bytes) -> Need[MemoryOperand] | None:
    """Returns the access as `access_of` does; for a division its two operands, as an access of the kind `d`."""
    instruction = instruction_of(line)
    if instruction is None or instruction.name not in DIVISIONS:
        return access_of(line)
    _, dividend, divisor = instruction.operands
    return MemoryOperand("d", width=0, base=dividend, offset=0, register=divisor), (dividend, divisor), False


@lru_cache(maxsize=65536)
def number_of(pc: bytes) -> int:
    """Returns the number that the hexadecimal digits of a pc denote."""
    return int(pc, 16)


class Activations:
    """The activations of a run after a step. `is_strict` records the operands of divisions too. A bare run is one activation without a window."""
    def __init__(self, run: Run, start: int = 0, is_strict: bool = False) -> None:
        self.run, self.start, self.is_strict = run, start, is_strict  # `start`: the step after which activations are taken
        self.worlds = [run.world] * run.setup.harts  # the world of each hart
        self.open: list[Activation | None] = [None] * run.setup.harts  # the open activation of each hart; None if no enclave runs there
        self.numbers: Counter[str] = Counter()  # activations so far, by world
        self.end: End | None = None  # None until the run has ended

    def all(self) -> Generator[Activation, None, None]:
        """Yields each activation after it has ended; one that is open at the end of the run comes last."""
        with Reader(self.run, operands_of if self.is_strict else access_of) as reader:
            self.viewer = reader.replay
            for item in self.run.stretches():
                if isinstance(item, End):
                    self.end = item
                elif isinstance(item, Stretch) and item.first + item.count <= self.start:
                    self.numbers.update(self.entered(item.columns.worlds, item.columns.after))
                elif isinstance(item, Stretch):
                    for part in item.by_world():
                        yield from self.take(part, reader)
            for activation in (activation for activation in self.open if activation):
                assert self.end is not None
                yield self.complete(activation, self.end.steps, pc=None, ended_by="none")

    def take(self, part: Stretch, reader: Reader[MemoryOperand]) -> Iterator[Activation]:
        """Adds steps in one world to the open activation of their hart, or to a new one. Yields the activation if it ends with these steps."""
        hart, world, after = part.hart, part.before[2].decode(), part.last[2].decode()
        if world.startswith("e") or not self.run.setup.monitor:
            activation = self.open[hart] or self.begin_activation(world, hart, max(self.start, part.first - 1))
            extend(activation, part, reader.read(part))
            self.open[hart] = activation if after == world else None
            if after != world:
                yield self.complete(activation, part.first + part.count - 1, int(part.columns.pcs[-1], 16))
        self.worlds[hart] = after

    @staticmethod
    def entered(worlds: Iterable[bytes], worlds_after: Iterable[bytes]) -> list[str]:
        """Returns the enclaves that steps entered."""
        return [after.decode() for before, after in zip(worlds, worlds_after) if after != before and after.startswith(b"e")]

    def begin_activation(self, world: str, hart: int, step: int) -> Activation:
        """Returns the activation of an enclave, or of a bare run, that begins after a step of the run."""
        self.numbers[world] += 1
        enclave, before = self.table_and_window(world, step)
        activation = Activation(world, hart, step + 1, self.numbers[world], enclave, before=before)
        activation.table = tuple(map(enclave_of, self.viewer.bench.ask("enclaves")[0]))
        activation.others = tuple(other for number, other in enumerate(self.worlds) if number != hart)
        return activation

    def complete(self, activation: Activation, step: int, pc: int | None, ended_by: str | None = None) -> Activation:
        """Completes an activation that ends with a step at `pc`, and returns it. If `ended_by` is None, reads from a0 why the enclave left."""
        _, activation.after = self.table_and_window(activation.world, step, activation.enclave)
        activation.last, activation.pc, activation.ended_by = step, pc, ended_by or ""
        if ended_by is None:
            before, after = map(self.run.setup.choice, (activation.hart, self.viewer.hart))
            values = register_values(self.viewer.bench.ask(*before, "regs", *after)[len(before)])
            activation.ended_by, activation.answer = ENDED_BY.get(values[10], "?"), (values[10], values[11])
        return activation

    def table_and_window(self, world: str, step: int, enclave: Enclave | None = None) -> tuple[Enclave, bytes]:
        """Returns the table entry of an enclave, and the bytes of its window, after a step. If the table has no entry, returns `enclave` instead."""
        bench = self.viewer.bench
        *_, table = bench.ask(*self.viewer.lines_to(step), "enclaves")
        entry = next((enclave for enclave in map(enclave_of, table) if enclave.world == world), enclave or self.bare_region(world))
        assert entry is not None
        return entry, bench.memory(entry.window, entry.window_size)

    def bare_region(self, world: str) -> Enclave | None:
        """Returns all of RAM in place of the region of an enclave, for a bare run; None for an enclave that is not live."""
        ram = self.run.setup.ram
        return Enclave(0, "Running", RAM_BASE, ram, window=0, window_size=0, entry=RAM_BASE, measurement="") if world == BARE else None


def extend(activation: Activation, part: Stretch, reads: Reads[MemoryOperand]) -> None:
    """Adds steps, and the operations in them, to an activation."""
    columns, begin_at = part.columns, len(activation.pcs)
    activation.pcs += columns.pcs_with_modes
    activation.steps.extend(range(part.first, part.first + part.count))
    if columns.traps.count(NO_TRAP) < part.count:
        activation.traps.update([(begin_at + n, trap) for n, trap in enumerate(columns.traps) if trap != NO_TRAP])
    operations = operations_of(part, reads)
    activation.operations += operations
    activation.operations_at.extend([begin_at - part.first + operation.step for operation in operations])


def operations_of(part: Stretch, reads: Reads[MemoryOperand]) -> list[Operation]:
    """Returns the loads, stores and divisions in steps. `reads` has their operands, and the values of the registers that these need."""
    operations, values, first = [], reads.values, part.first
    pcs, traps = (map(column.__getitem__, reads.indices) for column in (part.columns.pcs, part.columns.traps))
    for n, pc, trap, (kind, width, _, offset, _), at in zip(reads.indices, map(number_of, pcs), traps, reads.items, reads.starts):
        if kind == "d":
            if trap == NO_TRAP:
                operations.append(Operation(first + n, pc, kind, address=0, width=0, values=(values[at], values[at + 1]), done=True))
        elif trap == NO_TRAP or trap[:8].decode() in names.ACCESS_FAULTS:
            stored = values[at + 1].to_bytes(4, "little")[:width] if kind == "w" else b""
            operations.append(Operation(first + n, pc, kind, values[at] + offset & 0xFFFFFFFF, width, stored, trap == NO_TRAP))
    return operations
