"""Each step of a run, with all that it changed and accessed. After an instruction that does not trap only the register that it writes is
read. All registers are read after a trap and at the end of each part of the run, where the values so far must agree."""
from __future__ import annotations

import re
from functools import lru_cache
from itertools import islice
from typing import Iterator, NamedTuple, Optional, Sequence, Tuple

from rvlook.errors import Unfinished
from rvlook.protocol import names
from rvlook.protocol.instructions import Instruction, MemoryOperand, instruction_of
from rvlook.protocol.reader import Reader
from rvlook.protocol.replies import NO_TRAP, Location, RanFields, RanTrap, step_fields, trap_of
from rvlook.protocol.run import End, Run
from rvlook.protocol.stretch import Stretch
from rvlook.protocol.timeline import Line, Timeline

REGISTERS = 32
ALL = b"regs\n"  # the command that shows all registers and pc, in a line each
STEP_AND = [b"step 1\n", *(b"step 1\nreg %d\n" % number for number in range(1, REGISTERS))]  # by the register that the step writes, 0 for none
STEP_AND_ALL = b"step 1\n" + ALL  # after a trap, which may have changed any register
VALUE = re.compile(r"x\d+=(.{8})")  # finds the value of a register in a reply


class Touch(NamedTuple):
    """A load or store, derived from the instruction and the registers before it."""
    kind: str  # r for a load, w for a store
    address: int  # the address of the first byte
    width: int  # bytes
    done: bool  # false if the step trapped
    value: Optional[str]  # two digits for each byte; None after a trap, or if the loaded value was discarded


class CallMade(NamedTuple):
    """A call of the monitor, derived from the registers before the ecall."""
    call: names.Call  # the call that a6 names
    arguments: dict[str, int]  # the arguments by name
    slot: Optional[int]  # the slot of the enclave; None if it is unknown


class TracedStep(NamedTuple):
    """One step of a run, with its effects."""
    number: int  # the number of the step in the run, from 1
    hart: int  # the hart that did the step
    at: Location  # the location before the step
    instruction: Optional[Instruction]  # None if it could not be fetched
    changed: dict[int, str]  # registers with another value after the step, in hexadecimal digits
    touch: Optional[Touch]  # the load or store of the step; None without one
    call: Optional[CallMade]  # the call of the monitor; None for another step
    trap: Optional[RanTrap]  # None without a trap
    next: Location  # the location after the step
    written: Optional[str] = None  # the value after the step of the register that it writes

    @property
    def is_interrupt(self) -> bool:
        """Returns whether an interrupt replaced the instruction."""
        return self.trap is not None and self.trap.cause.startswith("8")

    @property
    def is_executed(self) -> bool:
        """Returns whether the word at pc was fetched: no interrupt came, and the fetch was not refused."""
        if self.trap is None:
            return True
        is_refused = self.trap.cause in names.FETCH_FAULTS and self.trap.value == self.at.pc
        return not is_refused and not self.is_interrupt

    @property
    def target(self) -> int | None:
        """Returns where a branch or a jump goes, or would go, or None."""
        if self.instruction is None or not self.is_executed:
            return None
        if self.instruction.offset is not None:
            return (int(self.at.pc, 16) + self.instruction.offset) & 0xFFFFFFFF
        return int(self.next.pc, 16) if self.instruction.name == "jalr" and self.trap is None else None


class TracedCommand(NamedTuple):
    """A line of the script that does no step."""
    step: int  # number of the step before it
    hart: int  # the hart that is chosen after it
    line: str  # the line in the syntax of the bench
    replies: tuple[str, ...]  # the replies to the line
    given: str  # the line as the script has it


Done = Tuple[RanFields, Optional[Instruction]]  # a step: the fields of its reply, and the instruction at pc before it


class Hart:
    """A hart before its next step."""

    def __init__(self, location: Location) -> None:
        self.location = location  # pc, mode and world
        self.registers: list[str] = []  # x0 to x31 in hexadecimal digits; empty if they must be read


class RunTracer:
    """The steps from `first` to `last`, with the lines of the script between them."""

    def __init__(self, run: Run, first: int = 1, last: int | None = None) -> None:
        self.run, self.first, self.last = run, first, last  # `last`: the number of the last step; None: to the end of the run
        start = Location(run.pc, run.mode, run.world)
        self.harts = [Hart(start) for _ in range(run.setup.harts)]  # the harts as they are before their next steps
        self.position = self.hart = 0  # steps so far; the chosen hart

    def events(self) -> Iterator[TracedCommand | TracedStep | End]:
        """Yields each TracedCommand, each TracedStep and the End in the order of the run. Two benches follow the first one, which reports each pc:
        one decodes the instructions, the other reads the register that each instruction writes."""
        with Reader[None](self.run, lambda line: None) as decoder, self.run.replay() as reader:
            for item in self.run.stretches():
                if isinstance(item, Line):
                    if item.command == "setreg":
                        self.harts[item.hart].registers = []
                    if not item.hidden and self.position + 1 >= self.first:
                        yield TracedCommand(self.position, item.hart, item.text, item.replies, item.given)
                elif isinstance(item, End):
                    yield item
                else:
                    yield from self.steps(decoder, reader, item)
                    if self.last is not None and self.position >= self.last:
                        yield self.cut()
                        return

    def cut(self) -> End:
        """Returns the end after the last wanted step."""
        location = self.harts[self.hart].location
        return End(self.position if self.last is None else self.last, "limit", location.pc, location.mode, location.world)

    def steps(self, decoder: Reader[None], reader: Timeline, stretch: Stretch) -> Iterator[TracedStep]:
        """Yields the wanted steps of a stretch; raises Unfinished if the registers do not agree."""
        self.hart, hart, end = stretch.hart, self.harts[stretch.hart], stretch.first + stretch.count - 1
        first, last = max(self.first, stretch.first), min(end, self.last or end)
        if first > end:
            hart.location, hart.registers, self.position = location_of(stretch.last), [], end
            return
        rans = step_fields(stretch.data)
        if first > stretch.first:
            hart.location, hart.registers = location_of(rans[first - stretch.first - 1]), []
        shown = slice(first - stretch.first, last - stretch.first + 1)
        rans, instructions = rans[shown], list(map(instruction_of, decoder.read(stretch).lines[shown]))
        values = registers_after(reader, hart, first, rans, instructions)
        for number, done in enumerate(zip(rans, instructions), first):
            yield traced(number, stretch.hart, hart, done, values)
        if list(values) != hart.registers:
            raise Unfinished("the registers after step %d differ from those derived from its steps" % last)
        self.position = last


@lru_cache(maxsize=65536)
def location_of(ran: RanFields) -> Location:
    """Returns where a hart is after a step."""
    pc, mode, world, _ = ran
    return Location(pc.decode(), mode.decode(), world.decode())


def registers_after(reader: Timeline, hart: Hart, first: int, rans: Sequence[RanFields], instructions: Sequence[Instruction | None]) -> Iterator[str]:
    """Does the steps from number `first` on. Yields the value of the register that each step writes; of all registers after a trap and at the end."""
    reader.go_before(first)
    if not hart.registers:
        hart.registers = [line[-8:] for line in reader.bench.ask("regs")[0][:REGISTERS]]
    queries = [STEP_AND_ALL if ran[3] != NO_TRAP else STEP_AND[code.writes if code else 0] for ran, code in zip(rans, instructions)]
    text = b"".join(queries) + ALL
    block = reader.bench.block(text, text.count(b"\n") + text.count(ALL) * REGISTERS)
    reader.lines_to(first - 1 + len(rans))
    return iter(VALUE.findall(block.decode()))


def traced(number: int, hart_number: int, hart: Hart, done: Done, values: Iterator[str]) -> TracedStep:
    """Returns a step. `hart` is the hart before the step, and is updated to the state after it. `values` yields the registers that the step wrote."""
    before, (ran, instruction) = hart.location, done
    after = hart.location = location_of(ran)
    if ran[3] != NO_TRAP:
        trap = trap_of(ran[3].decode())
        return trapped(TracedStep(number, hart_number, before, instruction, changed={}, touch=None, call=None, trap=trap, next=after), hart, values)
    touch, changed, value = None, {}, None
    if instruction is not None:
        registers, memory, writes = hart.registers, instruction.memory, instruction.writes
        address = (int(registers[memory.base], 16) + memory.offset) & 0xFFFFFFFF if memory else 0
        if writes:
            value = next(values)
            if value != registers[writes]:
                registers[writes] = value
                changed = {writes: value}
        if memory:
            touch = touched(memory, address, registers[memory.register])
    return TracedStep(number, hart_number, before, instruction, changed, touch, None, None, after, value)


def touched(memory: MemoryOperand, address: int, value: str) -> Touch:
    """Returns a load or store that was done; `value` is its register after it."""
    has_value = memory.kind == "w" or memory.register  # a load to x0 discards the value
    return Touch(memory.kind, address, memory.width, True, value[8 - 2 * memory.width:] if has_value else None)


def trapped(step: TracedStep, hart: Hart, values: Iterator[str]) -> TracedStep:
    """Returns a step that trapped, with what it changed: any register may have another value after it, as another world may continue."""
    before, trap, instruction, at = hart.registers, step.trap, step.instruction, step.at
    assert trap is not None
    after = hart.registers = list(islice(values, REGISTERS))
    changed = {n: after[n] for n in range(1, REGISTERS) if after[n] != before[n]}
    memory = instruction.memory if instruction and trap.cause in names.ACCESS_FAULTS else None
    address = (int(before[memory.base], 16) + memory.offset) & 0xFFFFFFFF if memory else 0
    touch = Touch(memory.kind, address, memory.width, done=False, value=None) if memory else None
    is_call = trap.cause == names.ECALL_FROM_S and at.world != "bare"
    call = call_of(at.world, [int(register, 16) for register in before], [int(register, 16) for register in after]) if is_call else None
    return step._replace(changed=changed, touch=touch, call=call)


def call_of(world: str, registers: Sequence[int], after: Sequence[int]) -> CallMade | None:
    """Returns the call that an ecall from S made in a world, or None. `registers` are those before the ecall, `after` those after it."""
    call = names.call_of(registers)
    if call is None:
        return None
    arguments = dict(zip(names.ARGUMENTS[call], registers[10:15]))
    slot: int | None
    if world != "host":
        slot = int(world[1:])
    elif call is names.Call.create:
        slot = after[11] if after[10] == 0 else None  # a0 of 0: create has succeeded, and a1 is the slot
    else:
        slot = arguments.get("slot")
    return CallMade(call, arguments, slot if slot is not None and slot <= names.LAST_SLOT else None)
