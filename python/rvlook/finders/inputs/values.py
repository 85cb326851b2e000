"""The inputs that the host gives in a trace, and the values that a search tries for each of them. For both, the bytes that the enclave loads from
its window, the operands of branches, and the fields of the window are read. Also requests of the run in another order. A *request* is what one
activation loads from the window. An activation gets the request of another one, or a part of it, so that a check over the whole request may still
pass."""
from __future__ import annotations

import random
import re
from collections import defaultdict
from dataclasses import dataclass, field, replace
from itertools import chain, combinations, islice
from typing import Callable, Iterable, Iterator, Mapping, NamedTuple, Sequence

from rvlook.access.fields import WindowFields
from rvlook.finders.inputs.code import A0, Code, Kind
from rvlook.finders.inputs.objects import Objects
from rvlook.finders.inputs.trace import Change, Changes, Trace, TraceVisit, runs_of
from rvlook.finders.inputs.tracer import Tracer, advances
from rvlook.protocol.memory_map import RAM_BASE

MAX_SOURCE_STEPS, MAX_SOURCE_DEPTH = 64, 4  # steps that are searched, and instructions that are followed, back to where a register comes from
WORD = 4  # bytes
STEPS_AHEAD = 400  # steps after a load in which branches and accesses are considered
MAX_VALUES, MAX_MOVED_ACCESSES, MAX_TARGET_OBJECTS = 64, 6, 6  # for each input: values, accesses that it may move, objects that values point to
MAX_FIRST_WORDS = 4  # words at the start of a buffer that are inputs
MAX_CONSTANTS = 12  # the most constants that are taken from instructions after a load
NEAR = 1 << 12  # two operands of a branch with a smaller distance may become equal if an input changes by the distance
VALUES_PER_PART = 3  # values of other inputs for each value of a part of a buffer
IMMEDIATE = re.compile(r"(?:lui|addi|xori|slti|sltiu) x(\d+), (?:x(\d+), )?(-?(?:0x)?[0-9a-f]+)\Z")  # destination, source and constant
FILLS = ((0x41, 20), (0x41, 40), (0x41, 512), (0xFF, 512), (0x00, 512))  # bytes, and how many bytes at most are filled with them
WORD_MASK = 0xFFFFFFFF
MAX_ORDERS = 48  # runs with requests in another order
Content = Mapping[int, int]  # bytes by address


@dataclass
class Details:
    """Loads and branches of a trace, by index of the step."""
    loaded: dict[int, bytes] = field(default_factory=dict)  # the bytes of each load from the window
    operands: dict[int, tuple[int, int]] = field(default_factory=dict)  # the operands of each branch


class DetailReader:
    """Reads from runs of rvbench what traces do not have: loaded bytes, operands of branches, and arguments of functions."""
    def __init__(self, tracer: Tracer, objects: Objects, fields: WindowFields) -> None:
        self.tracer, self.objects, self.fields = tracer, objects, fields  # `fields`: names of the fields of the window
        self.parameters_of: dict[int, list[tuple[int, object]]] = {}  # by address of a function: number and members of each parameter
        for parameter in objects.parameters:
            self.parameters_of.setdefault(parameter.function, []).append((parameter.number, parameter.members))

    def read(self, trace: Trace) -> Details:
        """Returns the details of a trace. Adds the fields of the window that its calls show."""
        questions = list(self.detail_questions(trace))
        with self.tracer.with_changes(trace.changes).replay() as replay:
            text, count = [], 0
            steps = advances(replay, [trace.steps[index] - 1 for index, _ in questions], has_next=True)
            for step, (_, lines) in zip(steps, questions):
                text += [step, lines]
                count += step.count(b"\n") + lines.count(b"\n")
            all_replies = replay.bench.block(b"".join(text), count).split(b"\n")
        replies = [reply for reply in all_replies if reply[:1] in (b"x", b"8") or reply[8:9] == b":"]  # to `reg` and `mem`
        return self.decoded_details(trace, questions, replies)

    def detail_questions(self, trace: Trace) -> Iterator[tuple[int, bytes]]:
        """Yields indices of steps, each with the commands that read details before the step. The details are the arguments at the start of a
        function, the operands of a branch, and the bytes that a load takes from the window."""
        for index in range(len(trace)):
            code, pc = self.tracer.code[trace.pcs[index]], trace.pcs[index]
            if pc in self.parameters_of:
                yield index, b"".join(b"reg %d\n" % (A0 + number) for number, _ in self.parameters_of[pc])
            if code.kind is Kind.BRANCH:
                yield index, b"reg %d\nreg %d\n" % code.sources
            elif code.kind is Kind.LOAD and self.objects.enclave.shares(trace.addresses[index]) and index not in trace.traps:
                yield index, b"mem %x %d\n" % (trace.addresses[index], code.width)

    def decoded_details(self, trace: Trace, questions: list[tuple[int, bytes]], replies: list[bytes]) -> Details:
        """Decodes the replies to `questions`. Adds the fields to which arguments point, if they are in the window."""
        details, remaining_replies = Details(), iter(replies)
        for index, lines in questions:
            code = self.tracer.code[trace.pcs[index]]
            if lines.startswith(b"mem"):
                details.loaded[index] = bytes.fromhex(next(remaining_replies).split(b":")[1].decode())
                continue
            registers = [int(next(remaining_replies)[-8:], 16) for _ in range(lines.count(b"\n"))]
            if code.kind is Kind.BRANCH and lines == b"reg %d\nreg %d\n" % code.sources:
                details.operands[index] = registers[0], registers[1]
            else:
                for (_, members), pointer in zip(self.parameters_of[trace.pcs[index]], registers):
                    if self.objects.enclave.shares(pointer):
                        self.fields.add(pointer, members)  # type: ignore[arg-type]
        return details

    def is_private(self, trace: Trace, index: int, register: int, depth: int = 0) -> bool:
        """Returns whether the value of a register before a step comes from memory of the region below the stacks, so that the host does not know it.
        `depth` is the number of instructions that were followed back so far."""
        if not register or depth > MAX_SOURCE_DEPTH:
            return False
        for at in range(index - 1, max(-1, index - MAX_SOURCE_STEPS), -1):
            code: Code = self.tracer.code[trace.pcs[at]]
            if code.writes != register:
                continue
            if code.kind is Kind.LOAD:
                return self.objects.enclave.has(trace.addresses[at]) and trace.addresses[at] < self.objects.stack
            return any(self.is_private(trace, at, source, depth + 1) for source in code.sources)
        return False


@dataclass(frozen=True)
class Input:
    """Bytes that a step loads from the window, or a register at an entry."""
    visit: int  # number of the activation, from 0
    index: int  # the index of the load in the trace
    start: int  # index of the first step that depends on the bytes
    step: int  # number of the step of the run after which they are changed
    at: int  # address; 0 for a register
    value: bytes  # the value without a change
    is_loaded_again: bool = False  # whether the enclave has loaded one of the bytes before in the activation
    register: int = 0  # the number of the register; 0 for memory
    pc: int = 0  # the pc of the load
    is_first: bool = False  # whether it is the first input that the instruction loads in the activation
    is_part: bool = False  # whether it is a part of a buffer, so that the instruction loads other parts of it too

    @property
    def width(self) -> int:
        """Returns the size in bytes."""
        return len(self.value)

    @property
    def number(self) -> int:
        """Returns the value as a number."""
        return int.from_bytes(self.value, "little")


@dataclass(frozen=True)
class Child:
    """A run to be tried: the changed inputs, and how far it equals the run of its parent."""
    changes: Changes  # the changes of the inputs
    index: int  # the index up to which its trace equals the trace of its parent


class Values:
    """Finds the inputs of a trace and the values to try."""
    def __init__(self, tracer: Tracer, objects: Objects, fields: WindowFields, reader: DetailReader, seed: int) -> None:
        # `rng` draws the random values
        self.tracer, self.objects, self.fields, self.reader, self.rng = tracer, objects, fields, reader, random.Random(seed)
        self.target_addresses: list[int] = []  # addresses of objects, to be tried as values of pointers
        self.has_entry = False  # whether the registers at the entry are inputs

    def inputs(self, trace: Trace, details: Details) -> list[Input]:
        """Returns the inputs of a trace, in the order of their steps."""
        inputs = [input_ for number, visit in enumerate(trace.visits) for input_ in self.visit_inputs(trace, details, number, visit)]
        return sorted(inputs, key=lambda it: (it.index, it.at, it.width, it.register))

    def loads(self, trace: Trace, details: Details, visit: TraceVisit) -> Iterator[tuple[int, int, bytes]]:
        """Yields index, address and bytes of each load of an activation from the window, without bytes that the activation has stored."""
        stored_addresses: set[int] = set()
        last = len(trace) - 1 if visit.last is None else visit.last
        for index in range(visit.first, last + 1):
            at, code = trace.addresses[index], self.tracer.code[trace.pcs[index]]
            if not code.is_access or code.kind is Kind.ECALL or not self.objects.enclave.shares(at):
                continue
            places = range(at, at + code.width)
            if code.kind is Kind.STORE:
                stored_addresses.update(places)
            elif stored_addresses.isdisjoint(places) and index in details.loaded:
                yield index, at, details.loaded[index]

    def visit_inputs(self, trace: Trace, details: Details, number: int, visit: TraceVisit) -> Iterator[Input]:
        """Yields the inputs of one activation."""
        first_loads: dict[int, int] = {}  # the index of the first load of each byte
        groups: dict[tuple[int, bool], list[Input]] = defaultdict(list)
        content: dict[int, int] = {}
        entry = trace.steps[visit.first] - 1
        for index, at, data in self.loads(trace, details, visit):
            is_again = any(byte_address in first_loads for byte_address in range(at, at + len(data)))
            for byte_address, value in enumerate(data, at):
                first_loads.setdefault(byte_address, index)
                content.setdefault(byte_address, value)
            start = index if is_again else min(first_loads[byte_address] for byte_address in range(at, at + len(data)))
            step = trace.steps[index] - 1 if is_again else entry  # bytes that are loaded again change between the two loads
            groups[trace.pcs[index], is_again].append(
                Input(number, index, start, step, at, value=data, is_loaded_again=is_again, register=0, pc=trace.pcs[index]))
        for inputs in groups.values():
            is_part = len({input_.at for input_ in inputs}) > 1
            yield from (replace(input_, is_first=n == 0, is_part=is_part) for n, input_ in enumerate(sample_of(inputs)))
        for word in word_inputs(content, first_loads, number, entry):
            yield replace(word, pc=trace.pcs[word.index], is_part=True)
        yield from self.register_inputs(trace, number, visit)

    def register_inputs(self, trace: Trace, number: int, visit: TraceVisit) -> Iterator[Input]:
        """With --entry, yields a0 after the resume of a stop, and a0 to a3 at the entry. The monitor sets them, so no host can choose them."""
        if not self.has_entry:
            return
        entry, previous_end = trace.steps[visit.first] - 1, trace.visits[number - 1].ended_by if number else ""
        if previous_end == "stop":
            yield Input(number, visit.first, visit.first, entry, at=0, value=bytes(WORD), register=A0)
        elif previous_end != "timer":
            enclave = self.objects.enclave
            for register, value in enumerate((enclave.base, enclave.size, enclave.window, enclave.window_size), A0):
                yield Input(number, visit.first, visit.first, entry, at=0, value=value.to_bytes(WORD, "little"), register=register)

    def children(self, trace: Trace, details: Details, inputs: list[Input]) -> Iterator[Child]:
        """Yields the runs with one more input changed than in the trace. Inputs that an earlier activation loads in the same way come last."""
        known_keys: set[tuple[int, bytes, bool]] = set()
        new_inputs: list[Input] = []
        repeated_inputs: list[Input] = []
        for input_ in inputs:
            key = input_.pc + input_.at, input_.value, input_.is_loaded_again
            (repeated_inputs if key in known_keys else new_inputs).append(input_)
            known_keys.add(key)
        yield from self.round_robin(trace, details, new_inputs)
        yield from self.round_robin(trace, details, repeated_inputs)

    def round_robin(self, trace: Trace, details: Details, inputs: list[Input]) -> Iterator[Child]:
        """Yields the first value of each input, then the second of each, and so on. From the third value on, other inputs get VALUES_PER_PART values
        for each value of a part of a buffer: branches and addresses depend on other inputs more often."""
        values_of_inputs = [(input_, list(self.values(trace, details, input_))) for input_ in inputs]
        for turn in range(VALUES_PER_PART * max((len(values) for _, values in values_of_inputs), default=0)):
            for input_, values in values_of_inputs:
                index, is_turn = turn, True  # the index of the value in this turn; whether the input gets a value in it
                if input_.is_part and turn > 1:
                    index, is_turn = 1 + turn // VALUES_PER_PART, turn % VALUES_PER_PART == 0
                if index < len(values) and is_turn:
                    yield self.child(trace, input_, values[index])
                if turn == 1 and input_.is_first:
                    yield from self.filled_children(trace, input_)

    def child(self, trace: Trace, input_: Input, value: bytes) -> Child:
        """Returns the run in which, besides the changes of the trace, an input has another value."""
        name = "a%d" % (input_.register - A0) if input_.register else self.name(input_.at)
        change = Change(input_.step, input_.at, value, input_.register, name, old=input_.value.hex())
        return Child(with_change(trace.changes, change), input_.start)

    def name(self, address: int) -> str:
        """Returns the name of the field of the window, or of the symbol, at an address; else the address as hexadecimal digits."""
        return self.fields.name(address) or "%08x" % address

    def filled_children(self, trace: Trace, input_: Input) -> Iterator[Child]:
        """Yields the runs in which the input and the bytes after it have one value, at most up to the end of the window: buffers without an end."""
        for value, max_count in FILLS:
            count = min(max_count, self.objects.enclave.window + self.objects.enclave.window_size - input_.at)
            name = "%s and the following bytes" % self.name(input_.at)
            change = Change(input_.step, input_.at, bytes([value]) * count, register=0, name=name, old=input_.value.hex())
            start = input_.start if input_.is_loaded_again else min(input_.start, trace.visits[input_.visit].first)
            yield Child(with_change(trace.changes, change), start)

    def values(self, trace: Trace, details: Details, input_: Input) -> Iterator[bytes]:
        """Yields the values to try for an input, without its present value."""
        max_value, number = (1 << 8 * input_.width) - 1, input_.number
        wrapping = [number + (1 << 30)] if input_.width == WORD else []  # a product with a size of 4 or more wraps around to the same value
        compared = list(self.branch_values(trace, details, input_))
        candidates = [max_value, 0, *compared[:1], number + 0x100, *wrapping, *compared[1:], *self.constants(trace, input_)]
        candidates += [number + 1, number - 1, 1, max_value >> 1, (max_value >> 1) + 1]
        if input_.width == WORD:
            enclave = self.objects.enclave
            candidates += [*self.target_addresses[:MAX_TARGET_OBJECTS], *self.moving_values(trace, input_), number + 0x10000, number + (1 << 31)]
            candidates += [0xFF, 0x100, enclave.window + enclave.window_size - WORD, enclave.base, RAM_BASE + self.rng.getrandbits(16)]
        candidates += [self.rng.getrandbits(8 * input_.width), 2, 3, 4]
        values = list(dict.fromkeys(value & max_value for value in candidates if value & max_value != number))
        return iter([value.to_bytes(input_.width, "little") for value in values[:MAX_VALUES]])

    def branch_values(self, trace: Trace, details: Details, input_: Input) -> Iterator[int]:
        """Yields values at which branches after the load go another way. If one operand is the input, the input gets the value of the other operand.
        If the operands are near each other, the input changes by their distance. Both also with 1 more and 1 less."""
        number = input_.number
        for index in range(input_.start, min(len(trace), input_.start + STEPS_AHEAD)):
            operands = details.operands.get(index)
            if operands is None or operands[0] == operands[1] and number not in operands:
                continue
            sources = self.tracer.code[trace.pcs[index]].sources
            if any(self.reader.is_private(trace, index, register) for register in sources):
                continue
            first, second = operands
            distance = second - first
            if number in operands:
                other_operand = second if number == first else first
                yield from (other_operand + n for n in (0, 1, -1))
            elif abs(distance) < NEAR:
                yield from (number + sign * distance + n for sign in (1, -1) for n in (0, 1, -1))

    def constants(self, trace: Trace, input_: Input) -> list[int]:
        """Returns the constants of the instructions after the load that are less than RAM_BASE, and so no addresses."""
        known_registers, constants = {0: 0}, []  # the registers with a constant value; x0 is 0
        for index in range(input_.start, min(len(trace), input_.start + STEPS_AHEAD // 2)):
            code = self.tracer.code[trace.pcs[index]]
            match = IMMEDIATE.match(code.text)
            base = known_registers.get(int(match[2] or 0)) if match else None
            if match and base is not None:
                value = int(match[3], 0) << 12 if code.text.startswith("lui") else base + int(match[3], 0)
                known_registers[int(match[1])] = value & WORD_MASK
                constants.append(value & WORD_MASK)
            elif code.writes:
                known_registers.pop(code.writes, None)
            if match and not code.text.startswith(("lui", "addi")):
                constants.append(int(match[3], 0) & WORD_MASK)
        return list(dict.fromkeys(value for value in constants if value < RAM_BASE))[:MAX_CONSTANTS]

    def moving_values(self, trace: Trace, input_: Input) -> Iterator[int]:
        """Yields values that move an access after the load to an object, if its address moves with the input, by bytes or by words."""
        accesses: dict[int, int] = {}  # the first address of each load and store, by pc
        for index in range(input_.start, min(len(trace), input_.start + STEPS_AHEAD)):
            code = self.tracer.code[trace.pcs[index]]
            if code.kind in (Kind.LOAD, Kind.STORE) and not code.is_sp_relative:
                accesses.setdefault(trace.pcs[index], trace.addresses[index])
        for address in list(accesses.values())[:MAX_MOVED_ACCESSES]:
            for target in self.target_addresses[:2]:
                yield input_.number + target - address
                yield input_.number + ((target - address) >> 2)


def sample_of(inputs: list[Input]) -> Iterable[Input]:
    """Returns a sample of the inputs that one instruction loads: the first two, the middle one and the last one."""
    return [inputs[n] for n in sorted({0, min(1, len(inputs) - 1), len(inputs) // 2, len(inputs) - 1})]


def word_inputs(content: dict[int, int], first_loads: dict[int, int], visit: int, entry: int) -> Iterator[Input]:
    """Yields aligned words whose bytes are loaded one by one: the first MAX_FIRST_WORDS of each buffer and the last. `content` has the loaded bytes
    by address, and `first_loads` the index of the first load of each byte."""
    aligned = [at for at in sorted(content) if at % WORD == 0 and all(at + n in content for n in range(WORD))]
    starts = [at for at in aligned if len({first_loads[at + n] for n in range(WORD)}) == WORD]  # four loads, so byte by byte
    buffers: list[list[int]] = []
    for at in starts:
        if buffers and buffers[-1][-1] + WORD == at:
            buffers[-1].append(at)
        else:
            buffers.append([at])
    for buffer in buffers:
        for at in dict.fromkeys(buffer[:MAX_FIRST_WORDS] + buffer[-1:]):
            start = min(first_loads[at + n] for n in range(WORD))
            yield Input(visit, start, start, entry, at, bytes(content[at + n] for n in range(WORD)))


def with_change(changes: Changes, change: Change) -> Changes:
    """Returns the changes with one more, in the order of their steps. The new change replaces one of the same bytes at the same step."""
    place = change.step, change.at, change.register, len(change.value)
    other_changes = [old for old in changes if (old.step, old.at, old.register, len(old.value)) != place]
    return tuple(sorted([*other_changes, change], key=lambda each: each.step))


class HostRequest(NamedTuple):
    """A request of the host: the bytes that an activation loads from the window."""
    step: int  # number of the last step of the run before the activation
    first: int  # index of its first step in the trace
    content: Content  # the bytes by address


def reordered(trace: Trace, requests: Sequence[HostRequest], name: Callable[[int], str]) -> Iterator[Child]:
    """Yields the runs with two requests exchanged, then those with one request in place of another, and then those with a half of one in another.
    Activations that follow each other come first. `name` returns the name of an address."""
    pairs = [(first, second) for first, second in combinations(requests, 2) if first.content != second.content]
    pairs.sort(key=lambda it: requests.index(it[1]) - requests.index(it[0]))
    ordered_pairs = [ordered for first, second in pairs for ordered in ((first, second), (second, first))]
    exchanges = (((first, second.content), (second, first.content)) for first, second in pairs)
    replacements = (((request, other.content),) for request, other in ordered_pairs)
    half_replacements = (((request, half),) for request, other in ordered_pairs for half in halves(request, other))
    return (with_requests(trace, order, name) for order in islice(chain(exchanges, replacements, half_replacements), MAX_ORDERS))


def halves(request: HostRequest, other: HostRequest) -> Iterator[Content]:
    """Yields the bytes of `other` in the first half, and then in the second half, of the words in which a request differs from it."""
    words = sorted({at // WORD for at, value in other.content.items() if request.content.get(at) != value})
    for part in (words[:len(words) // 2], words[len(words) // 2:]):
        if 0 < len(part) < len(words):
            yield {at: value for at, value in other.content.items() if at // WORD in part}


def with_requests(trace: Trace, new_contents: Sequence[tuple[HostRequest, Content]], name: Callable[[int], str]) -> Child:
    """Returns the run in which, besides the changes of the trace, the activations of these requests load other bytes."""
    changes = trace.changes
    for request, content in new_contents:
        for at, data in runs_of(content):
            changes = with_change(changes, Change(request.step, at, data, register=0, name=name(at)))
    return Child(changes, min(request.first for request, _ in new_contents))
