"""Examines what each activation of an enclave did with the bytes of its window. An activation reads bytes, reads them again (a double fetch),
receives them from another enclave, or writes them. Bytes remain if an earlier activation left them. A second run shows whether the written bytes
depend on a secret. Copies of the secret in the window are found too."""
from __future__ import annotations

from collections import defaultdict
from dataclasses import dataclass, field
from typing import Callable, Iterator, Mapping, NamedTuple, Optional, Sequence, Tuple

from rvlook.access.activations import Activation, Activations
from rvlook.access.fields import FieldReader, WindowFields
from rvlook.errors import Unfinished
from rvlook.finders.leak import Public, public_of
from rvlook.finders.secrets import Copy, Secret, copies_in, secret_of, short_copies_in
from rvlook.image.variables import Variables
from rvlook.protocol.run import Run
from rvlook.protocol.symbols import Symbols

Marks = Tuple[Tuple[int, ...], Optional[bool], bool]  # the fields `pcs`, `is_secret` and `is_public` of MarkedBytes, for one byte


class MarkedBytes(NamedTuple):
    """Adjacent bytes of the window that an activation treated alike."""
    kind: str  # reads, rereads, receives, writes or remains
    first: int  # offset in the window
    size: int  # number of bytes
    pcs: tuple[int, ...]  # the instructions; for `remains` the instruction and the number of its activation
    is_secret: Optional[bool] = None  # whether the bytes change with the secret; None if this is not compared
    is_public: bool = False  # whether --public names the bytes or the instruction
    world: str = ""  # the world that stored the bytes which the enclave receives

    @property
    def is_finding(self) -> bool:
        """Returns whether the range counts as a finding."""
        return self.kind == "rereads" or bool(self.is_secret) and not self.is_public


class SecretCopy(NamedTuple):
    """A copy of a part of the secret in the window."""
    copy: Copy  # the offsets of the copy in the window and in the secret
    is_secret: bool  # whether it changes with the secret
    is_public: bool  # whether --public names it

    @property
    def is_finding(self) -> bool:
        """Returns whether the copy counts as a finding."""
        return self.is_secret and not self.is_public


class ActivationView(NamedTuple):
    """The findings about the window in one activation."""
    ranges: list[MarkedBytes]  # ranges of the window, by kind
    copies: list[SecretCopy]  # the copies of parts of the secret


class WindowContext(NamedTuple):
    """The names and the public parts that the report of a window needs."""
    symbols: Symbols  # name instructions
    fields: WindowFields  # name offsets in the window
    public: Public  # what may differ


@dataclass
class Byte:
    """A byte of the window in one activation, with the instructions that accessed it."""
    read_at: Optional[int] = None  # the last load before a store of the enclave; None if there is none
    input_at: Optional[int] = None  # the first such load
    repeated_loads: dict[tuple[int, int], bool] = field(default_factory=dict)  # pairs of successive loads (a double fetch)
    stored_at: Optional[int] = None  # the last store; None if there is none
    values: bytearray = field(default_factory=bytearray)  # all stored values


def bytes_of(activation: Activation) -> dict[int, Byte]:
    """Returns what the activation did with each byte of its window, by offset."""
    bytes_by_offset: dict[int, Byte] = defaultdict(Byte)
    base, end = activation.enclave.window, activation.enclave.window + activation.enclave.window_size
    recorded_loads: set[tuple[int, int]] = set()  # pc and address of loads that would record nothing new, to skip them in loops
    for _, pc, kind, address, width, values, done in activation.operations:
        if not done or address >= end or address + width <= base or (pc, address) in recorded_loads or kind not in "rw":
            continue
        accessed = [bytes_by_offset[at - base] for at in range(address, address + width)]
        if kind == "w":
            for byte, value in zip(accessed, values):
                byte.stored_at = pc
                byte.values.append(value)
        if kind == "w" or any([record_load(byte, pc) for byte in accessed]):
            recorded_loads.clear()
        else:
            recorded_loads.add((pc, address))
    return bytes_by_offset


def record_load(byte: Byte, pc: int) -> bool:
    """Records a load of a byte, unless the enclave has stored to it in this activation: then the host did not write it. Returns whether it is new."""
    if byte.stored_at is not None or byte.read_at == pc and (pc, pc) in byte.repeated_loads:
        return False
    if byte.input_at is None:
        byte.input_at = pc
    elif byte.read_at is not None:
        byte.repeated_loads[byte.read_at, pc] = True
    byte.read_at = pc
    return True


def ranges(kind: str, marks: Mapping[int, Marks]) -> list[MarkedBytes]:
    """Joins adjacent bytes with equal marks to ranges of one kind. `marks` has the marks of each byte by its offset in the window."""
    ranges: list[MarkedBytes] = []
    for at in sorted(marks):
        last = ranges[-1] if ranges else None
        if last and last.first + last.size == at and last[3:6] == marks[at]:
            ranges[-1] = last._replace(size=last.size + 1)
        else:
            ranges.append(MarkedBytes(kind, at, 1, *marks[at]))
    return ranges


class LeftByte(NamedTuple):
    """A byte that an activation left in the window."""
    value: int  # the value of the byte
    pc: int  # the instruction that stored it
    activation: int  # the number of the activation that left it


class Leftovers:
    """The data that the activations of each enclave left in its window."""
    def __init__(self) -> None:
        self.left_bytes: dict[str, dict[int, LeftByte]] = defaultdict(dict)  # the bytes that were left, by world and by offset
        self.stored: dict[int, tuple[int, int, str]] = {}  # the value, the instruction and the world that stored each byte of any window last

    def received(self, activation: Activation, window_bytes: Mapping[int, Byte]) -> dict[int, tuple[int, str]]:
        """Returns the loaded bytes that another enclave stored, with instruction and world of the store, by offset in the window. Then adds the
        activation's stores to `stored`."""
        base, marks = activation.enclave.window, {}
        for at, byte in window_bytes.items():
            value, pc, world = self.stored.get(base + at, (0, 0, activation.world))
            if byte.input_at is not None and world != activation.world and activation.before[at] == value:
                marks[at] = pc, world
        for at, byte in window_bytes.items():
            if byte.stored_at is not None:
                self.stored[base + at] = byte.values[-1], byte.stored_at, activation.world
        return marks

    def update(self, activation: Activation, window_bytes: Mapping[int, Byte]) -> dict[int, LeftByte]:
        """Updates `left_bytes` after an activation; returns the bytes that remain from an earlier activation, by offset in the window."""
        left, before, after = self.left_bytes[activation.world], activation.before, activation.after
        for at in [offset for offset in left if offset >= len(before) or before[offset] != left[offset].value]:
            del left[at]  # the host has written there
        remaining = {at: byte for at, byte in left.items() if at < len(after) and after[at] == byte.value and byte.activation != activation.number}
        for at, byte in window_bytes.items():
            if byte.stored_at is not None:
                left[at] = LeftByte(byte.values[-1], byte.stored_at, activation.number)
                remaining.pop(at, None)
        return remaining


def reread(window_bytes: Mapping[int, Byte], symbols: Symbols) -> Iterator[MarkedBytes]:
    """Yields the bytes that were loaded again, as ranges that the same two source lines load, or the same two instructions."""
    groups: dict[tuple[object, object], dict[int, tuple[int, int]]] = defaultdict(dict)
    for at, byte in window_bytes.items():
        for first, second in byte.repeated_loads:
            groups[symbols.source(first) or first, symbols.source(second) or second].setdefault(at, (first, second))
    for pairs in groups.values():
        marks: dict[int, Marks] = {}
        for at in sorted(pairs):
            marks[at] = marks.get(at - 1, (pairs[at], None, False))  # the marks of the byte before it, so that the two become one range
        yield from ranges("rereads", marks)


def view_of(activation: Activation, leftovers: Leftovers, other: Activation | None, secret: Secret | None, context: WindowContext) -> ActivationView:
    """Returns all findings of an activation. `other` is the corresponding activation of a run with another secret, or None."""
    public = context.public
    window_bytes, base = bytes_of(activation), activation.enclave.window
    other_bytes = bytes_of(other) if other else {}
    remaining = leftovers.update(activation, window_bytes)
    received = leftovers.received(activation, window_bytes)
    writes: dict[int, Marks] = {}
    for at, byte in window_bytes.items():
        if byte.stored_at is not None:
            is_secret = None if other is None else other_bytes.get(at, Byte()).values != byte.values
            writes[at] = (byte.stored_at,), is_secret, bool(is_secret) and (public.has(base + at) or public.has(byte.stored_at))
    reads: dict[int, Marks] = {at: ((byte.input_at,), None, False) for at, byte in window_bytes.items() if byte.input_at is not None}
    remains: dict[int, Marks] = {at: ((byte.pc, byte.activation), None, False) for at, byte in remaining.items()}
    receives: list[MarkedBytes] = []
    for world in sorted({writer for _, writer in received.values()}):
        marks: dict[int, Marks] = {at: ((pc,), None, False) for at, (pc, writer) in received.items() if writer == world}
        receives += [marked._replace(world=world) for marked in ranges("receives", marks)]
    rereads = sorted(reread(window_bytes, context.symbols), key=lambda it: it.pcs)
    all_ranges = [*ranges("reads", reads), *rereads, *receives, *ranges("writes", writes), *ranges("remains", remains)]
    writers = {at: byte.pc for at, byte in leftovers.left_bytes[activation.world].items()}
    return ActivationView(all_ranges, list(copies_of(activation, other, secret, writers, public)) if secret else [])


def copies_of(activation: Activation, other: Activation | None, secret: Secret, writers: Mapping[int, int], public: Public) -> Iterator[SecretCopy]:
    """Yields the copies of parts of the secret in the window at the end. `writers` has the instruction that stored each byte."""
    base = activation.enclave.window
    short_copies = [] if other is None else short_copies_in(activation.after, other.after, secret.bytes)
    for copy in sorted([*copies_in(activation.after, secret.bytes), *short_copies]):
        indices = range(copy.at, copy.at + copy.size)
        is_secret = other is None or other.after[indices.start:indices.stop] != activation.after[indices.start:indices.stop]
        yield SecretCopy(copy, is_secret, all(public.has(base + at) or at in writers and public.has(writers[at]) for at in indices))


class WindowOptions(NamedTuple):
    """The options of `window`."""
    at: Optional[str] = None  # the place of the secret; None for no secret
    slot: Optional[int] = None  # the slot of the enclave; None: all enclaves
    public: Sequence[str] = ()  # what may depend on the secret


class WindowSearch:
    """A run whose activations are examined. If there is a secret, a second run has its complement."""
    def __init__(self, run: Run, variables: Variables, options: WindowOptions) -> None:
        self.run, self.options, symbols = run, options, run.setup.symbols  # with the secret of the program
        self.context = WindowContext(symbols, WindowFields(symbols), public_of(options.public, symbols))  # names, and what may differ
        self.secret: Secret | None = None  # None for no secret
        if options.at:
            secret = secret_of(options.at, symbols, run, 0 if options.slot is None else options.slot)
            self.secret = secret.with_bytes(secret.bytes_in(run))
        self.reader = FieldReader(run, variables.parameters, self.context.fields)  # reads the parameters of the enclave

    def views(self, heard: Callable[[int], None] = lambda step: None) -> Iterator[tuple[Activation, ActivationView]]:
        """Yields each activation with its findings, and calls `heard` with its last step. Raises Unfinished if there is no activation."""
        others = with_complement(self.run, self.secret) if self.secret else iter(())
        leftovers, slot, number = Leftovers(), self.options.slot, 0
        for activation in Activations(self.run).all():
            if slot is None or activation.slot == slot:
                number += 1
                self.reader.read(activation)
                without_stores = Activation(activation.world, activation.hart, first=0, number=0, enclave=activation.enclave)
                other = next(others, without_stores) if self.secret and activation.slot == self.secret.slot else None
                yield activation, view_of(activation, leftovers, other, self.secret, self.context)
            heard(activation.last or 0)
        if not number:
            raise Unfinished("no enclave runs" if slot is None else "no enclave in slot %d" % slot)


def with_complement(run: Run, secret: Secret) -> Iterator[Activation]:
    """Yields the activations of the run with the complement of the secret."""
    other = secret.with_bytes(bytes(byte ^ 0xFF for byte in secret.bytes))
    activations = Activations(run.with_lines(other.step, other.lines()), secret.step).all()
    return (activation for activation in activations if activation.slot == secret.slot)
