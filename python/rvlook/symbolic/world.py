"""The enclave that `verify` explores, right before its first step: its region, registers, objects, secrets and public places.

The *run itself* is the run of the image and the script, in which no input is changed. It is executed once up to the first entry of the enclave. The
windows that its host gives at each entry are kept as well."""
from __future__ import annotations

from dataclasses import dataclass, field
from functools import cached_property
from typing import Dict, Iterator, List, Optional, Sequence, Set, TYPE_CHECKING, Tuple

from rvlook.access.activations import Activations
from rvlook.access.fields import FieldReader, WindowFields
from rvlook.errors import RvlookError, Unfinished
from rvlook.finders.inputs.contexts import Contexts
from rvlook.finders.inputs.objects import Objects
from rvlook.finders.leak import Public, public_of
from rvlook.finders.secrets import secret_of
from rvlook.protocol.replies import enclave_of, register_values
from rvlook.protocol.stretch import Stretch
from rvlook.symbolic.allowed import Allowed

if TYPE_CHECKING:
    from rvlook.image.variables import Variables
    from rvlook.protocol.bench import Bench
    from rvlook.protocol.replies import Enclave
    from rvlook.protocol.run import Run
    from rvlook.protocol.symbols import Symbols
    from rvlook.symbolic.options import VerifyOptions

FAILED_CHECK = bytes.fromhex("0b004843")  # the bytes in memory of the instruction for a failed check (examples/shared/enclave_check.h)
ANSWER_CONDITION = "@answer="  # in --public WHAT@answer=N: WHAT is public only in activations that end with the answer N
PC_OF_REPLY = slice(9, 17)  # the characters of the pc in the reply to a step, `ran 1 pc=80000000 ...`: the pc after the step


@dataclass
class OwnActivation:
    """An activation of the enclave in the run itself."""
    position: int  # the number of steps of the run before the first step of the activation
    hart: int  # the hart that runs the enclave
    pcs: List[int] = field(default_factory=list)  # the pcs of its steps


class World:
    """The enclave in a slot, as it is right before its first step. An address range is a pair: the first address and the end."""
    region: Tuple[int, int]  # the address range of the private memory
    window: Tuple[int, int]  # the address range of the window
    hart: int  # the hart that enters the enclave first
    regs: List[int]  # x0 to x31 at the first entry
    pc: int  # the pc at the first entry
    memory: bytearray  # the contents of the region at the first entry

    def __init__(self, run: Run, symbols: Symbols, variables: Variables, options: VerifyOptions) -> None:
        self.run = run
        self.symbols = symbols
        self.slot = options.slot
        self.has_types = bool(variables.fixed or variables.locals)  # whether the image has debugging information
        self.windows: List[bytearray] = []  # the contents of the window at each entry in the run itself
        self.own_activations = list(self.read_activations())
        if not self.own_activations:
            raise Unfinished("no enclave in slot %d" % self.slot)
        self.enclave = self.read_entries()  # the record of the enclave in the enclave table
        self.contexts = Contexts()  # numbers the chains of callers
        self.has_checks = any(self.memory[at:at + 4] == FAILED_CHECK for at in range(0, len(self.memory), 4))  # whether the enclave calls `check`
        self.objects = Objects(self.enclave, symbols, variables, self.contexts)
        sizes = {symbol.address: symbol.size for symbol in self.objects.region_symbols if symbol.is_function}
        self.functions: Set[int] = set(sizes)  # the entries of the functions that symbols name
        self.code = self.memory, self.region[0], sizes  # the arguments of Flows: the image, its first address, and the sizes of functions by entry
        self.read_options(options)
        self.allowed = Allowed(options.allow, symbols, self.region)  # the instructions of --allow

    def read_options(self, options: VerifyOptions) -> None:
        """Finds the bytes that the options name. Raises RvlookError."""
        # `public_if`: what --public names with a condition, each with the answer with which it is public.
        unconditional_texts, self.public_if = conditional(options.public, self.symbols)
        self.public = public_of(unconditional_texts, self.symbols)  # what --public names without a condition
        self.secret = self.bytes_of(options.at)  # the bytes of the secrets: their values at the first entry, by address
        self.check = self.bytes_of(options.must_know)  # the bytes that the host must know, such as a PIN: their values, by address
        if self.secret.keys() & self.check.keys():
            raise RvlookError("--at and --must-know name the same bytes")
        self.must_matter = self.bytes_of(options.must_matter)  # the bytes of the secret on which an output must depend: their values, by address
        if self.must_matter.keys() - self.secret.keys():
            raise RvlookError("--must-matter names bytes that --at does not")
        self.given = public_of(options.given, self.symbols) if options.given else None  # bytes of the window that are those of the run itself
        self.lengths = lengths_of(options.length, self.symbols)  # the greatest values of loads in the window (--length), by address

    def bytes_of(self, places: Sequence[str]) -> Dict[int, int]:
        """Returns the bytes of the region that PLACE[:BYTES] texts name: their values at the first entry, by address. Raises RvlookError."""
        values: Dict[int, int] = {}
        low, high = self.region
        for text in places:
            secret = secret_of(text, self.symbols, self.run, self.slot)
            if secret.register or not low <= secret.at <= secret.at + len(secret.bytes) <= high:
                raise RvlookError("verify needs bytes in the region of the enclave in slot %d, not '%s'; use PLACE[:BYTES]" % (self.slot, text))
            values.update((secret.at + n, self.memory[secret.at + n - low]) for n in range(len(secret.bytes)))
        return values

    # ---- the run itself

    def read_activations(self) -> Iterator[OwnActivation]:
        """Yields the activations of the run itself. The lists of their pcs are complete when the iterator has ended."""
        own_world = b"world=e%d " % self.slot
        position = 0  # the number of steps so far, of all harts
        is_inside: Dict[int, bool] = {}  # whether a hart runs the enclave
        pcs: Dict[int, int] = {}  # the present pc of each hart
        current: Dict[int, OwnActivation] = {}  # the last activation on each hart
        for stretch in self.run.stretches():
            if not isinstance(stretch, Stretch):
                continue
            hart = stretch.hart
            for line in stretch.data.splitlines():
                is_own = own_world in line
                if is_inside.get(hart):
                    current[hart].pcs.append(pcs[hart])
                pcs[hart] = int(line[PC_OF_REPLY], 16)
                position += 1
                if is_own and not is_inside.get(hart):
                    current[hart] = OwnActivation(position, hart)
                    yield current[hart]
                is_inside[hart] = is_own

    def read_entries(self) -> Enclave:
        """Replays the run. Reads the region and the registers at the first entry, and the window at each entry, after the lines of the script there.
        Returns the enclave."""
        enclave: Optional[Enclave] = None
        with self.run.replay() as replay:
            for activation in self.own_activations:
                replay.go(activation.position)
                replay.bench.ask(*replay.lines_up_to_next())
                if enclave is None:
                    enclaves = map(enclave_of, replay.bench.ask("enclaves")[0])
                    enclave = next(enclave for enclave in enclaves if enclave.slot == self.slot)
                    self.region = enclave.base, enclave.base + enclave.size
                    self.window = enclave.window, enclave.window + enclave.window_size
                    self.read_hart(replay.bench, activation.hart, replay.hart)
                self.windows.append(bytes_at(replay.bench, *self.window))
        assert enclave is not None
        return enclave

    def read_hart(self, bench: Bench, hart: int, selected: int) -> None:
        """Reads the registers of the hart that enters the enclave, and the region. `selected` is the selected hart of the bench, before and after."""
        self.hart = hart
        has_more = self.run.setup.harts > 1
        if has_more:
            bench.ask("hart %d" % hart)
        values = register_values(bench.ask("regs")[0])
        if has_more:
            bench.ask("hart %d" % selected)
        self.regs = values[:32]
        self.pc = values[32]
        self.memory = bytes_at(bench, *self.region)

    @cached_property
    def fields(self) -> WindowFields:
        """The names of the fields of the window, as far as calls in the run itself show them."""
        fields = WindowFields(self.symbols)
        if self.objects.parameters:
            reader = FieldReader(self.run, self.objects.parameters, fields)
            for activation in Activations(self.run).all():
                if activation.slot == self.slot:
                    reader.read(activation)
        return fields

    # ---- addresses

    def place(self, pc: int) -> str:
        """Returns the source line of an instruction; else a symbol with an offset; else its address."""
        return self.symbols.line(pc) or self.symbols.name(pc) or "%08x" % pc

    def word_at(self, pc: int) -> int:
        """Returns the instruction word at a pc of the region, as the image has it."""
        offset = pc - self.region[0]
        return int.from_bytes(self.memory[offset:offset + 4], "little")

    def is_pointer(self, value: int) -> bool:
        """Returns whether a number is an address of the region or of the window."""
        return self.region[0] <= value < self.region[1] or self.window[0] <= value < self.window[1]

    def is_allowed(self, at: int, width: int) -> bool:
        """Returns whether the enclave may load and store `width` bytes at an address."""
        low, high = self.region
        return (low <= at and at + width <= high) or (self.window[0] <= at and at + width <= self.window[1])


def bytes_at(bench: Bench, low: int, high: int) -> bytearray:
    """Reads the memory of a bench from `low` up to before `high`."""
    return bytearray(bench.memory(low, high - low))


def lengths_of(texts: Sequence[str], symbols: Symbols) -> Dict[int, int]:
    """Returns what texts PLACE:N of --length say: the greatest value N of a load in the window, by its address. Raises RvlookError."""
    lengths: Dict[int, int] = {}
    for text in texts:
        name, _, limit = text.partition(":")
        at = symbols.address(name)
        if at is None or not (limit.isascii() and limit.isdigit()):
            raise RvlookError("'%s' is no length; use --length PLACE:N, with a hexadecimal address or a symbol" % text)
        lengths[at] = int(limit)
    return lengths


def conditional(texts: Sequence[str], symbols: Symbols) -> Tuple[List[str], List[Tuple[Public, int]]]:
    """Divides the texts of --public. Returns the texts without a condition, and what each text WHAT@answer=N names, with the answer N. Raises
    RvlookError."""
    unconditional_texts: List[str] = []
    public_with_answer: List[Tuple[Public, int]] = []
    for text in texts:
        what, condition, value = text.partition(ANSWER_CONDITION)
        if not condition:
            unconditional_texts.append(text)
            continue
        try:
            public = public_of([what], symbols)
            public_with_answer.append((public, int(value, 0) & 0xFFFFFFFF))
        except ValueError:
            raise RvlookError("'%s' is no number in --public %s" % (value, text)) from None
    return unconditional_texts, public_with_answer
