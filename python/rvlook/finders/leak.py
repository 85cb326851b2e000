"""The subcommand `leak`: compares runs that differ only in a secret of an enclave, in the channels that a host can observe. The channels are the
pc, the number of steps, the addresses of loads and stores, the operands of divisions with --strict, the results, and the window. After two runs
diverge, they are compared from where they converge again."""
from __future__ import annotations

from array import array
from bisect import bisect_left
from collections import defaultdict
from contextlib import closing
from dataclasses import dataclass
from typing import Any, Iterator, Mapping, NamedTuple, Optional, Sequence

from rvlook.access.activations import Activation, Activations, Operation
from rvlook.errors import Unfinished
from rvlook.finders.secrets import WORD, Secret, place_and_size
from rvlook.protocol.replies import Enclave
from rvlook.protocol.run import Run
from rvlook.protocol.symbols import Symbols

CHANNELS = ("pc", "steps", "address", "operand", "answer", "window")
CONVERGED_STEPS, MAX_DISTANCE = 4, 4096  # equal steps after which two runs have converged; steps of a run in which this is searched


@dataclass
class Difference:
    """A difference of two runs in a channel at an instruction."""
    channel: str  # one of CHANNELS
    steps: tuple[int, int]  # the number of the first step, in each run
    values: tuple[Any, ...]  # the values that differ; their form depends on `channel`
    pc: Optional[int] = None  # the pc of the instruction; None for the total number of steps
    count: int = 1  # how often the channel differs there


@dataclass
class Observation:
    """The observations of a host in one run."""
    run: Run
    activations: list[Activation]  # the activations of the enclave
    last: int  # number of the last step that is observed, in the run
    is_cut: bool = False  # whether --steps ended the run before the enclave exited


class Public(NamedTuple):
    """The permitted differences, of --public."""
    answer: bool = False  # whether the results may differ
    ranges: tuple[tuple[int, int], ...] = ()  # address and size: of bytes of the window, or of instructions

    def has(self, address: int) -> bool:
        """Returns whether --public names the byte or the instruction at an address."""
        return any(start <= address < start + size for start, size in self.ranges)


def public_of(texts: Sequence[str] | None, symbols: Symbols) -> Public:
    """Returns the differences that --public permits."""
    places = [place_and_size(text, symbols) for text in texts or () if text != "answer"]
    return Public(answer="answer" in (texts or ()), ranges=tuple((address, size or WORD) for address, size in places))


def observe(run: Run, secret: Secret, is_strict: bool) -> Observation:
    """Records what a host observes of the enclave with the secret, until it exits. Raises Unfinished if it is never entered."""
    activations_so_far, activations = [], Activations(run, secret.step, is_strict)
    with closing(activations.all()) as all_activations:
        for activation in all_activations:
            if activation.slot == secret.slot:
                activations_so_far.append(activation)
                if activation.ended_by == "exit":
                    return Observation(run, activations_so_far, activation.last)
    if not activations_so_far:
        raise Unfinished("the enclave in slot %d is never entered after step %d, where the comparison starts" % (secret.slot, secret.step))
    assert activations.end is not None
    return Observation(run, activations_so_far, activations.end.steps, activations.end.why == "limit" and activations_so_far[-1].ended_by == "none")


class Comparison:
    """A comparison of two runs with different secrets."""
    def __init__(self, one: Observation, two: Observation, secret: Secret, public: Public, is_strict: bool) -> None:
        # `public`: what may differ; `is_strict`: whether the operands of divisions are compared
        self.one, self.two, self.secret, self.public, self.is_strict = one, two, secret, public, is_strict
        self.differences: dict[tuple[str, int | None], Difference] = {}  # the differences by channel and instruction
        self.writers: dict[int, int] = {}  # the instruction that stored each byte of the window last
        for pair in zip(one.activations, two.activations):
            self.compare_steps(*pair)
            self.compare_ends(*pair)
        if one.last != two.last:
            self.add("steps", (one.last, two.last), (one.last, two.last))
        if len(one.activations) != len(two.activations) and not any(difference.channel == "answer" for difference in self.differences.values()):
            self.add("answer", (one.last, two.last), tuple("%d exits" % len(side.activations) for side in (one, two)))

    def channels(self) -> list[str]:
        """Returns the channels in which the runs differ, in the order of CHANNELS."""
        return [channel for channel in CHANNELS if any(difference.channel == channel for difference in self.differences.values())]

    def all(self) -> list[Difference]:
        """Returns all differences, by channel and step."""
        return sorted(self.differences.values(), key=lambda it: (CHANNELS.index(it.channel), it.steps))

    def add(self, channel: str, steps: tuple[int, int], values: tuple[Any, ...], pc: int | None = None) -> None:
        """Adds a difference, or counts it if there is one in the same channel at the same instruction. Ignores a public instruction."""
        if pc is not None and self.public.has(pc):
            return
        old = self.differences.setdefault((channel, pc), Difference(channel, steps, values, pc, count=0))
        old.count += 1

    def compare_steps(self, one: Activation, two: Activation) -> None:
        """Compares two corresponding activations, one of each run, step by step, and after a divergence from where they converge again."""
        second_operations = dict(zip(two.operations_at, two.operations))  # the operations of `two` by index of their steps
        x = y = 0  # indices of the next steps, in `one` and `two`
        while x < len(one.pcs) and y < len(two.pcs):
            equal_steps = common_length(one, x, two, y)
            for number in range(bisect_left(one.operations_at, x), bisect_left(one.operations_at, x + equal_steps)):
                first, second = one.operations[number], second_operations.get(one.operations_at[number] - x + y)
                if second is not None and first != second:
                    self.compare_access(first, second, one.enclave)
            x, y = x + equal_steps, y + equal_steps
            if x == len(one.pcs) and y == len(two.pcs):
                return
            x, y = self.add_divergence(one, x, two, y, second_operations)

    def add_divergence(self, one: Activation, x: int, two: Activation, y: int, second_operations: Mapping[int, Operation]) -> tuple[int, int]:
        """Adds the step by which two runs diverge before the indices x and y; returns the indices from which they are compared again. If the pcs at x
        and y are equal, this step is the next one: it traps in one run only, or has another trap in the other. Then compares its access too."""
        if x < len(one.pcs) and y < len(two.pcs) and one.pcs[x] == two.pcs[y]:
            first, second = operation_at(one, x), second_operations.get(y)
            if first and second:
                self.compare_access(first, second, one.enclave)
            self.add("pc", (one.steps[x], two.steps[y]), values=(), pc=one.pcs[x] & -4)  # the lowest bits of `pcs` are the mode
            x, y = x + 1, y + 1
            return (x, y) if one.pcs[x:x + 1] == two.pcs[y:y + 1] else convergence(one, x, two, y)
        steps = (one.steps[x - 1], two.steps[y - 1]) if x else (one.first, two.first)
        self.add("pc", steps, values=(), pc=one.pcs[max(0, x - 1)] & -4)
        return convergence(one, x, two, y)

    def compare_access(self, first: Operation, second: Operation, enclave: Enclave) -> None:
        """Compares the operations of two corresponding steps, one of each run."""
        steps, operations = (first.step, second.step), (first, second)
        if first.kind == "d":
            if first.values != second.values:
                self.add("operand", steps, tuple("%08x and %08x" % operation.values for operation in operations), first.pc)
        elif first.address != second.address:
            self.add("address", steps, tuple((operation.kind, operation.address) for operation in operations), first.pc)
        elif first.kind == "w" and first.values != second.values and self.is_visible(first, enclave):
            self.add("window", steps, tuple((operation.address, bytes(operation.values)) for operation in operations), first.pc)

    def is_visible(self, operation: Operation, enclave: Enclave) -> bool:
        """Returns whether a store is to a byte of the window that may not differ."""
        addresses = range(operation.address, operation.address + operation.width)
        return any(enclave.shares(at) and not self.public.has(at) for at in addresses)

    def compare_ends(self, one: Activation, two: Activation) -> None:
        """Compares the results and the windows at the end of two corresponding activations, one of each run."""
        if not self.public.answer and (one.ended_by, one.answer) != (two.ended_by, two.answer):
            self.add("answer", (one.last, two.last), tuple((side.ended_by, *side.answer) for side in (one, two)), one.pc)
        self.writers.update(writers_of(one, two))
        if one.after != two.after:
            window, reported_pcs = one.enclave.window, {pc for channel, pc in self.differences if channel == "window"}
            for address, (first_value, second_value) in enumerate(zip(one.after, two.after), window):
                pc = self.writers.get(address, one.pc)
                if first_value != second_value and not self.public.has(address) and pc not in reported_pcs:
                    self.add("window", (one.last, two.last), ((address, bytes([first_value])), (address, bytes([second_value]))), pc)


def operation_at(activation: Activation, index: int) -> Operation | None:
    """Returns the operation of the step at an index of the activation, or None."""
    number = bisect_left(activation.operations_at, index)
    return activation.operations[number] if activation.operations_at[number:number + 1] == array("I", [index]) else None


def writers_of(one: Activation, two: Activation) -> dict[int, int]:
    """Returns by address the pc that stored each byte of the window last; if both runs stored the byte, the pc of the first run."""
    writers: dict[int, int] = {}
    for activation in (two, one):
        for store in stores_to_window(activation):
            writers.update((store.address + n, store.pc) for n in range(store.width))
    return writers


def stores_to_window(activation: Activation) -> Iterator[Operation]:
    """Yields the stores of an activation to bytes of its window."""
    first, end = activation.enclave.window, activation.enclave.window + activation.enclave.window_size
    for operation in activation.operations:
        if operation.kind == "w" and operation.done and operation.address < end and first < operation.address + operation.width:
            yield operation


def equal_length(one: array[int], x: int, two: array[int], y: int) -> int:
    """Returns how many numbers from index x of `one` and index y of `two` on are equal. Compares slices of doubling, then of halving size."""
    count, max_count, size = 0, min(len(one) - x, len(two) - y), 1  # `count`: numbers that are known to be equal
    if one[x:x + max_count] == two[y:y + max_count]:
        return max_count
    while one[x + count:x + count + size] == two[y + count:y + count + size]:
        count, size = count + size, 2 * size
    while size:
        if count + size <= max_count and one[x + count:x + count + size] == two[y + count:y + count + size]:
            count += size
        size //= 2
    return count


def common_length(one: Activation, x: int, two: Activation, y: int) -> int:
    """Returns how many steps from index x of `one` and index y of `two` on have the same pcs, modes and traps."""
    count = equal_length(one.pcs, x, two.pcs, y)
    trapped_offsets = {n - x for n in one.traps if x <= n < x + count} | {n - y for n in two.traps if y <= n < y + count}
    return min((offset for offset in trapped_offsets if one.traps.get(x + offset) != two.traps.get(y + offset)), default=count)


def convergence(one: Activation, x: int, two: Activation, y: int) -> tuple[int, int]:
    """Returns the indices at which two activations converge: after the fewest steps from x and y. Returns their lengths if they do not converge."""
    second_indices = defaultdict(list)  # the indices in `two`, by pc
    for second in range(y, min(y + MAX_DISTANCE, len(two.pcs))):
        second_indices[two.pcs[second]].append(second)
    best = None  # the number of steps from x and y, and the two indices
    for first in range(x, min(x + MAX_DISTANCE, len(one.pcs))):
        if best and first - x > best[0]:
            break
        for second in second_indices.get(one.pcs[first], ()):
            cost = first - x + second - y
            if cost and (best is None or cost < best[0]) and one.pcs[first:first + CONVERGED_STEPS] == two.pcs[second:second + CONVERGED_STEPS]:
                best = cost, first, second
                break
    return best[1:] if best else (len(one.pcs), len(two.pcs))
