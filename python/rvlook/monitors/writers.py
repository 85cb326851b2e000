"""Explains a difference of two monitors. Finds the last instruction in M that wrote what differs: a register, a control and status register, a PMP
entry, or a byte. For a trap in M it is the instruction that trapped.

Also finds the branch in M at which a call with a wrong result leaves the path of a similar call that has the right result. It shows the cause if a
check is missing, because no instruction wrote a wrong value then."""
from __future__ import annotations

import time
from typing import Callable, Iterator, NamedTuple

from rvlook.monitors.comparison import DifferenceKind, MonitorDifference
from rvlook.monitors.encodings import immediate_of, is_load, is_store, written_csr, written_register
from rvlook.monitors.items import MASK, Item
from rvlook.monitors.pair import PlayedScript, play
from rvlook.monitors.sides import MonitorSetup, Stay, word_at
from rvlook.protocol.bench import Closing
from rvlook.protocol.names import CSRS, Call, with_abi_names
from rvlook.protocol.replies import step_of
from rvlook.protocol.timeline import MOST_STEPS

STEPS_PER_EXCHANGE = 16384  # `step 1` commands that are sent to the bench at once
MAX_PATH = 64  # the most instructions before a writer that its `path` has
MAX_STAYS = 20  # the most stays that are searched, from the last one back
# The control and status registers that share bits with one, so that a write of each of them can write it.
ALSO_WRITTEN_BY = {"sstatus": ("sstatus", "mstatus"), "mstatus": ("mstatus", "sstatus"), "sie": ("sie", "mie"), "sip": ("sip", "mip")}
MAX_STEPS_SEARCHED = 1 << 18  # steps of a stay, its last ones, that are searched for a writer
MAX_STEPS_TO_FAULT = 1000000  # steps of a stay that is searched for a trap in M
Test = Callable[[int], bool]  # whether an encoded instruction is one that is searched
ARGUMENTS = range(10, 15)  # a0 to a4
BASE, ENTRY = 10, 14  # a0 and a4: in a create, the base of the region, and the entry
MAX_SECONDS = 20  # the most seconds for all similar calls
MAX_STEPS_COMPARED = 1 << 18  # steps in M of each path
CHANGES: tuple[Callable[[int], int], ...] = (  # the changes of one argument, the smallest ones first
    lambda it: it + 4, lambda it: it - 4, lambda it: it + 1, lambda it: it - 1, lambda it: it + 2, lambda it: it + 0x1000, lambda it: it - 0x1000,
    lambda it: it * 2, lambda it: it // 2, lambda it: it ^ 0x1800, lambda it: 0, lambda it: MASK, lambda it: it + 0x10000,
    lambda it: it - 0x10000, lambda it: it ^ 0x80000000)


class WritingInstruction(NamedTuple):
    """An instruction in M that wrote a value."""
    pc: int  # the address of the instruction
    text: str  # the text with ABI names
    address: int | None = None  # the address that it accesses; None if unknown
    path: tuple[int, ...] = ()  # pcs before it, the last one first: a compiler may give it no source line


class StayReplay(Closing):
    """A bench that has repeated the author's side of a script up to the beginning of one of its stays in M."""

    def __init__(self, setup: MonitorSetup, played: PlayedScript, stay: Stay) -> None:
        self.bench, self.stay = setup.own.bench(), stay  # a bench at the beginning of `stay`
        self.bench.replies_to(played.own_log[:stay.line])

    def close(self) -> None:
        """Ends the process of the bench."""
        self.bench.close()

    def addresses(self, first: int = 0) -> list[int]:
        """Returns the address of each instruction of the stay, from the one with number `first` on."""
        return [self.go(first), *self.step(self.stay.steps - first)][:-1]  # the last address is the one after the stay

    def step(self, steps: int) -> Iterator[int]:
        """Executes so many instructions one by one; yields the pc after each of them."""
        for first_step in range(0, steps, STEPS_PER_EXCHANGE):
            chunk_steps = min(STEPS_PER_EXCHANGE, steps - first_step)
            yield from (int(step_of(line.decode()).pc, 16) for line in self.bench.block(b"step 1\n" * chunk_steps, chunk_steps).splitlines())

    def last_match(self, test: Test) -> int | None:
        """Returns the number of the last instruction of the stay that a test accepts, or None. Searches only the last steps of a long stay."""
        first = max(0, self.stay.steps - MAX_STEPS_SEARCHED)
        addresses = self.addresses(first)
        accepted = {at for at in set(addresses) if test(word_at(self.bench, at))}
        return next((first + n for n in range(len(addresses) - 1, -1, -1) if addresses[n] in accepted), None)

    def first_trap(self) -> int | None:
        """Returns the number of the first instruction of the stay that traps, or None."""
        for first_step in range(0, min(self.stay.steps, MAX_STEPS_TO_FAULT), STEPS_PER_EXCHANGE):
            for number, reply in enumerate(self.bench.block(b"step 1\n" * STEPS_PER_EXCHANGE, STEPS_PER_EXCHANGE).splitlines(), first_step):
                if not reply.endswith(b"trap=-"):
                    return number
        return None

    def last_store(self, address: int, before: int) -> int | None:
        """Returns the number of the last instruction among the first `before` ones of the stay that stores to a byte, or None."""
        self.bench.one("watch %x" % address)
        last_step, steps_done = None, 0
        while steps_done < before:
            ran = step_of(self.bench.one("run %d" % min(before - steps_done, MOST_STEPS)))
            steps_done += ran.steps
            if ran.why.startswith("watch") and is_store(word_at(self.bench, int(ran.pc, 16) - 4)):  # the bench stops after the access
                last_step = steps_done - 1
        return last_step

    def go(self, number: int) -> int:
        """Executes the instructions before the one with a number, which counts from the beginning of the stay; returns the address of that one."""
        for steps_done in range(0, number, MOST_STEPS):
            self.bench.one("step %d" % min(MOST_STEPS, number - steps_done))
        return int(self.bench.ask("regs")[0][32][3:], 16)  # the line after x0 to x31 is `pc=ADDRESS`


def last_stays(played: PlayedScript) -> list[Stay]:
    """Returns the stays in M that are searched, the last one first."""
    return played.stays[::-1][:MAX_STAYS]


def writers_of(setup: MonitorSetup, played: PlayedScript, difference: MonitorDifference) -> list[WritingInstruction]:
    """Returns the last instruction in M that wrote a different value, if any; for a load, then also the last store to its address."""
    if difference.kind is DifferenceKind.fault:
        return trap_of(setup, played)
    if difference.kind is DifferenceKind.trap:
        return []
    if difference.kind is DifferenceKind.memory:
        writer = last_store(setup, played, difference.place or 0)
        return [writer] if writer else []
    return list(chain_of(setup, played, test_of(difference)))


def trap_of(setup: MonitorSetup, played: PlayedScript) -> list[WritingInstruction]:
    """Returns the instruction of the last stay that traps in M, if there is one."""
    stay = played.stays[-1]
    with StayReplay(setup, played, stay) as replay:
        number = replay.first_trap()
    return [] if number is None else [writer_at(setup, played, stay, number)]


def test_of(difference: MonitorDifference) -> Test:
    """Returns the test for instructions that write what differs, which is not memory."""
    if difference.kind is DifferenceKind.register:
        return lambda word: written_register(word) == difference.place
    numbers = written_csrs(difference)
    return lambda word: written_csr(word) in numbers


def written_csrs(difference: MonitorDifference) -> set[int]:
    """Returns the numbers of the control and status registers that determine what differs."""
    if difference.kind is DifferenceKind.pc:
        return {CSRS["mepc"]}
    if difference.kind is DifferenceKind.mode:
        return {CSRS["mstatus"]}
    if difference.kind is DifferenceKind.csr:
        return {CSRS[name] for name in ALSO_WRITTEN_BY.get(difference.name, (difference.name,))}
    if difference.place is None:
        return {CSRS["pmpcfg%d" % number] for number in range(4)}
    return {CSRS["pmpcfg%d" % (difference.place // 4)], CSRS["pmpaddr%d" % difference.place]}


def chain_of(setup: MonitorSetup, played: PlayedScript, test: Test) -> Iterator[WritingInstruction]:
    """Yields the last instruction that a test accepts, and the last store to the address that it loads."""
    for later_stays, stay in enumerate(last_stays(played)):
        with StayReplay(setup, played, stay) as replay:
            number = replay.last_match(test)
        if number is None:
            continue
        writer = writer_at(setup, played, stay, number)
        yield writer
        if writer.address is not None:
            store = last_store(setup, played, writer.address, skipped=later_stays, before=number)
            if store:
                yield store
        return


def writer_at(setup: MonitorSetup, played: PlayedScript, stay: Stay, number: int) -> WritingInstruction:
    """Returns the instruction of a stay that has a number, with the address that it loads if it is a load."""
    with StayReplay(setup, played, stay) as replay:
        first = max(0, number - MAX_PATH)
        path = [replay.go(first), *replay.step(number - first)]
        word = word_at(replay.bench, path[-1])
        base_register = word >> 15 & 31  # rs1
        address = replay.bench.register(base_register) + immediate_of(word) & MASK if is_load(word) else None
        reply = replay.bench.one("dis %x" % path[-1])  # ADDRESS WORD TEXT, or an error
        text = reply if reply.startswith("error") else with_abi_names(reply.split(None, 2)[2])
        return WritingInstruction(path[-1], text, address, path=tuple(path[-2::-1]))


def last_store(setup: MonitorSetup, played: PlayedScript, address: int, skipped: int = 0, before: int | None = None) -> WritingInstruction | None:
    """Returns the last store to a byte in M, or None. Skips the last `skipped` stays, and then all instructions from number `before` on."""
    for stay in last_stays(played)[skipped:]:
        with StayReplay(setup, played, stay) as replay:
            number = replay.last_store(address, stay.steps if before is None else before)
        if number is not None:
            return writer_at(setup, played, stay, number)._replace(address=address)
        before = None
    return None


class Divergence(NamedTuple):
    """The instruction after which two similar calls take different paths in M."""
    pc: int  # the last instruction that both execute
    own_next: int  # pc after it in the call of the script
    other_next: int  # pc after it in the similar call
    call: str  # the similar call
    result: str  # the result of the similar call on both monitors


def similar_calls(item: Item) -> Iterator[Item]:
    """Yields calls that differ from one in one argument. The entry of a create moves with its region."""
    registers = dict(item.registers)
    for change in CHANGES:
        for number in ARGUMENTS:
            value = change(registers.get(number, 0)) & MASK
            if number in registers and registers[number] != value:
                text = "%s with a%d=%x" % (item.text.split()[0], number - ARGUMENTS.start, value)
                changed = {**registers, number: value}
                if item.call_number == Call.create and number == BASE:
                    changed[ENTRY] = registers[ENTRY] + value - registers[BASE] & MASK
                yield item._replace(registers=tuple(changed.items()), text=text)


def divergence_of(setup: MonitorSetup, played: PlayedScript) -> Divergence | None:
    """Finds a similar call to which both monitors give the result that the reference gives to the last call of the script. Returns where the paths
    of the two calls in M of the author's monitor part; None if the script does not end in a call, or if no such call is found in time."""
    last_step, deadline = played.steps[-1] if played.steps else None, time.monotonic() + MAX_SECONDS
    if last_step is None or last_step.item.call_number is None or not played.stays:
        return None
    for item in similar_calls(last_step.item):
        other = play(setup, played.name, [*played.items[:-1], item], compares_memory=False)
        if not other.differences and len(other.steps) == len(played.steps) and other.steps[-1].result == last_step.result:
            return first_difference(setup, played, other)
        if time.monotonic() > deadline:
            break
    return None


def first_difference(setup: MonitorSetup, played: PlayedScript, other: PlayedScript) -> Divergence | None:
    """Returns where the paths of the last stays in M of two scripts differ first; None if they never do, or already at the first pc."""
    paths = []
    for side in (played, other):
        stay = side.stays[-1]._replace(steps=min(side.stays[-1].steps, MAX_STEPS_COMPARED))
        with StayReplay(setup, side, stay) as replay:
            paths.append(replay.addresses())
    own_path, other_path = paths
    split = next((number for number, (pc, other_pc) in enumerate(zip(own_path, other_path)) if pc != other_pc), 0)
    if not split:
        return None
    return Divergence(own_path[split - 1], own_path[split], other_path[split], other.steps[-1].item.text, other.steps[-1].result)
