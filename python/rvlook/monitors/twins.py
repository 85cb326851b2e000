"""Runs a monitor twice, and gives the private state of one enclave other values in the second run. Compares what all other worlds observe
(noninterference): their registers, memory and access rights, and the number of steps in M.

The private state of an enclave is the bytes of its ranges and its registers, from its trap on and while the ranges are closed. Before the enclave
continues, it gets the values of the first run. One pair of runs therefore covers the whole run. There is a pair for each enclave that runs, one for
the ranges of all other enclaves, and one for the unused memory of the monitor."""
from __future__ import annotations

from dataclasses import dataclass, field
from typing import Iterator, NamedTuple

from rvlook.monitors.checks import A0, A7, MARKED_CSRS, SWITCHING, closed_ranges
from rvlook.monitors.guarded import STATE_CSRS, SUPERVISOR, Guarded, StayInM, HartState
from rvlook.monitors.items import MASK
from rvlook.monitors.ownership import HOST, MONITOR, OwnedRange, Ownership
from rvlook.monitors.rights import rights_of
from rvlook.monitors.sides import MonitorSetup, word_at
from rvlook.protocol.memory_map import MONITOR_END, RAM_BASE
from rvlook.protocol.names import ABI, ECALL_FROM_S
from rvlook.protocol.replies import poke_commands

OTHERS = "the ranges of enclaves that do not run"
UNUSED, SECRETS = "unused memory of the monitor", "secret memory of the monitor"
PAGE = 0x1000


@dataclass
class Track:
    """One run, which goes from one return from M to the next.

    A range becomes live at the return at which it is closed to the host or its owner runs. It stays live until the host gets it back."""
    machine: Guarded  # the machine that runs
    declared: Ownership  # what the author declares
    limit: int  # steps below M
    world: str = HOST  # the world that continues
    returns: int = 0  # the number of returns from M so far
    calls: int = 0  # the number of calls of the host so far
    live: set[OwnedRange] = field(default_factory=set)  # the live ranges
    closed: list[OwnedRange] = field(default_factory=list)  # the live ranges that are closed to the world that continues
    inverted: list[OwnedRange] = field(default_factory=list)  # ranges that were inverted at the last trap

    def __post_init__(self) -> None:
        self.ownership = self.declared

    def next_return(self, secret: str = "") -> StayInM | None:
        """Goes to the next return from M; returns None at the limit, the end of the host, a loop of traps, and a fault in M. If `secret` is a world,
        and if this world traps by a call or the timer, its private state is inverted before M runs."""
        self.inverted = []
        if not self.returns:
            stay = self.machine.begin()
        else:
            self.machine.leave()
            cause = self.machine.to_trap(self.limit - self.machine.steps)
            if cause is None:
                return None
            entry = self.machine.state()
            if self.machine.loop.detects(cause, entry, self.machine.steps):
                return None
            self.calls += cause == ECALL_FROM_S and self.world == HOST
            if secret and self.world == secret and cause in SWITCHING:
                self.invert_state(cause, entry)
            stay = self.machine.to_return(cause, entry)
        self.returns += 1
        self.ownership = self.declared.active(lambda at: word_at(self.machine.bench, at), self.calls)
        owner = self.ownership.owner_of(stay.exit.pc)
        self.world = self.world if owner is None or owner == MONITOR else owner
        self.note_closed(stay)
        return None if stay.fault else stay

    def invert_state(self, cause: str, entry: HartState) -> None:
        """Inverts the private state of the world that trapped: its registers without the arguments of a call, and its ranges. A range to which an
        argument points stays as it is, since M may read it for the call."""
        arguments = entry.registers[A0:A7 + 1] if cause == ECALL_FROM_S else ()
        registers = {n: entry.registers[n] ^ MASK for n in range(1, 32) if not (arguments and A0 <= n <= A7)}
        self.machine.set_state(registers, {name: entry.csrs[name] ^ MASK for name in MARKED_CSRS})
        self.inverted = [range_ for range_ in self.ownership.private() if range_.owner == self.world and not any(map(range_.has, arguments))]
        for inverted in self.inverted:
            self.machine.do(*poke_commands(inverted.first, bytes(byte ^ 0xFF for byte in self.machine.bytes_of(inverted.first, inverted.end))))

    def note_closed(self, stay: StayInM) -> None:
        """Notes which ranges are live and closed to the world that continues."""
        closed = closed_ranges(self.ownership, rights_of(stay.exit.entries, self.machine.setup.ram))
        self.live = {range_ for range_ in self.ownership.private()
                     if range_.is_timed or self.world == range_.owner or (range_ in closed if self.world == HOST else range_ in self.live)}
        self.closed = [range_ for range_ in closed if range_ in self.live and range_.owner != self.world]


class TwinSecret(NamedTuple):
    """The private state that the second run of a pair inverts. A field is empty if nothing of its kind is inverted."""
    name: str  # the name for the report
    owners: frozenset[str] = frozenset()  # the enclaves whose ranges are inverted
    world: str = ""  # the world whose registers are inverted
    ranges: tuple[OwnedRange, ...] = ()  # ranges of the monitor that are inverted

    @property
    def text(self) -> str:
        """Returns the secret in words."""
        return "private state of %s" % self.name if self.world else self.name


class TwinResult(NamedTuple):
    """The result of a pair of runs."""
    secret: TwinSecret  # the inverted state
    difference: str = ""  # the first difference in words; empty if there is none
    step: int = 0  # below M, at the difference
    pc: int = 0  # the pc of the trap before the difference
    changes: int = 0  # how often the secret was inverted
    returns: int = 0  # the number of returns from M that were compared
    why_cut: str = ""  # why the comparison ended early; empty if it did not


def secrets_of(setup: MonitorSetup, ownership: Ownership, limit: int, vectors: set[int]) -> list[TwinSecret]:
    """Returns the secret of each pair of runs. Unused pages of the monitor are in no segment, and all zeros after the boot and at the end."""
    entered_owners: dict[str, None] = {}
    closed_owners: dict[str, None] = {}
    with Guarded(setup, vectors, ownership.is_monitor) as machine:
        track = Track(machine, ownership, limit)
        stay = track.next_return()
        unused = list(zero_pages(machine, unloaded_pages(setup, ownership)))
        while stay:
            entered_owners[track.world] = None
            closed_owners.update({range_.owner: None for range_ in track.closed})
            stay = track.next_return()
        unused = list(zero_pages(machine, unused))
    secrets = [TwinSecret(name=owner, owners=frozenset({owner}), world=owner) for owner in entered_owners if owner in closed_owners]
    other_owners = frozenset(closed_owners.keys() - entered_owners.keys())
    if other_owners:
        secrets.append(TwinSecret(name=OTHERS, owners=other_owners))
    return secrets + [TwinSecret(name, ranges=tuple(ranges)) for name, ranges in ((UNUSED, unused), (SECRETS, ownership.secrets)) if ranges]


def unloaded_pages(setup: MonitorSetup, ownership: Ownership) -> Iterator[OwnedRange]:
    """Yields the pages of the monitor that are in no segment of the image."""
    segments = list(setup.image.segments())
    for owned in [range_ for range_ in ownership.ranges if range_.owner == MONITOR]:
        for first in range(-(-owned.first // PAGE) * PAGE, min(owned.end, RAM_BASE + setup.ram) - PAGE + 1, PAGE):
            if not any(segment.address < first + PAGE and first < segment.address + segment.in_memory for segment in segments):
                yield OwnedRange(first, first + PAGE, MONITOR)


def zero_pages(machine: Guarded, pages: Iterator[OwnedRange] | list[OwnedRange]) -> Iterator[OwnedRange]:
    """Yields the pages whose bytes are all 0."""
    return (page for page in pages if not any(machine.bytes_of(page.first, page.end)))


class TwinRuns:
    """Two runs. The second one has other values in the private state of an enclave, or in unused memory of the monitor."""

    def __init__(self, setup: MonitorSetup, ownership: Ownership, limit: int, vectors: set[int], secret: TwinSecret) -> None:
        # `secret`: what the second run inverts
        self.setup, self.ownership, self.limit, self.vectors, self.secret = setup, ownership, limit, vectors, secret
        self.inverted: list[OwnedRange] = []  # the ranges that differ in the second run
        self.changes, self.returns = 0, 0  # inversions so far, and returns that were compared

    def machine(self) -> Guarded:
        """Returns the machine of a run."""
        return Guarded(self.setup, self.vectors, self.ownership.is_monitor)

    def compare(self) -> TwinResult:
        """Does both runs from return to return; ends them at the first difference, or when a run has no next return."""
        with self.machine() as one, self.machine() as other:
            first, second = tracks = Track(one, self.ownership, self.limit), Track(other, self.ownership, self.limit)
            stay, other_stay = first.next_return(), second.next_return()
            if stay:
                self.invert(tracks, self.secret.ranges)
            while stay and other_stay:
                result = self.at_return(tracks, stay, other_stay)
                if result:
                    return result
                stay, other_stay = first.next_return(), second.next_return(self.secret.world)
            is_different = stay is not other_stay and first.world not in self.secret.owners
            return self.result("only one of two runs has another return from M" if is_different else "", one.steps)

    def at_return(self, tracks: tuple[Track, Track], one: StayInM, other: StayInM) -> TwinResult | None:
        """Returns the result if the runs differ at a return from M, else None. If an owner of the secret continues, it gets the first run's state."""
        first, second = tracks
        self.inverted += [range_ for range_ in second.inverted if range_ not in self.inverted]
        self.changes += bool(second.inverted)
        if first.world in self.secret.owners and second.world == first.world:
            if (one.exit.pc, one.exit.mode) != (other.exit.pc, other.exit.mode):
                places = first.world, one.exit.pc, other.exit.pc
                return self.result("", first.machine.steps, why_cut="%s then continues at %08x in one run, and at %08x in the other" % places)
            self.restore(tracks, one, other)
            return None
        self.inverted = [range_ for range_ in self.inverted if range_ in first.closed or range_ in self.secret.ranges]
        self.returns += 1
        text = state_difference(one, other) or memory_difference(tracks, self.inverted)
        self.invert(tracks, [range_ for range_ in first.closed if range_.owner in self.secret.owners and range_ not in self.inverted])
        return self.result(text, first.machine.steps, one.entry.pc) if text else None

    def invert(self, tracks: tuple[Track, Track], ranges: list[OwnedRange] | tuple[OwnedRange, ...]) -> None:
        """Writes into ranges of the second run the inverted bytes of the first run."""
        for secret_range in ranges:
            data = tracks[0].machine.bytes_of(secret_range.first, secret_range.end)
            tracks[1].machine.do(*poke_commands(secret_range.first, bytes(byte ^ 0xFF for byte in data)))
            self.inverted.append(secret_range)
        self.changes += bool(ranges)

    def restore(self, tracks: tuple[Track, Track], one: StayInM, other: StayInM) -> None:
        """Gives the owner that continues in the second run the bytes and registers of the first run."""
        for inverted in [range_ for range_ in self.inverted if range_ not in self.secret.ranges]:
            data, old_data = (track.machine.bytes_of(inverted.first, inverted.end) for track in tracks)
            pokes = poke_commands(inverted.first, data)
            tracks[1].machine.do(*(poke for poke, byte, old_byte in zip(pokes, data, old_data) if byte != old_byte))
        self.inverted = list(self.secret.ranges)
        registers = {n: value for n, value in enumerate(one.exit.registers) if value != other.exit.registers[n]}
        csrs = {name: one.exit.csrs[name] for name in SUPERVISOR if one.exit.csrs[name] != other.exit.csrs[name]}
        tracks[1].machine.set_state(registers, csrs)

    def result(self, difference: str, step: int, pc: int = 0, why_cut: str = "") -> TwinResult:
        """Returns the result of the comparison of the two runs."""
        return TwinResult(self.secret, difference, step, pc, self.changes, self.returns, why_cut)


def state_difference(one: StayInM, other: StayInM) -> str:
    """Returns the first difference of two returns as text, or an empty text: the steps in M, the registers, and the access rights."""
    if one.spent != other.spent:
        return "M takes %d or %d steps for a trap at %08x" % (one.spent, other.spent, one.entry.pc)
    first, second = one.exit, other.exit
    values = (*first.registers, *first.csrs.values()), (*second.registers, *second.csrs.values())
    for name, value, other_value in zip((*ABI, *STATE_CSRS), *values):
        if value != other_value:
            return "%s at %08x is %08x or %08x" % (name, first.pc, value, other_value)
    return "the PMP entries at %08x differ" % first.pc if first.entries != second.entries else ""


def memory_difference(tracks: tuple[Track, Track], inverted: list[OwnedRange]) -> str:
    """Returns the first byte of memory that differs, outside the ranges of the monitor and the inverted ranges, or an empty text."""
    hidden = inverted + [range_ for range_ in tracks[0].ownership.ranges if range_.owner == MONITOR]
    first_rows, second_rows = (track.machine.rows_outside(hidden) for track in tracks)
    if first_rows == second_rows:
        return ""
    one, other = (without(track.machine.memory(), hidden) for track in tracks)
    offset = next((n for n in range(len(one)) if one[n] != other[n]), None)
    return "" if offset is None else "memory at %08x is %02x or %02x" % (MONITOR_END + offset, one[offset], other[offset])


def without(memory: bytes, hidden: list[OwnedRange]) -> bytes:
    """Returns a copy of the memory from MONITOR_END on, with zeros in the hidden ranges."""
    shown = bytearray(memory)
    for hidden_range in hidden:
        first, end = max(0, hidden_range.first - MONITOR_END), max(0, hidden_range.end - MONITOR_END)
        shown[first:end] = bytes(len(shown[first:end]))
    return bytes(shown)
