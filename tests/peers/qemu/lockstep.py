"""Both sides in lockstep: one step, a comparison of all registers and of the bytes stored, and the deviations of QEMU that explain a difference."""
from __future__ import annotations

from collections import Counter
from dataclasses import dataclass
from typing import Dict, List, Optional, Sequence, Tuple

from .actions import WFI, Action, Step, is_in_ram
from .bench import Bench
from .deviations import DEVIATIONS, Deviation
from .emulator import Emulator
from .registers import COUNTERS, NAMES, RAM, RAM_BYTES, RAM_END, State
from .stops import STOPS, Stop

Differences = Dict[str, Tuple[int, int]]
# Fetches that may fault one after another before a stream ends: pc will not come back to RAM.
FAULTS = 3


@dataclass
class Difference(Exception):
    """A difference that no deviation explains."""

    text: str

    def __str__(self) -> str:
        return self.text


class Lockstep:
    """A bench and an emulator in the same state. `steps` counts compared steps, `seen` the uses of each deviation."""

    def __init__(self, bench: Bench, emulator: Emulator, deviations: Sequence[Deviation] = DEVIATIONS, stops: Sequence[Stop] = STOPS):
        self.bench, self.emulator, self.deviations, self.stops = bench, emulator, deviations, stops
        self.steps, self.faults, self.seen = 0, 0, Counter()  # type: int, int, Counter[str]
        if emulator.counts:
            bench.prepare(["timer on"])
        self.ignored = () if emulator.counts else COUNTERS  # type: Tuple[str, ...]
        self.before = bench.state()
        emulator.write({"pc": self.before["pc"], "mode": self.before["mode"]})
        self.history: List[str] = []
        self.refreshes = True  # as in `Emulator.step`
        self._compare(Step(self.before, None, self.before, None), emulator.state())

    def step(self, action: Action) -> Step:
        """Makes a step on both sides and compares them."""
        before = self._prepare(action)
        pc = before["pc"]
        word = int.from_bytes(self.bench.read_memory(pc, 4), "little") if is_in_ram(pc) else None
        begun = Step(before, word, before, None)
        self._stop_at(begun)
        window = window_of(begun)
        old = self.bench.read_memory(*window) if window else b""
        after = self.bench.step()
        step = Step(before, word, after, self.bench.trap)
        if word == WFI and step.trap is None:  # QEMU halts until an interrupt is pending
            self.seen["wfi"] += 1
            self.emulator.write({"pc": pc + 4, **({name: after[name] for name in COUNTERS} if self.emulator.counts else {})})
        else:
            self.emulator.step(before, self.refreshes)
        self.history.append("%08x: %-30s %s" % (pc, action.text, {"x%d" % key: "%x" % value for key, value in action.registers.items()}))
        self._check_manual(step)
        self._compare(step, self.emulator.state())
        if window:
            self._compare_stored(step, old, *window)
        self.steps += 1
        self.faults = self.faults + 1 if step.trap and step.trap.cause == 1 else 0
        self.before = after
        return step

    def steps_at_once(self, count: int) -> None:
        """Makes steps without a trap, on the bench by one command, and compares the states after them."""
        before = self.before
        for _ in range(count):
            self.emulator.step(before, sets_counters=False)
        self.before = self.bench.step(count)
        self.history.append("%d steps" % count)
        self._compare(Step(before, None, self.before, self.bench.trap), self.emulator.state())
        self.steps += count

    @property
    def is_stuck(self) -> bool:
        """Returns whether pc will not come back to RAM."""
        return self.faults >= FAULTS

    def _prepare(self, action: Action) -> State:
        """Prepares both sides for an action, and returns the state of the bench."""
        values = {"x%d" % number: value for number, value in action.registers.items() if number}
        self.bench.prepare(["setreg %d %x" % (number, value) for number, value in action.registers.items()])
        self.emulator.write(values)
        pc = self.before["pc"]
        if action.word is not None and is_in_ram(pc):
            self.bench.write_words(pc, [action.word])
            self.emulator.write_memory(pc, action.word.to_bytes(4, "little"))
        before = {**self.before, **values}
        if action.timer is not None:
            self.bench.prepare(["timer %s" % ("on" if action.timer else "off")])
            self.emulator.set_timer(action.timer)
            before["mip"] = before["mip"] & ~0x80 | (0x80 if action.timer else 0)
        return before

    def _stop_at(self, step: Step) -> None:
        """Ends the run before a step to which a stop applies."""
        for it in self.stops:
            if it.applies(step):
                raise Ended(it.name)

    def _compare(self, step: Step, other: State) -> None:
        """Compares the states after a step; writes the bench's values to QEMU if a deviation explains the difference."""
        extra = NAMES.get(step.csr, "pc") if step.is_csr else "pc"
        if extra not in other:
            step.after[extra], other[extra] = self.bench.read(extra), self.emulator.read(extra)
        found = {name: (value, other[name]) for name, value in step.after.items() if value != other[name] and name not in self.ignored}
        if not found:
            return
        left = {name: ours ^ theirs for name, (ours, theirs) in found.items()}
        for it in self.deviations:
            explained = {name: left[name] & mask & ~(other[name] ^ value) for name, (mask, value) in it.predict(step).items() if name in left}
            if any(explained.values()):
                self.seen[it.name] += 1
            left = {name: bits & ~explained.get(name, 0) for name, bits in left.items()}
        if any(left.values()):
            raise Difference(self._report(step, {name: found[name] for name, bits in left.items() if bits}))
        repaired = {name: ours for name, (ours, _) in found.items()}
        self.emulator.write(repaired)
        self.emulator.write(repaired)  # some registers depend on others
        self._check_repair(step)

    def _check_manual(self, step: Step) -> None:
        """Checks that the bench does not deviate as QEMU does."""
        for it in self.deviations:
            wrong = {name: (step.after[name], value) for name, (mask, value) in it.manual(step).items()
                     if name in step.after and name not in self.ignored and (step.after[name] ^ value) & mask}
            if wrong:
                raise Difference(self._report(step, wrong).replace("QEMU", "the manual (%s)" % it.section))

    def _check_repair(self, step: Step) -> None:
        """Checks that QEMU has the bench's values now; a locked PMP entry cannot be written."""
        other = self.emulator.state()
        kept = {name: "%x, QEMU %x" % (value, other[name]) for name, value in step.after.items()
                if value != other.get(name, value) and name not in self.ignored and name not in COUNTERS}
        if kept:
            raise Ended("QEMU cannot be given %s" % kept)

    def _compare_stored(self, step: Step, old: bytes, start: int, count: int) -> None:
        """Compares the bytes around a store. A store that traps leaves those of the bench, `old`."""
        ours, theirs = self.bench.read_memory(start, count), self.emulator.read_memory(start, count)
        if step.trap and ours != old:
            raise Difference(self._report(step, {}) + "\nthe store traps, and changes bytes at %08x" % start)
        if ours == theirs:
            return
        for it in self.deviations:
            if it.stored and it.stored(step, ours, start) == theirs:
                self.seen[it.name] += 1
                self.emulator.write_memory(start, ours)
                return
        raise Difference(self._report(step, {}) + "\nbytes at %08x: %s, QEMU %s" % (start, ours.hex(), theirs.hex()))

    def compare_memory(self) -> None:
        """Compares all bytes of RAM."""
        ours, theirs = self.bench.read_memory(RAM, RAM_BYTES), self.emulator.read_memory(RAM, RAM_BYTES)
        differing = [RAM + at for at in range(RAM_BYTES) if ours[at] != theirs[at]] if ours != theirs else []
        if differing:
            raise Difference("%d bytes of memory differ, the first at %08x" % (len(differing), differing[0]))

    def _report(self, step: Step, left: Differences) -> str:
        lines = ["%s: %x, QEMU %x" % (name, ours, theirs) for name, (ours, theirs) in left.items()]
        shown = ("pc", "mode", "mstatus", "mie", "mip", "mtvec", "mepc", "pmpcfg0", "pmpcfg1", "pmpcfg2", "pmpcfg3", "mcountinhibit")
        context = " ".join("%s=%x" % (name, step.before[name]) for name in shown)
        return "\n".join(["after %d steps, at" % self.steps, *self.history[-6:], "trap %s, before: %s" % (step.trap, context), *lines])


def window_of(step: Step) -> Optional[Tuple[int, int]]:
    """Returns the first address and the number of the bytes around a store, if some are in RAM."""
    access = step.access
    if not step.is_store or access is None:
        return None
    start, end = max(RAM, access.start - 8), min(RAM_END, access.stop + 8)
    return (start, end - start) if start < end else None


class Ended(Exception):
    """A run cannot go on after a deviation."""
