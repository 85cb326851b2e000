"""Enumerates all schedules of two harts and of timer interrupts over the model of the bench. Returns the final states, and for each the number of
schedules that lead to it, and the fewest preemptions and timer interrupts. Independent of the code under test."""
import copy

from models.monitor_bench import Bench


FIRST, END = 0x10000, 0x14000  # the bytes of RAM that a program may access


class Orders:
    """All schedules with this number of steps of each hart, after a script; `values` returns what distinguishes final states."""

    def __init__(self, image, script, steps, timers, values, ram=196608, harts=2):
        self.bench = Bench(image, "raw", ram, True, harts)
        for line in script:
            assert not any(it.startswith("error") for it in self.bench.replies(line)), line
        self.harts, self.steps, self.values, self.found, self.count = self.bench.harts, steps, values, {}, 0
        self.walk([0] * harts, None, 0, 0, timers)

    def kept(self):
        """Returns all that a step may change."""
        one = self.harts[0]
        return bytes(one.ram[FIRST:END]), {slot: copy.copy(it) for slot, it in one.table.items()}, [
            (list(it.regs), it.pc, it.mode, it.timer, dict(it.kept), it.entries, it.world, it.host) for it in self.harts]

    def restore(self, kept):
        ram, table, harts = kept
        one = self.harts[0]
        one.ram[FIRST:END] = ram
        one.table.clear()
        one.table.update({slot: copy.copy(it) for slot, it in table.items()})
        for hart, (regs, pc, mode, timer, own, entries, world, host) in zip(self.harts, harts):
            if hart.entries is not entries:
                hart.entries = entries
                hart.verdicts.clear()
            hart.regs, hart.pc, hart.mode, hart.timer, hart.kept, hart.world, hart.host = list(regs), pc, mode, timer, dict(own), world, host

    def walk(self, done, last, preemptions, came, timers):
        """Enumerates all continuations from here; restores the harts."""
        open_harts = [hart for hart in range(len(self.harts)) if done[hart] < self.steps]
        if not open_harts:
            self.count += 1
            values = self.values(self.harts)
            old = self.found.get(values)
            cost = (preemptions, came)
            self.found[values] = (min(old[0], cost), old[1] + 1) if old else (cost, 1)
            return
        kept = self.kept()
        for hart in open_harts:
            is_preempted = last not in (None, hart) and last in open_harts
            for rises in (False, True)[:1 + (timers > 0 and not self.harts[hart].timer)]:
                if rises:
                    self.harts[hart].timer = True
                self.harts[hart].step()
                done[hart] += 1
                self.walk(done, hart, preemptions + is_preempted, came + rises, timers - rises)
                done[hart] -= 1
                self.restore(kept)
