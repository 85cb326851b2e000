"""Benches that falsify one value, so that a test sees the comparison fail."""
from __future__ import annotations

from .bench import Bench
from .registers import State

# The step from which on a value is false.
BEGIN = 20


class FaultyRegister(Bench):
    """Shows x7 with bit 0 changed."""

    name = "x7"
    steps = 0

    def step(self, count: int = 1) -> State:
        """Makes steps, and falsifies one register of the state after them."""
        self.steps += 1
        state = super().step(count)
        return {**state, self.name: state[self.name] ^ 1} if self.steps > BEGIN else state


class FaultyCsr(FaultyRegister):
    """Shows mcause with bit 0 changed."""

    name = "mcause"


class FaultyCounter(FaultyRegister):
    """Shows minstret with bit 0 changed."""

    name = "minstret"


class FaultyMemory(Bench):
    """Shows the last byte of memory that it reads with bit 0 changed, if it is not 0."""

    def read_memory(self, address: int, count: int) -> bytes:
        """Returns bytes of memory. One is false."""
        data = super().read_memory(address, count)
        return data[:-1] + bytes([data[-1] ^ 1]) if count > 4 and data[-1] else data


FAULTY = [FaultyRegister, FaultyCsr, FaultyCounter, FaultyMemory]
