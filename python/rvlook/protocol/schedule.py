"""The order of the steps of two harts if no script sets it: a string of digits, each the number of a hart, that repeats."""
from __future__ import annotations

import random
import re
from typing import Iterator

TURN = 32  # steps of a hart before the other one continues
LONGEST = 64  # digits of a schedule, as in a `sched`
MAX_RANDOM_TURN = 16  # steps of a random turn


def alternating(turn: int) -> str:
    """Returns the schedule that alternates the harts every `turn` steps, 1 to 32."""
    return "0" * turn + "1" * turn


def random_schedule(seed: int) -> str:
    """Returns a schedule of 64 digits whose turns are 1 to 16 steps long, the same for equal seeds."""
    generator, digits = random.Random(seed), ""
    hart = generator.randrange(2)
    while len(digits) < LONGEST:
        digits += str(hart) * generator.randint(1, MAX_RANDOM_TURN)
        hart = 1 - hart
    return digits[:LONGEST]


def turns_of(schedule: str) -> Iterator[tuple[int, int]]:
    """Yields the turns of a schedule for ever, each as a hart and its number of steps."""
    turns = [(int(match[0][0]), len(match[0])) for match in re.finditer("0+|1+", schedule)]
    while True:
        yield from turns
