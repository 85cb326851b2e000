"""Runs of random streams and of directed actions, with their counts."""
from __future__ import annotations

from collections import Counter
from contextlib import contextmanager
from dataclasses import dataclass, field
from typing import Any, Iterator, Sequence

from .actions import Action
from .bench import Bench
from .emulator import Emulator
from .lockstep import Difference, Ended, Lockstep
from .registers import RAM
from .streams import Stream, blocks

# The most steps of a stream: each begins at reset, so that a locked PMP entry does not last.
STREAM = 150
# Two of three streams have counters, and one changes the timer line.
PARTS = 3
# A block program has this many instructions, in runs of 1 to 40 steps.
BLOCK, RUN = 120, 40


@dataclass
class Counts:
    """The counts of runs: steps, streams, the uses of each deviation, and the reasons why streams ended early."""

    steps: int = 0
    streams: int = 0
    seen: "Counter[str]" = field(default_factory=Counter)
    ended: "Counter[str]" = field(default_factory=Counter)

    def add(self, other: Counts) -> None:
        """Adds the counts of other runs."""
        self.steps, self.streams = self.steps + other.steps, self.streams + other.streams
        self.seen.update(other.seen)
        self.ended.update(other.ended)


@contextmanager
def lockstep(program: str, counts: bool = True, side: type = Bench, **options: Any) -> Iterator[Lockstep]:
    """Starts both sides; `options` are those of `Lockstep`."""
    emulator = Emulator(counts=counts)
    try:
        bench = side(program)
        try:
            yield Lockstep(bench, emulator, **options)
        finally:
            bench.close()
    finally:
        emulator.close()


def run_actions(program: str, actions: Sequence[Action], **options: Any) -> Lockstep:
    """Compares the states after each of some actions."""
    with lockstep(program, **options) as run:
        for action in actions:
            run.step(action)
        return run


def run_stream(program: str, seed: str, part: int, limit: int = STREAM, side: type = Bench) -> Counts:
    """Compares the states after each step of a random stream, and all of RAM at its end; raises `Difference`."""
    counts, ended = part % PARTS != 0, Counter()  # type: bool, Counter[str]
    with lockstep(program, counts, side) as run:
        stream = Stream("%s/%d" % (seed, part), counts)
        try:
            while run.steps < limit and not run.is_stuck:
                run.step(stream.next(run.before))
            ended.update(["pc outside RAM"] if run.is_stuck else [])
        except Ended as why:
            ended[str(why)] += 1
        except Difference as found:
            raise Difference("seed %s, stream %d, %s" % (seed, part, found)) from found
        run.compare_memory()
        return Counts(run.steps, 1, run.seen, ended)


def run_block(program: str, seed: str, part: int) -> Counts:
    """Compares the states after runs of several steps, which the bench makes by its fast path; raises `Difference`."""
    program_text = blocks("%s/%d" % (seed, part), BLOCK)
    with lockstep(program) as run:
        words = [it.word or 0 for it in program_text]
        values = {number: value for it in program_text for number, value in it.registers.items()}
        run.bench.write_words(RAM, words)
        run.emulator.write_memory(RAM, b"".join(word.to_bytes(4, "little") for word in words))
        run.bench.prepare(["setreg %d %x" % it for it in values.items()])
        run.emulator.write({"x%d" % number: value for number, value in values.items() if number})
        done = 0
        while done < len(words):
            count = min(1 + (done * 7 + part) % RUN, len(words) - done)
            run.steps_at_once(count)
            done += count
        run.compare_memory()
        return Counts(done, 1, run.seen)
