"""A long comparison with QEMU: streams and runs of several steps by parallel processes, until a number of steps is compared."""
from __future__ import annotations

from concurrent.futures import FIRST_COMPLETED, ProcessPoolExecutor, wait
from typing import List, Tuple

from .lockstep import Difference
from .runner import Counts, run_block, run_stream

# After this many streams one program is run in blocks.
BLOCK_EVERY = 20


def _work(program: str, seed: str, part: int) -> Tuple[Counts, str]:
    """Compares a stream, or a program in blocks; returns its counts, and the report of a difference."""
    try:
        return (run_block if part % BLOCK_EVERY == 0 else run_stream)(program, seed, part), ""
    except Difference as found:
        return Counts(), str(found)


def compare(program: str, steps: int, seed: str, jobs: int) -> Tuple[Counts, List[str]]:
    """Compares at least this number of steps; returns the counts, and the reports of differences."""
    total, reports, part = Counts(), [], 0  # type: Counts, List[str], int
    with ProcessPoolExecutor(jobs) as pool:
        running = set()
        while running or total.steps < steps:
            while len(running) < 2 * jobs and total.steps < steps:
                running.add(pool.submit(_work, program, seed, part))
                part += 1
            done, running = wait(running, return_when=FIRST_COMPLETED)
            for counts, report in (it.result() for it in done):
                total.add(counts)
                reports += [report] if report else []
    return total, reports
