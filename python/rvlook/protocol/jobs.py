"""Does numbered tasks in one or more processes."""
from __future__ import annotations

import signal
import threading
from collections import deque
from contextlib import contextmanager
from importlib import import_module
from itertools import islice
from typing import Any, Callable, Iterator, TypeVar

from rvlook.errors import Unfinished
from rvlook.protocol.bench import program_path

Result = TypeVar("Result")
TASKS_AHEAD = 16  # tasks per process that are sent before their results are needed
TASKS: list[Callable[[int], object]] = []  # has the one task of the forked processes, which inherit this list


def results_of(task: Callable[[int], Result], count: int, jobs: int) -> Iterator[Result]:
    """Yields the results of a task for the numbers 0 to `count` - 1, in this order. With more than one job, forked processes do the task. They
    inherit all that it needs. They end with the generator. Raises Unfinished if one of them is killed."""
    if jobs == 1 or count < 2:
        yield from map(task, range(count))
        return
    program_path()  # builds the program once, if it has to be built
    TASKS[:] = [task]
    processes, futures = map(import_module, ("multiprocessing", "concurrent.futures.process"))  # only here, since this takes time
    earlier_processes, numbers, is_done = set(processes.active_children()), iter(range(count)), False
    pool = futures.ProcessPoolExecutor(min(jobs, count), processes.get_context("fork"), ignore_interrupts)
    waiting: deque[Any] = deque()
    try:
        waiting.extend(pool.submit(do_number, number) for number in islice(numbers, TASKS_AHEAD * jobs))
        while waiting:
            result = waiting.popleft().result()
            waiting.extend(pool.submit(do_number, number) for number in islice(numbers, 1))
            yield result
        is_done = True
    except futures.BrokenProcessPool:
        raise Unfinished("a process of --jobs %d was killed; use fewer jobs, or look for a lack of memory" % jobs) from None
    finally:
        for process in () if is_done else set(processes.active_children()) - earlier_processes:
            process.terminate()
        pool.shutdown()


def do_number(number: int) -> object:
    """Does the task in TASKS for a number in a forked process; returns its result."""
    return TASKS[0](number)


def ignore_interrupts() -> None:
    """Leaves Ctrl-C to the process that waits for the results."""
    signal.signal(signal.SIGINT, signal.SIG_IGN)


@contextmanager
def uninterrupted() -> Iterator[None]:
    """Delays Ctrl-C until the end of the body, so that a result which counts is also shown. Only the main thread is interrupted at all."""
    handler = signal.getsignal(signal.SIGINT)
    if not callable(handler) or threading.current_thread() is not threading.main_thread():
        yield
        return
    interrupts: list[Any] = []
    signal.signal(signal.SIGINT, lambda *arguments: interrupts.append(arguments))
    try:
        yield
    finally:
        signal.signal(signal.SIGINT, handler)
    if interrupts:
        handler(*interrupts[0])
