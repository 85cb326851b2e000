"""Bounds what reading an ELF file may cost: entries, processor time and memory. A small file can describe millions of lines or members."""
from __future__ import annotations

import resource
import signal
import threading
import time
from contextlib import contextmanager
from functools import lru_cache
from typing import Any, Iterator, List, NoReturn

MOST_ENTRIES = 500000  # entries of symbol tables and of debugging information; some count more than once
MOST_SECONDS = 5.0  # the most seconds of processor time
MOST_MEMORY = 1 << 28  # bytes more than before
AGAIN = 1.0  # seconds after which the timer interrupts again, if Python dropped the exception in a finalizer
PAGE = resource.getpagesize()
LIMIT = "its symbols and debugging information take more than %d entries, %d seconds or %d MiB" % (MOST_ENTRIES, MOST_SECONDS, MOST_MEMORY >> 20)
UNIT, UNIT_RANGE = 100, 10  # entries that a compilation unit and an address range of it count as, since each lookup of an address scans them


class BudgetExceeded(Exception):
    """Raised if reading an ELF file takes more entries, time or memory than its budget has."""

    def __init__(self) -> None:
        super().__init__(LIMIT)


class Budget:
    """The entries and the processor time that are left for reading the symbols and the debugging information of one ELF file."""

    def __init__(self) -> None:
        self.entries, self.seconds = MOST_ENTRIES, MOST_SECONDS  # the entries and the seconds of processor time that are left

    def spend(self, count: int) -> None:
        """Takes `count` entries from this budget. Raises BudgetExceeded if fewer are left."""
        self.entries -= count
        if self.entries < 0:
            raise BudgetExceeded

    @contextmanager
    def limits(self) -> Iterator[None]:
        """Bounds the body, which may call `spend`. Raises BudgetExceeded if the body takes too many entries or too much time. A body inside a body
        has the limits of the outer one."""
        if ACTIVE:
            yield
            return
        self.spend(0)
        ACTIVE.append(self)
        began = time.process_time()
        try:
            with limited_time(self.seconds), limited_memory():
                yield
        except Exception as error:  # pyelftools replaces the exceptions that occur in its parser by exceptions of its own
            if not any(isinstance(cause, (BudgetExceeded, MemoryError)) for cause in causes(error)):
                raise
            self.entries = -1  # later readings of the file fail at once
            raise BudgetExceeded from None
        finally:
            ACTIVE.pop()
            self.seconds -= time.process_time() - began
            if self.seconds <= 0:
                self.entries = -1


ACTIVE: List[Budget] = []  # the budget of the reading that is under way, if there is one


def spend(count: int = 1) -> None:
    """Takes entries from the budget of the reading that is under way; raises BudgetExceeded if it does not have them."""
    if ACTIVE:
        ACTIVE[-1].spend(count)


def causes(error: BaseException | None) -> Iterator[BaseException]:
    """Yields an exception, the one that was handled when it was raised, and so on."""
    while error is not None:
        yield error
        error = error.__context__


@lru_cache(maxsize=4)
def budget_of(data: bytes) -> Budget:
    """Returns the budget of an ELF file, which its readers share: no command reads more than four at a time. `image_of` clears this cache."""
    return Budget()


@contextmanager
def limited_time(seconds: float) -> Iterator[None]:
    """Raises BudgetExceeded in a body that takes more processor time, in seconds. Only the main thread has a timer."""
    def raise_exceeded(*_: Any) -> NoReturn:
        raise BudgetExceeded

    if threading.current_thread() is not threading.main_thread():
        yield
        return
    old_handler = signal.signal(signal.SIGVTALRM, raise_exceeded)
    try:
        signal.setitimer(signal.ITIMER_VIRTUAL, max(seconds, 0.001), AGAIN)
        yield
    finally:
        signal.setitimer(signal.ITIMER_VIRTUAL, 0)
        signal.signal(signal.SIGVTALRM, old_handler)


@contextmanager
def limited_memory() -> Iterator[None]:
    """Causes a MemoryError in a body that takes more than MOST_MEMORY."""
    soft, hard = resource.getrlimit(resource.RLIMIT_AS)
    limit = address_space() + MOST_MEMORY
    if soft != resource.RLIM_INFINITY and soft <= limit:
        yield
        return
    resource.setrlimit(resource.RLIMIT_AS, (limit, hard))
    try:
        yield
    finally:
        resource.setrlimit(resource.RLIMIT_AS, (soft, hard))


def address_space() -> int:
    """Returns the size of the address space of this process in bytes."""
    with open("/proc/self/statm", encoding="ascii") as file:
        return int(file.read().split()[0]) * PAGE
