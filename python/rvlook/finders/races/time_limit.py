"""The time limit of a subcommand. An alarm of the system interrupts any work, so the limit also holds within one long computation and
during a reply of the bench."""
from __future__ import annotations

import signal
import time
from contextlib import contextmanager
from typing import Iterator, NoReturn

ALARM_INTERVAL = 0.2  # seconds between two alarms; an exception that is raised in a destructor is dropped
MAX_ALARM = 1e9  # seconds; a longer alarm does not fit into a timer of the system


class OutOfTime(Exception):
    """The time limit is reached."""


class TimeLimit:
    """A time limit in seconds, which begin when the object is created. None is no limit."""
    def __init__(self, seconds: float | None = None) -> None:
        self.start, self.seconds = time.monotonic(), seconds  # `start` is of the monotonic clock

    @contextmanager
    def until(self, share: float, more: float = 0.0) -> Iterator[None]:
        """Raises OutOfTime in the body of a `with` statement when this share of the limit, and `more` seconds, have passed since the start."""
        if self.seconds is None:
            yield
            return
        end = self.start + share * self.seconds + more
        old = signal.signal(signal.SIGALRM, stop)
        try:
            signal.setitimer(signal.ITIMER_REAL, min(max(end - time.monotonic(), 0.001), MAX_ALARM), ALARM_INTERVAL)
            yield
        finally:
            signal.setitimer(signal.ITIMER_REAL, 0)
            signal.signal(signal.SIGALRM, old)


def stop(*_: object) -> NoReturn:
    """Raises OutOfTime. Handles the alarm."""
    raise OutOfTime
