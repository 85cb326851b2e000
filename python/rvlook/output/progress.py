"""Shows the progress of a long task in a line on a terminal. Writes nothing if standard error is no terminal, or if a caller takes the messages."""
from __future__ import annotations

import sys
import time
from typing import TextIO

from rvlook.errors import MESSAGE_LISTS
from rvlook.escapes import visible

EVERY = 0.2  # the least seconds between two updates


class Progress:
    """The progress line. It is updated at most five times a second, and removed at the end."""

    def __init__(self, stream: TextIO | None = None) -> None:
        self.stream = stream or sys.stderr  # standard error by default
        # `last`: time of the last update; `width`: characters of the line
        self.is_shown, self.last, self.width = self.stream.isatty() and not MESSAGE_LISTS, time.monotonic(), 0

    def __enter__(self) -> Progress:
        return self

    def __exit__(self, *_: object) -> None:
        self.clear()

    def show(self, text: str, *values: object) -> None:
        """Shows a line, from a format and its values."""
        if not self.is_shown or time.monotonic() - self.last < EVERY:
            return
        self.last, line = time.monotonic(), visible(text % values)
        self.stream.write("\r" + line.ljust(self.width))
        self.stream.flush()
        self.width = len(line)

    def bar(self, done: int, total: int, note: str) -> None:
        """Shows a bar for `done` of `total` tasks, and a note after it."""
        if self.is_shown and total:
            filled = 30 * done // total
            self.show("[%s%s] %d of %d  %s", "#" * filled, "." * (30 - filled), done, total, note)

    def clear(self) -> None:
        """Removes the line."""
        if self.width:
            self.stream.write("\r" + " " * self.width + "\r")
            self.stream.flush()
            self.width = 0
