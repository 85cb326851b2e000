"""The exceptions of rvlook, each with a message of one line and an exit status, and the lines that it prints to standard error."""
from __future__ import annotations

import os
import sys
from contextlib import contextmanager
from functools import partial
from typing import Iterator, List

from rvlook.escapes import visible

FOUND, REFUSED, UNFINISHED = 1, 2, 3  # exit statuses (docs/LOOK.md, Exit statuses); argparse and rvbench use 2 for the same purpose

LONGEST_REASON = 200  # characters of an error that no one foresaw


class RvlookError(Exception):
    """An argument or an input that rvlook cannot use. Its text is the message."""
    status = REFUSED  # the exit status


class Unfinished(RvlookError):
    """An error that stops rvlook although its arguments and inputs may be valid."""
    status = UNFINISHED  # the exit status


class UsageError(RvlookError):
    """An invalid command line."""


class SymbolError(RvlookError):
    """A name that has no address, or more than one."""


class BenchEnded(Unfinished):
    """rvbench exited before it had replied."""


def reason_of(error: BaseException) -> str:
    """Returns the text of an error, of at most LONGEST_REASON characters; its class if it has no text, or one with a number that is too long."""
    try:
        return visible(str(error)[:LONGEST_REASON]) or type(error).__name__
    except ValueError:
        return type(error).__name__


def print_plain(line: str) -> None:
    """Prints a line to standard error. If that cannot be written, it loses this line and the later ones, and the exit status stays what it is."""
    try:
        print(line, file=sys.stderr, flush=True)
    except OSError:
        sys.stderr = open(os.devnull, "w", encoding="utf-8")


MESSAGE_LISTS: List[List[str]] = []  # the lists of messages of the bodies that capture messages; the last list gets them


@contextmanager
def captured_messages() -> Iterator[List[str]]:
    """Collects the messages of the body in a list, in place of printing them."""
    MESSAGE_LISTS.append([])
    try:
        yield MESSAGE_LISTS[-1]
    finally:
        MESSAGE_LISTS.pop()


def print_line(severity: str, line: str) -> None:
    """Prints a message to standard error: the program, a severity and the text, whose control characters are made visible."""
    text = "rvlook: %s: %s" % (severity, visible(line))
    if MESSAGE_LISTS:
        MESSAGE_LISTS[-1].append(text)
    else:
        print_plain(text)


error = partial(print_line, "error")  # reports that an argument or an input was refused, or that the work failed
warn = partial(print_line, "warning")  # reports a finding, or that the result is incomplete
note = partial(print_line, "note")  # reports a choice that rvlook made


def package_missing(module: str, package: str, what: str) -> str:
    """Returns the message for a missing Python package: its module, its Debian package, and what does not work without it."""
    return "%s is not installed, so %s; install it with 'apt-get install %s'" % (module, what, package)
