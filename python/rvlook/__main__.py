"""Runs rvlook, and prints each error in one line."""
from __future__ import annotations

import gc
import os
import sys
import traceback
from typing import NoReturn, Sequence, TextIO

from rvlook.cli.parser import perform, read
from rvlook.errors import UNFINISHED, RvlookError, error, reason_of

INTERRUPTED, CLOSED = 130, 141  # the exit statuses of a shell for SIGINT and SIGPIPE
COLLECT = 500000  # new objects before the garbage collector looks for cycles: a run has millions of objects, and few cycles


def fail(line: str, status: int) -> int:
    """Prints an error; returns the status, also if nobody reads the error."""
    error(line)
    return status


def main(arguments: Sequence[str]) -> int:
    """Runs rvlook with these arguments; returns the exit status. Prints every error in one line."""
    gc.set_threshold(COLLECT)
    gc.enable()
    open_closed_streams()
    take_all_characters()
    try:
        return status_of(arguments)
    except KeyboardInterrupt:
        return fail("interrupted", INTERRUPTED)
    except BrokenPipeError:
        drop(sys.stdout)
        return fail("broken pipe", CLOSED)
    except OSError as fault:
        drop(sys.stdout)
        return fail("cannot write the output: %s" % fault.strerror, UNFINISHED)
    except MemoryError:
        return fail("out of memory; raise the limit of memory, or give a smaller input", UNFINISHED)
    except Exception as fault:  # a fault of rvlook itself, which is no finding: without this, Python would end with status 1
        place = traceback.extract_tb(fault.__traceback__)[-1]
        return fail("internal error: %s: %s (%s:%d); please report it with the command line"
                    % (type(fault).__name__, reason_of(fault), os.path.basename(place.filename), place.lineno or 0), UNFINISHED)


def status_of(arguments: Sequence[str]) -> int:
    """Runs a subcommand whose output can be written; returns the exit status."""
    if sys.stdout is None:
        return fail("standard output is closed", UNFINISHED)
    try:
        status = perform(read(arguments))
        sys.stdout.flush()
        return status
    except RvlookError as fault:
        sys.stdout.flush()  # the results so far come before the error
        return fail(str(fault), fault.status)
    except SystemExit as end:  # after a help text
        sys.stdout.flush()
        return end.code if isinstance(end.code, int) else 0


def open_closed_streams() -> None:
    """Opens /dev/null in place of a closed standard input, which is empty then, and of a closed standard error, so that no file that rvlook opens
    gets their numbers."""
    if sys.stdin is None:
        sys.stdin = open(os.devnull, encoding="utf-8")
    if sys.stderr is None:
        sys.stderr = open(os.devnull, "w", encoding="utf-8")


def take_all_characters() -> None:
    """Makes the standard streams accept any bytes, even those that the encoding of the locale lacks."""
    for stream, errors in ((sys.stdin, "surrogateescape"), (sys.stdout, "backslashreplace"), (sys.stderr, "backslashreplace")):
        if hasattr(stream, "reconfigure"):
            stream.reconfigure(errors=errors)


def drop(stream: TextIO) -> None:
    """Sends the rest of a stream to /dev/null, so that Python does not report the same error again when it exits."""
    os.dup2(os.open(os.devnull, os.O_WRONLY), stream.fileno())


def run() -> NoReturn:
    """Runs rvlook with the arguments of this process, and ends it with the exit status. Python frees no objects then, which takes up to a tenth of
    the time. After a run with --jobs, Python ends as usual, so that it waits for the other processes."""
    status = main(sys.argv[1:])
    if "multiprocessing" in sys.modules:
        sys.exit(status)
    for stream in filter(None, (sys.stdout, sys.stderr)):
        try:
            stream.flush()
        except OSError:
            status = status or UNFINISHED
    os._exit(status)


if __name__ == "__main__":
    run()
