"""Processes that a script started, for scripts that have to end them."""
import contextlib
import glob
import os
import signal
import time

# The seconds for which `end` looks for further processes, and between two looks.
SECONDS, PAUSE = 2, 0.05


def descendants(pid):
    """Returns the running processes that a process started, and those that they started, by number."""
    parents = {}
    for path in glob.glob("/proc/[0-9]*/stat"):
        with contextlib.suppress(OSError), open(path, encoding="utf-8", errors="replace") as file:
            number, _, rest = file.read().partition(" (")
            state, parent = rest.rpartition(")")[2].split()[:2]
            if state != "Z":
                parents[int(number)] = int(parent)
    found = {pid}
    while more := {it for it, parent in parents.items() if parent in found} - found:
        found |= more
    return found - {pid}


def kill(pids):
    """Kills processes; some of them may have ended."""
    for it in pids:
        with contextlib.suppress(ProcessLookupError):
            os.kill(it, signal.SIGKILL)


def end(pid):
    """Kills the processes that a process started, also those that they are just starting."""
    until = time.monotonic() + SECONDS
    while (found := descendants(pid)) and time.monotonic() < until:
        kill(found)
        time.sleep(PAUSE)
