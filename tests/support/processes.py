"""Other processes, as /proc shows them: what they have started, their processor time, and their end."""
import time
from pathlib import Path

from support.limits import wait_until

SCHEDULED = 2  # the clock of a process that the scheduler keeps, with the resolution of nanoseconds
FEW = 5  # seconds of processor time that a process needs at most to end


def fields_of(pid):
    """Returns the fields of a process after its name: its state, its parent, its group, its session and so on. The state is `X` if it has ended."""
    try:
        return Path("/proc/%s/stat" % pid).read_text(encoding="utf-8", errors="replace").rpartition(")")[2].split()
    except OSError:
        return ["X", "0", "0", "0"]


def is_running(pid):
    """Returns whether a process has not ended; one that ended and for which nobody has waited has ended, too."""
    return fields_of(pid)[0] not in "XZ"


def of_session(session):
    """Returns the numbers of the running processes of a session."""
    found = {int(it.name): fields_of(it.name) for it in Path("/proc").glob("[0-9]*")}
    return [it for it, (state, _, _, its_session, *_) in found.items() if its_session == str(session) and state not in "XZ"]


def children_of(pid):
    """Returns the numbers of the running processes that a process has started."""
    found = []
    for path in Path("/proc/%s/task" % pid).glob("*/children"):
        try:
            found += [int(it) for it in path.read_text(encoding="ascii").split()]
        except OSError:
            continue
    return [it for it in found if is_running(it)]


def is_rvlook(pid):
    """Returns whether a process has the command line of the package, and not that of the script that starts it."""
    try:
        return b"rvlook.__main__" in Path("/proc/%s/cmdline" % pid).read_bytes()
    except OSError:
        return False


def worker_of(pid):
    """Returns the number of a process that `rvlook` has forked for --jobs, or None. Such a process has itself started rvbench. A process that is
    about to become rvbench has the command line of `rvlook`, too, but has started none."""
    return next((it for it in children_of(pid) if is_rvlook(it) and children_of(it)), None)


def processor_time_of(pid):
    """Returns the processor time of a process in seconds, 0 if it has ended. It does not depend on other work of the machine."""
    try:
        return time.clock_gettime(~pid << 3 | SCHEDULED)
    except OSError:
        return 0


def end_soon(pids, seconds=FEW):
    """Waits until these processes have ended; returns whether each ends before it takes so many more seconds of processor time."""
    before = {it: processor_time_of(it) for it in pids}
    wait_until(lambda: not any(map(is_running, pids)) or any(processor_time_of(it) > used + seconds for it, used in before.items()))
    return not any(map(is_running, pids))
