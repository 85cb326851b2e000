"""Runs the fuzzers: a few examples with a fixed seed, or as many as fit into `--fuzz-seconds N`, each part with the next seed."""
import resource
import signal
import time
from contextlib import contextmanager

from hypothesis import HealthCheck, given, seed, settings

MEMORY = 1 << 30  # bytes more than before
SETTINGS = {"deadline": None, "database": None, "print_blob": False, "suppress_health_check": list(HealthCheck)}


def fuzz(strategy, check, examples, seconds=0):
    """Checks this many examples of a strategy; for this many seconds, more of them with other seeds."""
    number, end = 0, time.monotonic() + seconds
    while number == 0 or time.monotonic() < end:
        seed(number)(settings(max_examples=examples, **SETTINGS)(given(strategy)(check)))()
        number += 1


@contextmanager
def at_most(seconds):
    """Raises TimeoutError in a body that takes more processor time, in seconds, and MemoryError in one that takes more than MEMORY."""
    def stop(*_):
        raise TimeoutError("more than %d seconds" % seconds)

    before, limits = signal.signal(signal.SIGPROF, stop), resource.getrlimit(resource.RLIMIT_AS)
    with open("/proc/self/statm", encoding="ascii") as file:
        size = int(file.read().split()[0]) * resource.getpagesize()
    resource.setrlimit(resource.RLIMIT_AS, (size + MEMORY, limits[1]))
    signal.setitimer(signal.ITIMER_PROF, seconds)
    try:
        yield
    finally:
        resource.setrlimit(resource.RLIMIT_AS, limits)
        signal.setitimer(signal.ITIMER_PROF, 0)
        signal.signal(signal.SIGPROF, before)
