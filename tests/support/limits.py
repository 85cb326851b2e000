"""How long a test waits for what it has started. A limit of time ends a test that would hang; no test measures speed with it."""
import resource
import time

HANG = 1800  # seconds after which a process counts as hung, also on a machine that gives it a tenth of a processor


def wait_until(is_met, pause=0.02):
    """Waits until a condition is met, and looks each `pause` seconds; returns whether it was met within HANG seconds."""
    end = time.monotonic() + HANG
    while not is_met():
        if time.monotonic() > end:
            return False
        time.sleep(pause)
    return True


def processor_time():
    """Returns the processor time of all processes that this one has started and that have ended, and of those that they waited for, in seconds. It
    does not depend on other work of the machine."""
    used = resource.getrusage(resource.RUSAGE_CHILDREN)
    return used.ru_utime + used.ru_stime
