"""Tests of two hosts that share an enclave. While hart 0 runs it, the host of hart 1 must access nothing but the window, in each order of their
steps (docs/TESTS.md)."""
import pytest

from rvlook.api import exited, refused

pytestmark = pytest.mark.program("..", harts=2)

LOAD_FAULT, STORE_FAULT, NO_TRAP = 5, 7, 0xFFFFFFFF
EXITED, DONE, BAD_STATE = 0, 0, -8
PAGE = 4096
SCHEDULES = pytest.mark.schedules(1, 2, 7, 32, "seed 1", "seed 2", "seed 3")


@SCHEDULES
def test_the_other_host_accesses_only_the_window(machine):
    machine.run_until("application")
    assert machine.rights("host", "region_base", PAGE) == "---"
    assert machine.rights("host", "window_base", PAGE) == "rwx"
    assert machine.rights("e0", "region_base", PAGE) == "rwx"


@SCHEDULES
def test_the_other_host_is_refused(machine):
    machine.run()
    assert machine["load_cause"] == LOAD_FAULT
    assert machine["store_cause"] == STORE_FAULT
    assert machine["other_destroy.status"] == BAD_STATE
    assert machine["other_run.status"] == BAD_STATE


@SCHEDULES
def test_the_enclave_still_answers(machine):
    machine.run()
    assert machine["left"] == {"status": EXITED, "value": 42}
    assert machine["destroyed.status"] == DONE
    assert machine["load_cause_behind_it"] == NO_TRAP


def test_a_destroyed_region_opens_on_both_harts(machine):
    machine.run_until(call="create")
    before = machine.access_map()
    with machine.fork() as other:
        other.call("destroy", 0)
        assert other.access_map() - before == ["80020000-80020fff  host --- -> rwx  e0 rwx -> ---", "80030000-80030fff  e0 rw- -> ---"]
    assert machine.access_map() == before


def test_a_running_enclave_cannot_be_destroyed_from_the_other_hart(machine, enclave):
    enclave.run(until="application")
    machine.hart = 1
    assert machine.call("destroy", enclave.slot) == refused("BadState")
    assert machine.rights("host", "region_base", PAGE) == "---"
    machine.write("window_base+4", (41).to_bytes(4, "little"))  # for which the enclave waits
    assert enclave.finish() == exited(42)


def test_the_enclave_says_that_it_runs(machine, enclave):
    enclave.run(touches="window_base")
    assert machine.read("window_base", 4) == b"\1\0\0\0"
    assert machine.world == "e0"


def test_the_enclave_waits_for_the_number(machine, enclave):
    enclave.run(touches="window_base+4")
    machine.step(1000)
    assert machine.world == "e0"
    machine.write("window_base+4", (6).to_bytes(4, "little"))
    assert enclave.finish() == exited(7)


@pytest.mark.finds_nothing("races", forbid=["load_cause != 5", "store_cause != 7", "waits", "livelock"])
def test_no_schedule_lets_the_other_host_in():
    """Searches all schedules."""
