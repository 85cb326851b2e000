"""Tests of the enclave. `make test` builds program.elf and runs them. docs/TESTS.md of rvbench describes the fixtures and the markers."""
from importlib.util import find_spec

import pytest

from rvlook.api import exited, refused

PAGE = 4096
ANSWER = 42


def test_the_program_ends_with_status_0(machine):
    """host.c is the host here."""
    assert machine.run().status == 0
    assert machine.console.endswith("the enclave answered %d" % ANSWER)


def test_the_enclave_answers(enclave):
    """The test is the host here: `enclave` is created, and not entered yet."""
    assert enclave.run() == exited(ANSWER)


def test_an_enclave_that_exited_cannot_run_again(enclave):
    enclave.run()
    assert enclave.run() == refused("BadState")


def test_the_host_cannot_access_the_region(machine):
    machine.run_until(call="create")
    assert machine.rights("host", "region_base", PAGE) == "---"
    assert machine.rights("e0", "region_base", PAGE) == "rwx"
    assert machine.rights("e0", "window_base", PAGE) == "rw-"


@pytest.mark.interrupts(1, 7)
def test_timer_interrupts_do_not_change_the_answer(enclave):
    assert enclave.run() == exited(ANSWER)


@pytest.mark.finds_nothing("overflows")
def test_no_stack_overflows():
    """The marker searches in place of a body."""


@pytest.mark.finds_nothing("window")
def test_each_byte_of_the_window_is_read_once():
    """A byte that is read twice can change in between."""


@pytest.mark.finds_nothing("inputs", runs=100)
def test_the_host_cannot_make_it_fail():
    """Varies what the host gives the enclave."""


@pytest.mark.skipif(not find_spec("z3"), reason="python3-z3 is not installed")
@pytest.mark.verified()
def test_all_paths_for_all_inputs():
    """Passes only if the result is COMPLETE."""


# For an enclave with a secret in the symbol `key`, whose answer may depend on it:
#
# @pytest.mark.verified("key", public="answer")
# def test_no_other_output_depends_on_the_key():
#     """Explores all paths for all keys."""
#
# @pytest.mark.finds_nothing("leaks", "key", tries=8, public="answer")
# def test_the_key_does_not_leak():
#     """Compares runs with other keys."""
