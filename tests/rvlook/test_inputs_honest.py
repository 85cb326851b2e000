"""`inputs` finds nothing in a correct enclave: with handles, a session, a lock in the window, and two buffers in one stack slot. The values that its
findings replace are those of the run."""
import re

import pytest

from conftest import EXAMPLES

TASKS = {  # of each task of the program `honest`: further options
    1: ("--runs", "100"), 2: ("--runs", "700", "--at", "key:16", "--public", "window_base+2c:16"), 3: ("--runs", "20")}
NUMBERS = re.compile(r"  input  \S+ = (\S+) instead of (\S+), after step \d+")


@pytest.fixture
def task(tmp_path):
    """Returns a script that selects a task."""
    def script(number):
        path = tmp_path / "script"
        path.write_text("poke task %02x\n" % number)
        return path
    return script


@pytest.mark.parametrize("number", TASKS)
def test_nothing_is_found_in_a_correct_enclave(rvlook, program, task, number):
    done = rvlook("inputs", *program("honest"), "--script", task(number), *TASKS[number])
    assert done.returncode == 0 and "no finding, seed 0." in done.stdout, done.stdout


def test_runs_that_wait_for_the_host_are_counted(rvlook, program, task):
    done = rvlook("inputs", *program("honest"), "--script", task(3), "--runs", "20")
    assert re.search(r"; \d+ runs wait for the host to change the window$", done.stdout, re.M)


def test_variables_whose_scopes_are_apart_may_share_a_stack_slot(rvlook, built, task):
    elf = built("honest")
    done = rvlook("inputs", elf, "--monitor", "--script", task(4), "--runs", "100")
    assert done.returncode == 0 and "no finding, seed 0." in done.stdout, done.stdout


def test_replaced_value_is_that_of_the_run(rvlook, program, task):
    """The search reaches the value by way of another one, which the finding does not name."""
    done = rvlook("inputs", *program("honest"), "--script", task(5), "--runs", "150")
    assert done.returncode == 1
    assert re.search(r"^  input  window_base\+8 = 0x1234567 instead of 0x4, after step \d+ \(80030008, 4 bytes\)$", done.stdout, re.M), done.stdout


def test_numbers_have_a_prefix(rvlook):
    folder = EXAMPLES / "enclaves" / "bug"
    done = rvlook("inputs", "--monitor", folder / "image", "--symbols", folder / "symbols", "--runs", "60")
    values = NUMBERS.findall(done.stdout)
    assert values and all(it.startswith("0x") for pair in values for it in pair)
