"""`verify`: a constant offset that leads out of a variable. Accesses that leave their variable are not proved, and those that stay in it are."""
import re

import pytest

from conftest import PROGRAMS

pytest.importorskip("z3", reason="python3-z3 is not installed")

FOUND, OPEN, PROVED = "FOUND", "NOT DECIDED", "PROVED"
BUGS = {1: FOUND, 2: FOUND, 3: FOUND, 4: FOUND, 5: FOUND, 6: FOUND, 7: OPEN, 8: OPEN, 10: FOUND, 11: FOUND, 12: OPEN, 13: OPEN,
        14: FOUND, 15: FOUND, 16: FOUND, 17: OPEN, 18: FOUND, 19: FOUND}
CORRECTED = {it: OPEN if it == 7 else PROVED for it in BUGS if it != 10}  # of 7, the member that was meant is not known
USUAL = 9  # the run itself reaches the member before, so that it counts as meant
APPLICATION = PROGRAMS / "verify_offsets" / "application.c"


@pytest.fixture(scope="module")
def elf(built):
    return built("verify_offsets", "--clang")


@pytest.fixture
def memory(objects, elf, tmp_path):
    """Runs `verify` with a task; returns its status, the answer about memory, and whether it is complete."""
    def run(task, corrected):
        script = tmp_path / "script"
        script.write_text("poke task %02x\npoke corrected %02x\n" % (task, corrected))
        status, found = objects("verify", elf, "--monitor", "--script", script, "--seconds", "20")
        (answer,) = (it["verdict"] for it in found if it["object"] == "question" and it["name"] == "memory")
        return status, answer, found[-1]["complete"]
    return run


def test_each_function_has_a_row():
    assert sorted([*BUGS, USUAL]) == [int(it) for it in re.findall(r"^// (\d+)\. ", APPLICATION.read_text(encoding="utf-8"), re.M)]


@pytest.mark.parametrize("task", BUGS)
def test_access_that_leaves_its_variable_is_not_proved(memory, task):
    assert memory(task, 0) == (1 if BUGS[task] == FOUND else 3, BUGS[task], False)


@pytest.mark.parametrize("task", CORRECTED)
def test_access_that_stays_in_its_array_is_proved(memory, task):
    assert memory(task, 1) == (0 if CORRECTED[task] == PROVED else 3, CORRECTED[task], CORRECTED[task] == PROVED)


def test_member_that_the_run_itself_reaches_is_taken_as_meant(memory):
    assert memory(USUAL, 0) == (0, PROVED, True)
