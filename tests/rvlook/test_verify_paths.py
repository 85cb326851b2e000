"""`verify`: each bug of the program `verify_paths` is found or not decided with its reason, and its correction ends COMPLETE."""
import re

import pytest

from conftest import PROGRAMS

pytest.importorskip("z3", reason="python3-z3 is not installed")

KEY, REPLY = ("--at", "key:16"), ("--public", "window_base+30:16")
PIN = (*KEY, "--must-know", "pin:4", *REPLY)
FOUND, OPEN = "FOUND", "NOT DECIDED"
BUGS = {  # of each task: the question that it violates, the answer, and further options
    1: ("memory", FOUND), 2: ("memory", FOUND), 3: ("memory", FOUND), 4: ("memory", FOUND), 5: ("memory", FOUND), 6: ("memory", FOUND),
    7: ("memory", FOUND), 8: ("memory", FOUND), 9: ("memory", FOUND), 10: ("memory", OPEN), 11: ("memory", FOUND), 12: ("memory", FOUND),
    13: ("memory", FOUND), 14: ("memory", FOUND), 15: ("memory", "none found"), 16: ("double fetches", FOUND), 17: ("double fetches", FOUND),
    18: ("double fetches", FOUND), 19: ("time", FOUND, *KEY), 20: ("checks", FOUND, *PIN), 21: ("checks", FOUND, *PIN),
    22: ("remains", FOUND, *KEY, "--wiped"), 23: ("time", FOUND, *KEY), 24: ("outputs", FOUND, *KEY, *REPLY), 25: ("outputs", OPEN, *KEY),
    26: ("returns", FOUND), 27: ("returns", FOUND), 28: ("traps", FOUND), 29: ("memory", FOUND), 30: ("memory", FOUND), 31: ("memory", FOUND),
    32: ("memory", FOUND)}
APPLICATION = PROGRAMS / "verify_paths" / "application.c"


@pytest.fixture(scope="module")
def elf(built):
    return built("verify_paths", "--clang")


@pytest.fixture
def verify(objects, elf, tmp_path):
    """Runs `verify` with a task; returns its status and its objects."""
    def run(task, corrected, *options):
        script = tmp_path / "script"
        script.write_text("poke task %02x\npoke corrected %02x\n" % (task, corrected))
        return objects("verify", elf, "--monitor", "--script", script, *options)
    return run


def test_each_function_has_a_row():
    assert sorted(BUGS) == [int(it) for it in re.findall(r"^// (\d+)\. ", APPLICATION.read_text(encoding="utf-8"), re.M)]


@pytest.mark.parametrize("task", BUGS)
def test_bug_is_not_proved_away(verify, task):
    question, answer, *options = BUGS[task]
    status, found = verify(task, 0, *options, "--seconds", "8")
    answers = {it["name"]: it["verdict"] for it in found if it["object"] == "question"}
    assert answers[question] == answer
    assert status == (1 if answer == FOUND else 3) and (answer == FOUND or not found[-1]["complete"])


@pytest.mark.parametrize("task", BUGS)
def test_correction_is_complete(verify, task):
    _, _, *options = BUGS[task]
    status, found = verify(task, 1, *options)
    assert (status, found[-1]["complete"], found[-1]["reasons"]) == (0, True, [])
    assert {it["verdict"] for it in found if it["object"] == "question"} == {"PROVED"}
