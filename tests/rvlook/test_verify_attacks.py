"""`verify`: attacks on its implementation. No bug of the program `verify_attacks` is proved away, and no correction is a finding."""
import re

import pytest

from conftest import PROGRAMS

pytest.importorskip("z3", reason="python3-z3 is not installed")

KEY, REPLY = ("--at", "key:16"), ("--public", "window_base+30:4")
PIN = (*KEY, "--must-know", "pin:4", *REPLY)
FOUND, OPEN, PROVED, NONE = "FOUND", "NOT DECIDED", "PROVED", "none found"
BUGS = {  # of each task: the question, the answer, and further options
    1: ("traps", FOUND), 2: ("memory", FOUND), 3: ("memory", OPEN), 4: ("memory", FOUND), 5: ("memory", OPEN), 6: ("memory", OPEN),
    7: ("memory", FOUND), 8: ("traps", NONE, "--timeout", "200"), 9: ("double fetches", FOUND), 10: ("checks", OPEN, *PIN),
    11: ("checks", OPEN, *PIN), 12: ("checks", OPEN, *PIN), 13: ("influence", OPEN, *KEY, *REPLY, "--must-matter", "key:4"),
    14: ("state", OPEN, "--each", "--activations", "3"), 15: ("memory", NONE), 16: ("outputs", FOUND, *KEY, *REPLY), 17: ("traps", FOUND, "--calm"),
    18: ("outputs", FOUND, *KEY, "--public", "window_base+30:8")}
NOT_DECIDED = (17,)  # corrections: here the values that z3 gives need a host that changes the window
APPLICATION = PROGRAMS / "verify_attacks" / "application.c"


@pytest.fixture(scope="module")
def elf(built):
    return built("verify_attacks", "--clang")


@pytest.fixture
def verify(objects, elf, tmp_path):
    """Runs `verify` with a task; returns its status, the answers by question, and whether it is complete."""
    def run(task, corrected):
        script = tmp_path / "script"
        script.write_text("poke task %02x\npoke corrected %02x\n" % (task, corrected))
        status, found = objects("verify", elf, "--monitor", "--script", script, *BUGS[task][2:], "--seconds", "20")
        return status, {it["name"]: it["verdict"] for it in found if it["object"] == "question"}, found[-1]["complete"]
    return run


def test_each_function_has_a_row():
    assert sorted(BUGS) == [int(it) for it in re.findall(r"^// (\d+)\. ", APPLICATION.read_text(encoding="utf-8"), re.M)]


@pytest.mark.parametrize("task", BUGS)
def test_bug_is_not_proved_away(verify, task):
    status, answers, is_complete = verify(task, 0)
    assert answers[BUGS[task][0]] == BUGS[task][1]
    assert status == (1 if BUGS[task][1] == FOUND else 3) and (BUGS[task][1] == FOUND or not is_complete)


@pytest.mark.parametrize("task", BUGS)
def test_correction_is_no_finding(verify, task):
    status, answers, is_complete = verify(task, 1)
    if task in NOT_DECIDED:
        assert (status, answers[BUGS[task][0]]) == (3, OPEN)
    else:
        assert (status, set(answers.values()), is_complete) == (0, {PROVED}, True)
