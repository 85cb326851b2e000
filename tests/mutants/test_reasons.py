"""The reason for which a mutant is rejected: a goal, an answer that does not fit, or a name that is gone. The lock file names those by their shape."""
import sys
from pathlib import Path
from types import SimpleNamespace

import pytest

HERE = Path(__file__).resolve().parent
sys.path.insert(0, str(HERE))
import lock  # noqa: E402
from mutants import read  # noqa: E402
from prover import Answer, Reason  # noqa: E402
from trial import Trial  # noqa: E402

NAME = "rv_word::division::divu_mutant_0"
PLACE = SimpleNamespace(name=NAME, holds=lambda file, line: file == "src/division.rt" and 10 <= line <= 20,
                        proofs=lambda: "proofs/division/divu_mutant_0")
GOAL = "note: src/division.rt:12:5: it is not proved that the result is the quotient"
MISFIT = "./proofs/division/divu_mutant_0/Answers.antt:7:12: error: the answer has another type than its goal"
GONE = "./proofs/division/divu_mutant_0/Answers.antt:7:12: error: `c.wrapping_div-1` is not in scope"
ELSEWHERE = "./proofs/division/divu/Answers.antt:7:12: error: the answer has another type than its goal"


class Named:
    """A mutant with a place, which prints its name."""

    def __init__(self, place):
        self.place = place

    def __str__(self):
        return "rv_word/divu_rounds_up"


def answer(*lines):
    """Returns the report of a check in which the mutant is not proved."""
    return Answer(1, "\n".join([*lines, f"fn {NAME}: not proved", "only=1 proved=0"]))


@pytest.mark.parametrize("lines, reason", [
    ([GOAL], Reason.GOAL),
    ([MISFIT], Reason.ANSWER),
    ([MISFIT, GOAL], Reason.ANSWER),  # an answer in error leaves its goals unproved
    ([GONE], Reason.NAME),
    ([GONE, GOAL], Reason.NAME),
    ([ELSEWHERE], Reason.NONE),
])
def test_reason_is_that_of_the_function_itself(lines, reason):
    assert answer(*lines).reason(PLACE) is reason


@pytest.mark.parametrize("reason, with_equivalents, text, by_shape", [
    (Reason.GOAL, set(), "rejected by a goal", []),
    (Reason.ANSWER, {("src/division.rt", "divu")}, "rejected by an answer", []),
    (Reason.ANSWER, {("src/division.rt", "div")}, "rejected by its shape", ["rv_word/divu_rounds_up"]),
    (Reason.NAME, {("src/division.rt", "divu")}, "rejected by its shape", ["rv_word/divu_rounds_up"]),
])
def test_answer_counts_only_beside_an_equivalent_mutant(reason, with_equivalents, text, by_shape):
    said = []
    report = SimpleNamespace(by_shape=[], passes=lambda mutant, what, seconds: said.append(what))
    trial = Trial(SimpleNamespace(sources="", crate=None), [], report, with_equivalents)
    trial.judge(Named(("src/division.rt", "divu")), reason, 0)
    assert (said, report.by_shape) == ([text], by_shape)


def test_lock_file_keeps_the_mutants_by_shape(tmp_path, monkeypatch):
    monkeypatch.setattr(lock, "FILE", str(tmp_path / "mutants.lock"))
    tried = {"rv_text": lock.Tried("0" * 64), "rv_word": lock.Tried("1" * 64, ("bits_too_wide", "divu_rounds_up"))}
    lock.write(tried)
    assert lock.read() == tried
    with open(lock.FILE, "a", encoding="utf-8") as file:
        file.write("  by shape:\n")
    with pytest.raises(lock.Unreadable):
        lock.read()


def test_lock_file_names_mutants_that_are_there():
    for crate, tried in lock.read().items():
        assert {*tried.by_shape} <= {it.name for it in read(crate)[0] if not it.is_equivalent}
