"""`verify`: loops of the C library over up to 128 bytes of the window end COMPLETE, and those with a planted bug do not."""
import re

import pytest

pytest.importorskip("z3", reason="python3-z3 is not installed")

from rvlook.__main__ import main
from rvlook.symbolic import strategy
from rvlook.symbolic.sweeps import Sweep

pytestmark = pytest.mark.usefixtures("processor_clock")
LOOPS = {"COPY": "memory", "LENGTH": "memory", "COMPARE": "memory", "AGAIN": "double fetches", "HALVES": "returns", "SHOWN": "outputs",
         "STAYS": "returns", "COUNTED": "returns", "BLOCKS": "memory"}
ENDLESS = ("STAYS", "COUNTED")  # that are found with a replay, in test_verify_states.py
PLANTED, RIGHT = 12, 60  # seconds
SHOWN = ("--at", "key:4", "--public", "window_base+800:4@answer=3")


@pytest.fixture
def verify(verified, up_to_a_finding, built, monkeypatch):
    """Runs `verify` on a loop up to the first finding; returns its status, the answers, and the last object. Only a right loop ends before the limit
    without a finding."""
    def run(*flags):
        monkeypatch.setenv("CFLAGS", " ".join("-D" + it for it in flags))
        more = SHOWN if "SHOWN" in flags else ()
        status, found = verified(built("verify_loops", "--clang"), "--monitor", "--seconds", RIGHT if flags[1:] == () else PLANTED, *more)
        return status, {it["name"]: it["verdict"] for it in found if it["object"] == "question"}, found[-1]
    return run


@pytest.mark.parametrize("name", LOOPS)
def test_right_loop_is_complete(verify, name):
    status, answers, last = verify(name)
    assert (status, last["complete"], last["reasons"], set(answers.values())) == (0, True, [], {"PROVED"})


@pytest.mark.parametrize("name", [it for it in LOOPS if it not in ENDLESS])
def test_planted_loop_is_not_proved(verify, name):
    status, answers, last = verify(name, "PLANTED")
    assert answers[LOOPS[name]] in ("FOUND", "NOT DECIDED") and status in (1, 3) and not last["complete"]


def test_block_that_is_never_full_is_not_proved_to_end(verify):
    status, answers, last = verify("BLOCKS", "STUCK")
    assert answers["returns"] != "PROVED" and status in (1, 3) and not last["complete"]


def test_pointer_that_a_late_round_sets_is_not_taken_for_one_of_the_host(verify):
    status, answers, last = verify("MOVED", "PLANTED")
    assert answers["double fetches"] in ("FOUND", "NOT DECIDED") and status in (1, 3) and not last["complete"]


def test_copy_of_the_secret_in_a_public_place_is_named(verify):
    status, _, last = verify("SHOWN")
    assert status == 0 and last["covered"].startswith("all paths, all inputs, all secrets, ")
    assert ", if copies of the secret may come out at application.c:" in last["covered"]


@pytest.mark.parametrize("flags, is_right", [((), True), (("PLANTED",), False), (("LONGER",), False)], ids=["right", "length", "end"])
def test_end_of_a_record_stays_its_beginning_and_its_length(verify, monkeypatch, flags, is_right):
    monkeypatch.setattr(strategy, "LONGEST_FIRST", 3)
    monkeypatch.setattr(strategy, "LONGEST_RARE", 1)
    status, answers, last = verify("RECORDS", *flags)
    assert (answers["memory"] == "PROVED", status == 0, last["complete"]) == (is_right, is_right, is_right)


def test_lost_loads_of_rounds_are_noticed(built, bench, monkeypatch, capsys):
    """With a planted error, the loads of the rounds are dropped: the double fetch is not seen."""
    monkeypatch.setenv("RVBENCH", bench)
    monkeypatch.setenv("CFLAGS", "-DAGAIN -DPLANTED")
    monkeypatch.setattr(Sweep, "extended", lambda self, *_: self)
    main(["verify", str(built("verify_loops", "--clang")), "--monitor", "--seconds", "20"])
    assert re.search("^PROVED +double fetches", capsys.readouterr().out, re.M)
