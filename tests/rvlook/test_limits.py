"""Time limits, Ctrl-C, closed pipes and --harts 2: nothing of this looks like a result that it is not."""
import json
import os
import re
import subprocess

import pytest
from support.message_runs import Runs

from conftest import EXAMPLES, ROOT, RVLOOK

BUG = EXAMPLES / "enclaves" / "bug"
HMAC = EXAMPLES / "enclaves" / "hmac"
STORE = EXAMPLES / "enclaves" / "store_leaking"
TWO = ("--monitor", "--harts", "2", EXAMPLES / "enclaves" / "two_harts" / "image")
TURN = 16  # runs of one turn of the search
MOST = 30  # seconds of processor time of a run that is ended at once; all runs take minutes


def environment(bench):
    return {**os.environ, "RVBENCH": bench, "TERM": "dumb"}


@pytest.mark.parametrize("words", [("map",), ("trace",), ("touch",), ("map", "--harts", "2")])
def test_pipe_that_is_closed_for_both_streams_has_status_141(bench, words):
    reading, writing = os.pipe()
    os.close(reading)
    image = EXAMPLES / "enclaves" / "timer" / "image"
    done = subprocess.run([RVLOOK, *words, image], stdout=writing, stderr=writing, cwd=ROOT, env=environment(bench), check=False)
    os.close(writing)
    assert done.returncode == 141


@pytest.mark.parametrize("value", ["nan", "inf", "-1", "1e999", "soon"])
@pytest.mark.parametrize("words", [("races", "--monitor"), ("inputs", "--monitor"), ("leak", "--monitor", "--at", "80020800"), ("conform",)],
                         ids=lambda it: it[0])
def test_seconds_are_finite_and_not_negative(rvlook, words, value):
    done = rvlook(*words, "--seconds=" + value, EXAMPLES / "enclaves" / "adds" / "image")
    assert (done.returncode, done.stdout) == (2, "") and "'%s' is not a non-negative number of seconds" % value in done.stderr


def test_limit_of_seconds_holds_within_long_runs(bench):
    """Each run takes two seconds, so the limit of three comes within a turn of the search. Ignored, it comes after a turn."""
    slow = """
import time
from rvlook.finders.inputs.tracer import Tracer
finish = Tracer.finish
Tracer.finish = lambda *more: (time.sleep(2), finish(*more))[1]
"""
    status, errors = Runs(RVLOOK, ROOT, bench).patched(slow, ("inputs", "--monitor", HMAC / "image", "--seconds", "3"))
    done = re.fullmatch(r"rvlook: warning: --seconds ended inputs after (\d+) of 300 runs", errors[-1])
    assert status == 3 and done and int(done[1]) < TURN, errors


def test_limit_of_seconds_ends_one_run_of_the_search(rvlook, tmp_path):
    """The limit holds before the run itself is traced, too."""
    done = rvlook("inputs", "--monitor", HMAC / "image", "--seconds", "0.01", most=MOST)
    assert (done.returncode, done.stderr) == (3, "rvlook: warning: --seconds ended inputs after 0 of 300 runs\n")


def test_ctrl_c_prints_what_inputs_has_found(bench, tmp_path):
    """The search sends SIGINT to itself at its first finding."""
    at_a_finding = (
        "import os, signal; from rvlook.finders.inputs.judge import TraceJudge; take = TraceJudge.judge_trace; "
        "signal.signal(signal.SIGINT, signal.default_int_handler); "
        "TraceJudge.judge_trace = lambda self, trace: (take(self, trace), self.findings and os.kill(os.getpid(), signal.SIGINT))[0]")
    words = ("inputs", "--monitor", BUG / "image", "--symbols", BUG / "symbols", "--runs", "1000000")
    with open(tmp_path / "output", "w", encoding="ascii") as output:
        status, errors = Runs(RVLOOK, ROOT, bench).patched(at_a_finding, words, stdout=output)
    found = (tmp_path / "output").read_text()
    assert status == 130 and "finding 1: load reaches served" in found and "\n1 finding, seed 0. Covered: " in found
    assert errors[0].startswith("rvlook: warning: Ctrl-C ended inputs after ") and errors[-1] == "rvlook: error: interrupted"


def test_pair_that_leak_counts_at_ctrl_c_is_shown(bench, tmp_path):
    """Ctrl-C comes when the second pair is counted and not shown yet."""
    before_it_is_shown = (
        "import os, signal; from rvlook.finders import leak_text; compare_drawn = leak_text.compare_drawn; "
        "signal.signal(signal.SIGINT, signal.default_int_handler); "
        "interrupt = lambda pair: pair.number == 2 and os.kill(os.getpid(), signal.SIGINT); "
        "leak_text.compare_drawn = lambda leak, heard: compare_drawn(leak, lambda pair: (interrupt(pair), heard(pair)))")
    words = ("leak", "--monitor", STORE / "image", "--symbols", STORE / "symbols", "--at", "key:32", "--tries", "1000", "--json")
    with open(tmp_path / "output", "w", encoding="ascii") as output:
        status, _ = Runs(RVLOOK, ROOT, bench).patched(before_it_is_shown, words, stdout=output)
    found = list(map(json.loads, (tmp_path / "output").read_text().splitlines()))
    assert (status, [it["number"] for it in found if it["object"] == "pair"], found[-1]["pairs"]) == (130, [1, 2], 2)


@pytest.mark.parametrize("words", [("timer",), ("leak", "--at", "80020800", "00", "01"), ("inputs",)], ids=lambda it: it[0])
def test_no_finder_steps_one_of_two_harts(rvlook, words):
    done = rvlook(words[0], *TWO, *words[1:])
    assert (done.returncode, done.stdout) == (2, "") and "--harts 2" in done.stderr


def test_script_may_set_the_order_of_the_harts(rvlook, tmp_path):
    script = tmp_path / "script"
    script.write_text("sched 0101\n")
    done = rvlook("timer", *TWO, "--script", script)
    assert done.returncode != 2
