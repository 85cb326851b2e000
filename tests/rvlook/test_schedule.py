"""The order of two harts without a script: all subcommands share one schedule, and its options choose another."""
import json
import re

import pytest

from conftest import EXAMPLES

HARTS = EXAMPLES / "enclaves" / "two_harts"
WORDS = [HARTS / "image", "--symbols", HARTS / "symbols", "--harts", "2"]
NOTE = "rvlook: note: the harts alternate every 32 steps; use --schedule N or --seed N for another order\n"


def harts_of(rvlook, *words):
    """Returns the hart of each step of a trace, as a string of digits."""
    done = rvlook("trace", "--json", *WORDS, *words)
    assert done.returncode == 0, done.stderr
    return "".join(str(it["hart"]) for it in map(json.loads, done.stdout.splitlines()) if it["object"] == "step")


def test_harts_alternate_every_32_steps(rvlook):
    order = harts_of(rvlook)
    assert order == ("0" * 32 + "1" * 32) * (len(order) // 64) and len(order) == 320


def test_order_by_options(rvlook):
    assert re.fullmatch("(0{5}1{5})+0{0,5}1{0,5}", harts_of(rvlook, "--schedule", "5"))
    one, other = harts_of(rvlook, "--seed", "1"), harts_of(rvlook, "--seed", "2")
    assert one != other and one == harts_of(rvlook, "--seed", "1") and max(map(len, re.findall("0+|1+", one))) <= 32


def test_run_ends_where_both_harts_halt(rvlook):
    lines = [json.loads(it) for it in rvlook("trace", "--json", *WORDS).stdout.splitlines()]
    assert (lines[-1]["why"], lines[-1]["steps"]) == ("halted", 320)
    last = {it["hart"]: it for it in lines if it["object"] == "step"}
    assert {it["pc"] for it in last.values()} == {"80010024"} == {it["next"]["pc"] for it in last.values()}


def test_limit_ends_the_run_inside_a_turn(rvlook):
    assert harts_of(rvlook, "--steps", "40") == "0" * 32 + "1" * 8


@pytest.mark.parametrize("subcommand", ["map", "trace", "touch", "window", "run"])
def test_default_is_reported_and_shared(rvlook, subcommand):
    done = rvlook(subcommand, *WORDS)
    assert done.returncode == (1 if subcommand in ("window", "run") else 0) and NOTE in done.stderr  # the host loads from the region on purpose
    assert NOTE not in rvlook(subcommand, *WORDS, "--schedule", "32").stderr


def test_enclave_runs_in_map_and_window_without_a_script(rvlook):
    assert "hart 0  step 65  run e0" in rvlook("map", "--brief", *WORDS).stdout
    assert "hart 0  e0, activation 1: steps 66 to 223, ended by exit  a0=00000000 a1=0000002a\n" in rvlook("window", *WORDS).stdout


def test_map_and_trace_number_the_steps_alike(rvlook):
    events = [json.loads(it) for it in rvlook("map", "--json", *WORDS).stdout.splitlines()]
    steps = {it["step"]: it for it in map(json.loads, rvlook("trace", "--json", *WORDS).stdout.splitlines()) if it["object"] == "step"}
    found = [it for it in events if it["object"] == "event" and it["step"]]
    assert found and all(steps[it["step"]]["hart"] == it["hart"] and steps[it["step"]]["pc"] == it["pc"] for it in found)


def test_script_that_steps_sets_the_order_itself(rvlook, tmp_path):
    script = tmp_path / "script"
    script.write_text("hart 1\nstep 2\n", encoding="ascii")
    done = rvlook("trace", "--json", *WORDS, "--script", script, "--steps", "9")
    assert NOTE not in done.stderr
    assert [it["hart"] for it in map(json.loads, done.stdout.splitlines()) if it["object"] == "step"] == [1] * 11
    order = harts_of(rvlook, "--script", script, "--steps", "9", "--schedule", "2")
    assert order == "11" + "001100110"


def test_script_that_only_sets_breakpoints_keeps_the_default(rvlook, tmp_path):
    script = tmp_path / "script"
    script.write_text("break 80010058\n", encoding="ascii")
    assert harts_of(rvlook, "--script", script, "--steps", "40") == "0" * 32 + "1" * 8


def test_gdb_has_the_same_schedule(debugger):
    with debugger(HARTS / "image", ("--monitor", "--harts", "2")) as client:
        assert client.monitor("schedule") == "schedule: " + "0" * 32 + "1" * 32 + "\n"
    with debugger(HARTS / "image", ("--monitor", "--harts", "2", "--schedule", "3")) as client:
        assert client.monitor("schedule") == "schedule: 000111\n"


@pytest.mark.parametrize("words", [("--schedule", "0"), ("--schedule", "33"), ("--schedule", "4", "--seed", "4")])
def test_invalid_schedule_is_refused(rvlook, words):
    assert rvlook("map", *WORDS, *words).returncode == 2


def test_one_hart_has_no_schedule(rvlook):
    done = rvlook("map", HARTS / "image", "--schedule", "4")
    assert (done.returncode, done.stderr.splitlines()[-1]) == (2, "rvlook: error: --schedule and --seed require --harts 2")
