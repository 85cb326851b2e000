"""The program decides which lines are valid: rvlook passes a malformed line on unchanged, and reports the reply."""
import json
import subprocess

import pytest
from support.hostile import check, run

IMAGE = "6f000000\n--\n"
REFUSED = [
    "step\x0c1", "step\x0b1", "step\x851", "step\xa01", "\x1cstep 1", "step 1\x1d", "step 1\x1e", "step\x1f1", "\x0c", "\xa0", "\x85--",
    "# " + "x" * 119, " " * 121, "step 1" + " " * 115, "#\xe4", "enclaves 5", "  hart 1", "step 1\r", "reg 5\x00", "--" + " " * 119]
TAKEN = ["# " + "x" * 118, " " * 120, "\t step \t 1", "  # comment", "step 1" + " " * 114, " enclaves ", "\t", ""]


def replies_of(bench, text):
    """The lines that the program itself writes for an input."""
    done = subprocess.run([bench, "run"], input=text.encode("latin-1"), capture_output=True, check=False)
    return done.stdout.decode("latin-1").splitlines()


@pytest.fixture
def script(tmp_path):
    """Writes an input of the bench."""
    def write(*lines):
        path = tmp_path / "input"
        path.write_bytes((IMAGE + "".join(it + "\n" for it in lines)).encode("latin-1"))
        return path
    return write


def test_refused_lines_have_the_replies_of_the_bench(bench, script):
    path = script(*(it + ("\r" if it.endswith("\r") else "") for it in REFUSED))
    wanted = replies_of(bench, path.read_bytes().decode("latin-1"))
    done = run(bench, "trace", "--json", path, "--steps", "0")
    check(done)
    found = [it for it in map(json.loads, done.output.splitlines()) if it["object"] == "command"]
    assert [reply for it in found for reply in it["replies"]] == wanted
    assert [it["given"] for it in found] == REFUSED
    assert done.status == 2
    assert done.errors.count(b"rvlook: error: ") == len(REFUSED)


def test_lines_that_the_bench_takes_are_no_faults(bench, script):
    done = run(bench, "trace", script(*TAKEN), "--steps", "0")
    check(done)
    assert done.status == 0
    assert not any(it.startswith("error") for it in replies_of(bench, IMAGE + "".join(it + "\n" for it in TAKEN)))


def test_explain_tells_each_refused_line(bench, script):
    done = run(bench, "explain", script(*(it + ("\r" if it.endswith("\r") else "") for it in REFUSED)))
    check(done)
    numbers = [int(it.split()[1].rstrip(":")) for it in done.output.decode().splitlines() if it.startswith("line ")]
    assert numbers == list(range(3, 3 + len(REFUSED)))


def test_explain_names_the_right_lines_after_a_refused_comment(bench, script):
    output = run(bench, "explain", script("# " + "x" * 119, "reg 5", "stepp 1")).output.decode()
    assert [it for it in output.splitlines() if it.startswith("line ")] == [
        "line 3: # %s   error line" % ("x" * 118), "line 5: stepp 1   error command"]


@pytest.mark.parametrize("word", ["trace", "page", "touch", "map"])
def test_refused_hart_line_is_reported_and_the_run_continues(bench, script, word):
    done = run(bench, word, script("hart 1", "hart x", "hart", "step 1"), "--steps", "3")
    check(done)
    assert done.status == 2
    assert b"hart 1: no such hart" in done.errors and b"hart x: 'x' is not" in done.errors


def test_trace_shows_no_control_character_of_a_line(bench, script):
    output = run(bench, "trace", script("step\x1b[31m 1", "reg\x851"), "--steps", "0").output.decode()
    assert all(line.isprintable() for line in output.split("\n"))


def test_prompt_refuses_what_the_bench_refuses(bench, script):
    done = run(bench, script(), stdin="step\u00a01\nstep\x0c1\nstep\nreg 5\n".encode())
    check(done)
    lines = done.output.decode().splitlines()
    assert lines.count("error line") == 2
    assert "  step takes 1 operand, but 0 were given" in lines
    assert "x5=00000000" in lines


@pytest.mark.parametrize("line, taken", [("step 1", True), ("step\x0b1", False), ("#" * 120, True), ("#" * 121, False), ("\xa0", False)])
def test_rules_of_a_line(line, taken):
    from rvlook.protocol.bench_line import is_malformed
    assert is_malformed(line) != taken
