"""Names from input files have no effect on a terminal, on the program or on a line format."""
import json

import pytest
from support.hostile import FEW, check, named, run

COMMANDS = "f\nstep 5\nsetreg 10 1"
ESCAPES = "a\x1b]0;title\x07\x1b[31m"
CONTROLS_OF_ISO = b"q\xff\xfe\xc2\x9b31m\xe2\x80\xae"
RECORDS = "a.c\nend_of_record\nSF:other"


@pytest.fixture
def elf(tmp_path):
    """Writes an ELF file with these names of its function and its source file."""
    def write(**names):
        path = tmp_path / "program.elf"
        path.write_bytes(named(**names))
        return path
    return write


@pytest.mark.parametrize("words", [["trace"], ["touch"], ["touch", "--lcov"]], ids=" ".join)
@pytest.mark.parametrize("names", [
    {"function": COMMANDS, "source": ESCAPES + ".c"}, {"function": ESCAPES, "source": CONTROLS_OF_ISO + b".c"},
    {"function": CONTROLS_OF_ISO, "source": RECORDS}], ids=["commands", "escapes", "controls"])
def test_output_has_no_control_character(bench, elf, names, words):
    done = run(bench, *words, elf(**names), *FEW)
    check(done)
    assert done.status == 0
    assert all(line.isprintable() for line in done.output.decode().split("\n"))


def test_name_with_line_feed_makes_no_row(bench, elf):
    rows = run(bench, "trace", elf(function="f\n3 steps: host halts"), *FEW).output.decode().split("\n")
    assert not any(it.startswith("3 steps") for it in rows)
    assert any("<f^J3 steps: host halts>" in it for it in rows)


def test_name_with_line_feed_makes_no_lcov_record(bench, elf):
    lines = run(bench, "touch", "--lcov", elf(source=RECORDS), *FEW).output.decode().split("\n")
    assert not any(it.startswith("SF:other") for it in lines)
    assert lines.count("end_of_record") == 1


def test_name_in_json_is_the_cleaned_one(bench, elf):
    output = run(bench, "trace", "--json", elf(function=COMMANDS), *FEW).output.decode()
    functions = {it.get("function") for it in map(json.loads, output.splitlines())}
    assert "f^Jstep 5^Jsetreg 10 1" in functions


def test_name_from_a_listing_has_no_control_character(bench, tmp_path):
    (tmp_path / "image").write_text("6f000000\n--\nstep 1\n")
    (tmp_path / "listing").write_bytes(b"80000000 T a\x85b\n80000000 T \x1b[31m\n80000000 T good\xc2\x9b\n80000000 T right\n")
    done = run(bench, "trace", tmp_path / "image", "--symbols", tmp_path / "listing", "--steps", "1")
    check(done)
    assert all(line.isprintable() for line in done.output.decode().split("\n"))


def test_comment_of_a_script_is_one_line_that_the_bench_takes():
    from rvlook.protocol.bench_line import is_malformed
    from rvlook.finders.races.replay import comment
    for heading in ("final state 1: f\nstep 5\nsetreg 5 1", "é" * 200, "\x1b[31m\u202e", "x" * 500, "\udcff"):
        line = comment(heading)
        assert line.startswith("# ") and not is_malformed(line), line


def test_script_of_races_has_no_command_from_a_name(bench, elf, tmp_path):
    done = run(bench, "races", elf(function=COMMANDS), *FEW, "--ram", "131072", "--outcome", "counted", "--scripts", tmp_path / "scripts")
    check(done)
    script = (tmp_path / "scripts" / "final_state_1").read_text().split("--\n")[1].splitlines()
    assert {it.split()[0] for it in script} <= {"#", "step", "mem"}, script
    assert "step 5" not in script


def test_bench_is_given_no_line_feed_in_a_command(bench, monkeypatch):
    from rvlook.protocol.bench import Bench
    from rvlook.errors import RvlookError
    monkeypatch.setenv("RVBENCH", bench)
    with Bench(["run"], b"6f000000\n") as board, pytest.raises(RvlookError):
        board.ask("reg 5\nsetreg 5 1")
