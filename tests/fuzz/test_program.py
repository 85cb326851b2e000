"""Random inputs of fixed seeds give the output of the reference models, and planted differences are found."""
import re
import stat

import pytest

from conftest import ROOT
from fuzz import inputs, monitor_play, program

STATES = ("free to Fresh", "Fresh to Running", "Running to Stopped", "Stopped to Running", "Running to Exited", "Fresh to free",
          "Stopped to free", "Exited to free")
TWINS = ("twin no slot", "twin entered", "twin error blind", "twin step", "twin mem", "twin access", "twin enclaves", "Stopped to free")
BOTH = ("both in enclaves", "called where it runs elsewhere")
OTHER_HART = ("other hart", *("other hart " + it for it in ("step", "run", "regs", "csr", "access", "enclaves", "pmp", "setreg")),
              "called where it runs elsewhere")


@pytest.mark.parametrize("arguments", [
    "--seed 1 --count 600", "--seed 3 --count 120 --kind code", "--seed 5 --count 300 --kind pairs", "--seed 7 --count 300 --kind links",
    "--seed 2 --count 20 --kind monitor twin"])
def test_random_inputs(bench, capsys, arguments):
    assert program.main([bench, *arguments.split()]) == 0, capsys.readouterr().out


def test_superinstructions_are_those_of_the_decode_cache():
    table = re.findall(r"\(Operation::(\w+), Operation::(\w+)\) =>", (ROOT / "crates/rv_fast_path/src/fused.rt").read_text(encoding="utf-8"))
    assert sorted((first.lower(), second.lower()) for first, second in table) == sorted(inputs.SUPERINSTRUCTIONS)


@pytest.mark.parametrize("edit, status, kind, wanted", [
    ("s/ sltu / slti /", None, "dis", r"[0-9a-f]{8}\\"), ("s/^error csr$/error cst/", None, "script", r"--/csr [0-9a-f]{1,3}\\"),
    ("", 0, "asm", r".{1,3}\\")], ids=["dis", "script", "status"])
def test_a_planted_difference_is_found_by_a_small_input(bench, tmp_path, capsys, edit, status, kind, wanted):
    planted = tmp_path / "planted"
    planted.write_text("#!/bin/bash\n'%s' \"$@\" | sed '%s'\nexit %s\n" % (bench, edit, "${PIPESTATUS[0]}" if status is None else status))
    planted.chmod(planted.stat().st_mode | stat.S_IXUSR)
    assert program.main([str(planted), "--kind", kind, "--count", "2000", "--most", "1"]) == 1
    lines = [line[1:] for line in capsys.readouterr().out.splitlines() if line.startswith("<")]
    assert re.fullmatch(wanted, "/".join(lines)), lines


@pytest.mark.parametrize("arguments, events", [
    ("--count 8", STATES), ("--twin --count 24", TWINS), ("--harts 2 --count 12", STATES + BOTH),
    ("--twin --harts 2 --count 32", TWINS + ("twin hart", "twin sched") + BOTH), ("--other-hart --count 24", OTHER_HART)])
def test_random_scripts_of_the_monitor(bench, capsys, arguments, events):
    status = monitor_play.main([bench, "--seed", "1", *arguments.split()])
    output = capsys.readouterr().out
    assert status == 0, output
    for event in events:
        assert re.search(event + " [1-9]", output), event
