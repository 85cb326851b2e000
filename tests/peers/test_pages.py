"""The commands of docs/PEERS.md work, and its tables agree with the lists of deviations and of planted errors."""
import os
import re
import shutil
import subprocess

import pytest

from conftest import ROOT
from peers.planted import errors
from peers.qemu.deviations import DEVIATIONS
from peers.qemu.stops import STOPS
from support.limits import HANG

PAGE = (ROOT / "docs" / "PEERS.md").read_text(encoding="utf-8")
COMMANDS = re.findall(r"^    (tests/peers/run .*)$", PAGE, re.M)
NEEDED = {"qemu": "qemu-system-riscv32", "harts": "qemu-system-riscv32", "assemblers": "llvm-mc", "gcc": "riscv64-unknown-elf-gcc",
          "arch-test": "riscv64-unknown-elf-gcc"}


@pytest.mark.parametrize("command", COMMANDS)
def test_a_command_of_the_page_finds_no_difference(bench, command):
    tool = NEEDED[command.split()[1]]
    if not shutil.which(tool):
        pytest.skip("%s is not installed" % tool)
    done = subprocess.run(["bash", "-c", command], cwd=ROOT, env={**os.environ, "RVBENCH": bench}, capture_output=True, text=True, timeout=HANG,
                          check=False)
    if "gcc-12-source" in done.stderr:
        pytest.skip("the sources of GCC's tests (Debian: gcc-12-source) are not installed")
    assert done.returncode == 0, done.stdout[-2000:] + done.stderr


@pytest.mark.parametrize("words, status", [(["library", "/none"], 2), (["arch-test", "/none"], 2), (["planted", "none"], 1), (["none"], 2)],
                         ids=["no library", "no suite", "no such error", "no such peer"])
def test_a_comparison_of_nothing_does_not_succeed(bench, words, status):
    if not shutil.which(NEEDED["arch-test"]):
        pytest.skip("%s is not installed" % NEEDED["arch-test"])
    command = [ROOT / "tests" / "peers" / "run", "--program", bench, *words]
    done = subprocess.run(command, capture_output=True, text=True, timeout=HANG, check=False)
    assert done.returncode == status, done.stdout + done.stderr


def test_the_page_has_a_command_for_each_comparison():
    assert {it.split()[1] for it in COMMANDS} == set(NEEDED)


@pytest.mark.parametrize("row", [*DEVIATIONS, *STOPS], ids=lambda it: it.name)
def test_the_page_has_each_deviation(row):
    assert "| %s | %s | %s | %s |\n" % (row.name, row.section, row.text, "left open" if row.is_choice else "against the manual") in PAGE


def test_the_page_has_each_planted_error_and_who_noticed_it():
    rows = dict(re.findall(r"^\| (\w+) \| (.*?) \| (?:QEMU, (?:case|\d+ steps)|LLVM).* \|$", PAGE, re.M))
    assert {it.name: it.text for it in errors.read_errors()} == rows
    assert len(rows) >= 30


def test_each_planted_error_can_be_planted(tmp_path):
    for error in errors.read_errors():
        for name in {name for name, _, _ in error.edits}:
            (tmp_path / error.name / "crates" / name).parent.mkdir(parents=True, exist_ok=True)
            shutil.copy(ROOT / "crates" / name, tmp_path / error.name / "crates" / name)
        errors.plant(error, tmp_path / error.name)
        assert {name.split("/")[1] for name, _, _ in error.edits} == {"src", "specs"}
