"""The stored digests, samples and tables are up to date with the generators."""
import os
import subprocess
import sys

import pytest

from conftest import ROOT

TESTS = ROOT / "tests"
TABLE = ROOT / "crates/rv_machine_tests/src/pmp_tests/verdict_table.rt"


def generator(name, *arguments):
    environment = {**os.environ, "PYTHONPATH": str(TESTS), "PYTHONDONTWRITEBYTECODE": "1"}
    return subprocess.run([sys.executable, "-m", "generators." + name, *arguments], capture_output=True, text=True, env=environment, check=False)


@pytest.mark.parametrize("name", ["corner_values", "csr_table", "traps", "pmp", "assembler", "debugger", "elf", "monitor", "twin", "harts", "attacks"])
def test_what_is_kept_is_up_to_date(name):
    done = generator(name, "--check")
    assert done.returncode == 0, done.stdout + done.stderr


def test_the_table_of_verdicts_is_up_to_date():
    assert generator("pmp_verdicts").stdout == TABLE.read_text()
