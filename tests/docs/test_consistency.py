"""Lists that no proof compares: the documentation, the tests and rvlook name the same commands, instructions, registers, calls and laws."""
import importlib
import re
import subprocess

import pytest

from conftest import ROOT


@pytest.mark.parametrize("module", ["command_names", "listings", "monitor_docs", "laws_docs", "names"])
def test_lists_agree(module, capsys):
    status = importlib.import_module("docs." + module).main(["--check"])
    assert status == 0, capsys.readouterr().out


@pytest.mark.parametrize("tool", ["command_index", "figures"])
def test_what_a_tool_writes_is_up_to_date(tool):
    done = subprocess.run([ROOT / "tools" / tool, "--check"], capture_output=True, text=True, check=False)
    assert done.returncode == 0, done.stdout + done.stderr


def test_sizes_of_the_assurance_case_are_those_of_the_repository():
    done = subprocess.run([ROOT / "tools" / "sizes"], capture_output=True, text=True, check=True)
    counted = {name: int(number) for name, number in re.findall(r"^(\S.*?) +(\d+)$", done.stdout, re.M)}
    page = (ROOT / "docs" / "ASSURANCE.md").read_text(encoding="utf-8")
    rows = {"code": "code in Rattle", "trusted": "trusted part of this code (A2, A3)", "definitions": "definitions (`specs/`)", "proofs": "proofs (`proofs/`)",
            "rvlook": "`python/rvlook`", "tests in Rattle": "tests in Rattle", "tests in Python": "tests in Python"}
    assert counted.keys() == rows.keys()
    for name, row in rows.items():
        number = int(re.search(r"^\| %s \| ([\d,]+)" % re.escape(row), page, re.M)[1].replace(",", ""))
        assert abs(number - counted[name]) <= counted[name] / 20, (name, counted[name])


def test_each_definition_file_begins_with_what_it_states():
    done = subprocess.run([ROOT / "tools" / "definitions"], capture_output=True, text=True, check=False)
    assert done.returncode == 0, done.stderr
