"""A finding of `verify` is a counterexample that one can run: its inputs have the names of fields, and its commands show it."""
import json
import os
import re
import shlex
import subprocess
from types import SimpleNamespace

import pytest

pytest.importorskip("z3", reason="python3-z3 is not installed")

from conftest import EXAMPLES, ROOT
from rvlook.symbolic import counterexample
from rvlook.symbolic.counterexample import HINT, InputRow, table
from support.gdb_client import Client
from support.page_data import Steps, data_of

pytestmark = pytest.mark.usefixtures("processor_clock")
BUG = EXAMPLES / "enclaves" / "bug"
WORDS = ("verify", "--monitor", BUG / "image", "--symbols", BUG / "symbols")
PC = 32  # the number of the pc in the protocol of gdb


@pytest.fixture(scope="module")
def elf(built):
    return built("verify_paths", "--clang")


@pytest.fixture
def shown(rvlook, elf, tmp_path):
    """Returns the lines of a finding of task 6 in a folder, whose name has a space."""
    script, folder = tmp_path / "script", tmp_path / "a folder"
    script.write_text("poke task 06\n")
    done = rvlook("verify", elf, "--monitor", "--script", script, "--seconds", "8", "--scripts", folder)
    assert done.returncode == 1
    return done.stdout.splitlines(), folder


def command_of(lines, name):
    (line,) = (it for it in lines if it.startswith("  %s " % name))
    return line[9:]


def environment(bench):
    return {**os.environ, "RVBENCH": bench, "TERM": "dumb"}


def pc_at_the_end(bench, path):
    """Returns the pc after the last step of an input."""
    lines = subprocess.run([bench, "run", "--monitor"], input=path.read_bytes(), capture_output=True, check=True).stdout.decode().splitlines()
    return re.search(r" pc=(\w+) ", [it for it in lines if it.startswith("ran ")][-1])[1]


def test_input_has_the_name_of_its_field(shown):
    assert sum(bool(re.match(r"  input  activation 1: w->length = 0x[0-9a-f]+ instead of 0x3 \(80030004, 4 bytes\)$", it)) for it in shown[0]) == 1


def test_page_shows_the_finding(shown, bench):
    pytest.importorskip("jinja2")
    lines, folder = shown
    subprocess.run(command_of(lines, "page"), shell=True, cwd=ROOT, env=environment(bench), check=True, stdin=subprocess.DEVNULL)
    pc = next(re.match(r"  step \d+  (\w{8})  ", it)[1] for it in lines if it.startswith("  step "))
    data = data_of((folder / "finding_1.html").read_text(encoding="utf-8"))
    steps = Steps(data)
    assert [steps.step(number)["pc"] for number in range(1, data["steps"] + 1)][-1] == pc


def test_debugger_starts_after_the_finding(shown, bench, elf):
    lines, folder = shown
    program, *words = shlex.split(command_of(lines, "debug"))[1:]
    assert program == str(elf) and words[0] == "-ex" and words[1].startswith("target remote | ./rvlook gdb ")
    with Client(shlex.split(words[1].partition("| ")[2]), ROOT, environment(bench)) as client:
        assert bytes.fromhex(client.ask("p%x" % PC))[::-1].hex() == pc_at_the_end(bench, folder / "finding_1")


def test_hint_names_the_option_that_writes_inputs(rvlook, tmp_path):
    assert rvlook(*WORDS).stdout.splitlines().count(HINT) == 1
    assert HINT not in rvlook(*WORDS, "--scripts", tmp_path).stdout
    adds = EXAMPLES / "enclaves" / "adds"
    assert HINT not in rvlook("verify", "--monitor", adds / "image", "--symbols", adds / "symbols").stdout


def test_objects_have_names_and_the_script(results, tmp_path):
    found = results(*WORDS, "--scripts", tmp_path, status=1)
    (finding,) = (it for it in found if it["object"] == "proof_finding")
    assert finding["script"] == "%s/finding_1" % tmp_path
    assert "window_base+4" in [it["name"] for it in finding["inputs"]]


def test_hex_image_is_no_program_of_the_debugger(rvlook, tmp_path):
    lines = rvlook(*WORDS, "--scripts", tmp_path).stdout.splitlines()
    assert shlex.split(command_of(lines, "debug"))[:2] == ["gdb-multiarch", "-ex"]


@pytest.mark.parametrize("fields, sizes", [([(0, 4)], [4]), ([(0, 1), (1, 1), (2, 2)], [1, 1, 2]), ([(0, 2), (2, 2)], [2, 2]), ([], [4])])
def test_bytes_of_one_field_are_put_together(monkeypatch, fields, sizes):
    rows = [InputRow(1, 0x80030000 + n, bytes([n]), b"\0") for n in range(4)]
    monkeypatch.setattr(counterexample, "rows_of", lambda search, it: iter(rows))
    member = SimpleNamespace(member=lambda at: next((it for it in fields if it[0] <= at - 0x80030000 < sum(it)), None))
    found = table(SimpleNamespace(world=SimpleNamespace(fields=member)), None)
    assert [len(it.values) for it in found] == sizes and b"".join(it.values for it in found) == bytes(range(4))


def test_bytes_of_two_activations_stay_apart(monkeypatch):
    monkeypatch.setattr(counterexample, "rows_of", lambda search, it: iter([InputRow(1, 0x80030000, b"a", b"b"), InputRow(2, 0x80030001, b"a", b"b")]))
    none = SimpleNamespace(member=lambda at: None)
    assert len(table(SimpleNamespace(world=SimpleNamespace(fields=none)), None)) == 2


def test_lines_of_the_script_right_after_the_entry_belong_to_the_run(rvlook, bench, tmp_path):
    """The window of the run itself has what the script pokes at the entry."""
    found = map(json.loads, rvlook("trace", *WORDS[1:], "--json").stdout.splitlines())
    entry = next(it["step"] for it in found if it["object"] == "step" and it["world"] == "e0") - 1
    script = tmp_path / "script"
    script.write_text("step %d\npoke window_base+4 05\n" % entry)
    done = rvlook(*WORDS, "--script", script)
    assert "window_base+4 = 0x1010101 instead of 0x5 (80030004, 4 bytes)" in done.stdout and "[confirmed]" in done.stdout
