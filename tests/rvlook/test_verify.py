"""`verify`: the examples end COMPLETE, and the leaks of store_leaking are found. A result that a replay contradicts is not trusted."""
import re
import subprocess

import pytest

from conftest import EXAMPLES
from rvlook.__main__ import main
from rvlook.symbolic import confirm, nodes

pytest.importorskip("z3", reason="python3-z3 is not installed")

pytestmark = pytest.mark.usefixtures("processor_clock")
KEY = ("--at", "key:32", "--public", "window_base+1c:32")


def words(name):
    folder = EXAMPLES / "enclaves" / name
    return ("verify", "--monitor", folder / "image", "--symbols", folder / "symbols")


def verdicts(found):
    return {it["name"]: it["verdict"] for it in found if it["object"] == "question"}


@pytest.mark.parametrize("name, options", [
    ("adds", ()), ("hello", ()), ("refused", ()), ("timer", ()), ("store", (*KEY, "--must-know", "pin:8"))])
def test_correct_example_is_complete(results, name, options):
    found = results(*words(name), *options)
    assert found[-1]["complete"] and set(verdicts(found).values()) == {"PROVED"}


def test_each_leak_of_the_leaking_store_is_found(results):
    found = results(*words("store_leaking"), *KEY, status=1)
    kinds = sorted(it["what"] for it in found if it["object"] == "proof_finding")
    assert kinds == ["address", "address", "answer", "operand", "reread", "window"]


def test_place_that_is_no_symbol_is_refused(rvlook):
    done = rvlook(*words("adds"), "--at", "nothing:4")
    assert (done.returncode, done.stderr) == (2, "rvlook: error: 'nothing:4' is neither a hexadecimal address nor a symbol\n")


def test_public_without_a_secret_is_refused(rvlook):
    done = rvlook(*words("adds"), "--public", "answer")
    assert (done.returncode, done.stderr) == (2, "rvlook: error: --public, --wiped and --must-know require --at PLACE\n")


def test_time_limit_is_not_complete(results):
    found = results(*words("store"), *KEY, "--seconds", "0", status=3)
    assert not found[-1]["complete"] and found[-1]["reasons"] and "PROVED" not in verdicts(found).values()


def test_finding_is_an_input_of_the_simulator(rvlook, bench, tmp_path):
    done = rvlook(*words("bug"), "--scripts", tmp_path)
    assert done.returncode == 1 and "  script %s/finding_1\n" % tmp_path in done.stdout
    pc = re.search(r"  step \d+  (\w{8})  ", done.stdout)[1]
    lines = subprocess.run([bench, "run", "--monitor"], input=(tmp_path / "finding_1").read_bytes(), capture_output=True, check=True).stdout.decode()
    assert re.search(r"^%s: \w{8} \w+ " % pc, lines, re.M)
    assert " pc=%s " % pc in [it for it in lines.splitlines() if it.startswith("ran ")][-2]


def test_replay_that_differs_is_not_trusted(bench, monkeypatch, capsys):
    """With a planted error: a shift to the right clears the upper bits of its result."""
    monkeypatch.setenv("RVBENCH", bench)
    monkeypatch.setitem(nodes.NUMBERS, "srl", lambda x, y: (x >> (y & 31)) & 0x7FFFFFF)
    status = main([str(it) for it in (*words("store"), *KEY)])
    output = capsys.readouterr().out
    assert status == 3 and "NOT TO BE TRUSTED: the replay of path" in output and "COMPLETE" not in output and "PROVED" not in output


def test_finding_that_is_not_confirmed_is_none(bench, monkeypatch, capsys):
    """With a planted error: a replay shows the same for two secrets."""
    monkeypatch.setenv("RVBENCH", bench)
    monkeypatch.setattr(confirm, "observed", lambda word, regs: (0,))
    status = main([str(it) for it in (*words("store_leaking"), *KEY)])
    output = capsys.readouterr().out
    assert status == 3 and "NOT TO BE TRUSTED: the replay of the finding" in output and "COMPLETE" not in output


def test_each_byte_of_the_key_matters(results):
    found = results(*words("store"), *KEY, "--must-matter", "key:32")
    assert verdicts(found)["influence"] == "PROVED" and found[-1]["complete"]


def test_byte_that_does_not_matter_is_not_proved(results):
    found = results(*words("adds"), "--at", "80020800:4", "--must-matter", "80020800:4", status=3)
    assert verdicts(found)["influence"] == "NOT DECIDED" and not found[-1]["complete"]


def test_missing_z3_is_reported(rvlook, tmp_path):
    (tmp_path / "z3.py").write_text("raise ImportError\n")
    done = rvlook(*words("adds"), env={"PYTHONPATH": str(tmp_path)})
    assert done.returncode == 2
    assert done.stderr == ("rvlook: error: z3 is not installed, so verify cannot decide which paths exist; "
                           "install it with 'apt-get install python3-z3'\n")
