"""`inputs` takes values from z3: it finds a bug after a magic number and a checksum, which it does not find without z3."""
import pytest

pytest.importorskip("z3", reason="python3-z3 is not installed")

RUNS = ("--runs", "300")


@pytest.fixture(scope="module")
def elf(built):
    return built("inputs_magic", "--clang")


def findings(found):
    return [it for it in found if it["object"] == "finding"]


def test_bug_after_magic_number_and_checksum_is_found(objects, elf):
    status, found = objects("inputs", elf, "--monitor", *RUNS)
    (it,) = findings(found)
    assert status == 1 and it["text"].startswith("store reaches other, where the run reaches little, at application.c:")
    assert {"w->magic", "w->data[0]"} <= {change["name"] for change in it["inputs"]} and found[-1]["runs"] <= 300


def test_bug_is_not_found_without_z3(results, elf, no_z3):
    found = results("inputs", elf, "--monitor", *RUNS, env=no_z3)
    assert findings(found) == [] and found[-1]["both_ways"] == 0


def test_nothing_is_found_in_the_correction(results, elf, tmp_path):
    script = tmp_path / "script"
    script.write_text("poke corrected 01\n")
    found = results("inputs", elf, "--monitor", "--script", script, "--runs", "120")
    assert findings(found) == [] and found[-1]["both_ways"] >= 3
