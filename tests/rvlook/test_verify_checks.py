"""The checks of enclave_check.h: `verify` proves them or finds inputs, and `run` and `inputs` report one that fails."""
import pytest

pytest.importorskip("z3", reason="python3-z3 is not installed")
FAILED = bytes.fromhex("0b004843")  # the instruction of a failed check
TASKS = {1: "NOT DECIDED", 2: "FOUND", 3: "FOUND"}  # a wrap after 256 activations is seen only in a merged state


@pytest.fixture
def script(tmp_path):
    """Returns the options of a script that selects a task, and gives words of the window."""
    def words(task, corrected=0, *window):
        path = tmp_path / "script"
        lines = ["poke task %02x" % task, "poke corrected %02x" % corrected, *window]
        path.write_text("\n".join(lines) + "\n")
        return "--script", path
    return words


def verdict(found):
    (it,) = (it for it in found if it["object"] == "question" and it["name"] == "assertions")
    return it["verdict"]


@pytest.mark.parametrize("task", TASKS)
def test_failing_check_is_not_proved(objects, program, script, task):
    status, found = objects("verify", *program("verify_checks"), *script(task))
    assert verdict(found) == TASKS[task] and status == (1 if TASKS[task] == "FOUND" else 3)


@pytest.mark.parametrize("task", TASKS)
def test_corrected_check_is_proved(results, program, script, task):
    found = results("verify", *program("verify_checks"), *script(task, 1))
    assert verdict(found) == "PROVED" and found[-1]["complete"]


def test_assumption_is_part_of_the_result(results, program, script):
    assert ", if the assumptions hold at " in results("verify", *program("verify_checks"), *script(2, 1))[-1]["covered"]


def test_bytes_of_the_region_are_inputs(objects, program, script):
    _, found = objects("verify", *program("verify_checks"), *script(3))
    (finding,) = (it for it in found if it["object"] == "proof_finding")
    symbols = dict(reversed(line.split()) for line in open(program("verify_checks")[-1], encoding="ascii"))
    assert int(symbols["state"], 16) in [int(it["address"], 16) for it in finding["inputs"]]


def test_inputs_reports_a_failed_check(objects, program, script):
    _, found = objects("inputs", *program("verify_checks"), *script(2), "--runs", "30")
    assert any(it["text"].startswith("the enclave traps: a failed check") for it in found if it["object"] == "finding")


def test_run_reports_a_failed_assumption(rvlook, program, script):
    done = rvlook("run", *program("verify_checks"), *script(2, 0, "poke first 00"))
    assert done.returncode == 1 and "failed assumption" in done.stdout + done.stderr


def test_checks_are_compiled_only_with_the_macro(built, monkeypatch):
    monkeypatch.delenv("CFLAGS", raising=False)
    assert FAILED not in built("verify_checks").read_bytes()
    monkeypatch.setenv("CFLAGS", "-DENCLAVE_CHECK")
    assert FAILED in built("verify_checks").read_bytes()
