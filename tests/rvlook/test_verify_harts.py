"""`verify --harts 2`: the answers are those for one hart, whichever hart runs the enclave. The other hart may store inputs to the window at any time."""
import pytest

pytest.importorskip("z3", reason="python3-z3 is not installed")

from conftest import EXAMPLES

pytestmark = pytest.mark.usefixtures("processor_clock")
HARTS = ("--harts", "2")


def words(name, *options):
    folder = EXAMPLES / "enclaves" / name
    return ("verify", "--monitor", folder / "image", "--symbols", folder / "symbols", *options)


def answers(found):
    return {it["name"]: (it["verdict"], it["findings"], it["undecided"]) for it in found if it["object"] == "question"}


def findings(found):
    return [it for it in found if it["object"] == "proof_finding"]


@pytest.mark.parametrize("name", ["adds", "bug", "refused"])
def test_answers_are_those_for_one_hart(objects, name):
    one, two = objects(*words(name)), objects(*words(name, *HARTS))
    assert one[0] == two[0] and answers(one[1]) == answers(two[1]) and answers(two[1])
    assert [it["confirmed"] for it in findings(one[1])] == [it["confirmed"] for it in findings(two[1])]


def test_enclave_on_the_second_hart_is_verified(results, tmp_path):
    script, folder = tmp_path / "script", tmp_path / "found"
    script.write_text("hart 1\nstep 2000\n")
    found = results(*words("bug", *HARTS, "--script", script, "--scripts", folder), status=1)
    assert [it["confirmed"] for it in findings(found)] == ["confirmed"]
    lines = (folder / "finding_1").read_text(encoding="ascii").splitlines()
    assert "hart 1" in lines and "hart 0" not in lines


def test_replay_on_the_wrong_hart_is_not_trusted(bench, monkeypatch, capsys, tmp_path):
    """With a planted error: the steps of a replay are those of hart 0."""
    from rvlook.__main__ import main
    from rvlook.symbolic.world import World
    monkeypatch.setenv("RVBENCH", bench)
    read = World.read_hart
    monkeypatch.setattr(World, "read_hart", lambda self, *those: (read(self, *those), setattr(self, "hart", 0)))
    script = tmp_path / "script"
    script.write_text("hart 1\nstep 2000\n")
    status = main([str(it) for it in words("adds", *HARTS, "--script", script)])
    output = capsys.readouterr().out
    assert status == 3 and "NOT TO BE TRUSTED" in output and "COMPLETE" not in output


@pytest.mark.parametrize("task, question", [(16, "double fetches"), (18, "double fetches")])
def test_change_of_the_window_by_the_other_hart_is_found(results, program, tmp_path, task, question):
    script = tmp_path / "script"
    script.write_text("poke task %02x\n" % task)
    found = results("verify", *program("verify_paths"), *HARTS, "--script", script, "--seconds", "8", status=1)
    assert answers(found)[question][0] == "FOUND" and all(it["confirmed"] == "confirmed" for it in findings(found))


def test_loop_that_waits_for_the_other_hart_is_not_decided(results):
    found = results("verify", "--monitor", EXAMPLES / "enclaves" / "two_harts" / "image", *HARTS, "--seconds", "1", status=3)
    assert answers(found)["double fetches"][0] == "NOT DECIDED" and not found[-1]["complete"]
