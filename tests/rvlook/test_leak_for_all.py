"""`leak` says that nothing depends on the secret *for all secrets* only if no value of it shows. A key that shows for one value is never that."""
import pytest

pytest.importorskip("z3", reason="python3-z3 is not installed")

from conftest import EXAMPLES
from rvlook.__main__ import main
from rvlook.finders.leak_text import FOR_ALL
from rvlook.symbolic.one_path import BaseRunState

KEY = ("--at", "key:16", "--tries", "2", "--strict")
SHOWN = {1: (), 2: (), 3: (), 4: (), 5: (), 6: ("--public", "window_base+8:4"), 7: (), 8: ()}  # tasks that show the key for one value
PRESENT = "5a5a5a5a"  # in place of the first bytes of the key


@pytest.fixture(scope="module")
def elf(built):
    return built("leak_values", "--clang")


@pytest.fixture
def words(elf, tmp_path):
    """Returns the arguments for a task."""
    def of(task, *options):
        script = tmp_path / "script"
        script.write_text("poke task %02x\n" % task)
        return ("leak", elf, "--monitor", "--script", script, *options)
    return of


def last_line(done):
    assert (done.returncode, done.stderr) == (0, "")
    return done.stdout.splitlines()[-1]


def test_hidden_key_is_hidden_for_all_secrets(rvlook, words):
    assert last_line(rvlook(*words(0, *KEY))) == FOR_ALL


def test_two_given_secrets_end_with_the_same_line(rvlook, words):
    assert last_line(rvlook(*words(0, "--at", "key:16", "00" * 16, "ff" * 16))) == FOR_ALL


@pytest.mark.parametrize("task", SHOWN)
def test_key_that_shows_for_one_value_is_not_hidden(results, words, task):
    found = results(*words(task, *KEY, *SHOWN[task]))
    assert found[-1]["channels"] == [] and not found[-1]["for_all"]


@pytest.mark.parametrize("task", [it for it in SHOWN if it != 7])
def test_that_value_shows(rvlook, words, task):
    done = rvlook(*words(task, "--at", "key:4", PRESENT, "00000000", "--strict", *SHOWN[task]))
    assert done.returncode == 1 and FOR_ALL not in done.stdout


def test_public_difference_is_named(rvlook, words):
    done = rvlook(*words(4, *KEY, "--public", "window_base+4:4"))
    assert last_line(done) == FOR_ALL + ", except what --public names"


def test_loaded_public_word_must_be_followed(bench, monkeypatch, capsys, words):
    """With a planted error: bytes that the enclave has stored to the window are those of the run."""
    def received(self, at, width, place):
        base = self.search.world.window[0]
        return [self.window_memory[at + n - base] for n in range(width)]

    monkeypatch.setenv("RVBENCH", bench)
    arguments = [str(it) for it in words(6, *KEY, *SHOWN[6])]
    assert main(arguments) == 0 and FOR_ALL not in capsys.readouterr().out
    monkeypatch.setattr(BaseRunState, "load_window", received)
    assert main(arguments) == 0 and FOR_ALL in capsys.readouterr().out


def test_nothing_changes_without_z3(rvlook, words, tmp_path):
    (tmp_path / "z3.py").write_text("raise ImportError\n")
    lines = rvlook(*words(0, *KEY)).stdout.splitlines()
    assert rvlook(*words(0, *KEY), env={"PYTHONPATH": str(tmp_path)}).stdout.splitlines() == lines[:-1]


@pytest.mark.parametrize("lines, is_known", [("poke window_base 05\nstep 40", True), ("step 40\npoke window_base 05", False),
                                             ("step 40\nstep 1", True), ("step 40\nsetreg 0 1", False)])
def test_script_that_changes_something_after_a_step_is_not_decided(results, words, tmp_path, lines, is_known):
    arguments = words(0, *KEY)
    (tmp_path / "script").write_text(lines + "\n")
    assert results(*arguments)[-1]["for_all"] == is_known


@pytest.mark.parametrize("name, options", [("timer", ()), ("adds", ("--harts", "2"))])
def test_interrupted_enclave_and_two_harts_are_not_decided(results, tmp_path, name, options):
    script = tmp_path / "script"
    script.write_text("step 1000\n")
    found = results("leak", "--monitor", EXAMPLES / "enclaves" / name / "image", *(("--script", script) if options else ()), *options, "--at",
                    "80020c00:4", "--tries", "2")
    assert found[-1]["channels"] == [] and not found[-1]["for_all"]
