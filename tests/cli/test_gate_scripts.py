"""`./prove` and `./check`: help, wrong arguments and Ctrl-C. They run in a copy of the sources, so that no other run waits for them."""
import contextlib
import os
import shutil
import signal
import subprocess
import time
from pathlib import Path

import pytest

from support.limits import HANG
from support.processes import end_soon

ROOT = Path(__file__).resolve().parents[2]
# The line of each script after which its work has begun.
BEGUN = {"prove": "prove: the first run takes", "check": "check: rt ci: begins"}
INTERRUPTED = 130


@pytest.fixture
def copy(tmp_path):
    """Returns the path of a copy of the files that the scripts need, without anything that was built."""
    built = shutil.ignore_patterns("out", "__pycache__")
    for name in ("crates", "tests/mutants", "tools"):
        shutil.copytree(ROOT / name, tmp_path / name, ignore=built)
    for name in ("prove", "check", "crates.txt", "HANDLES"):
        shutil.copy(ROOT / name, tmp_path / name)
    return tmp_path


def ran(script, *arguments):
    """Runs a script of this repository, which must end soon."""
    return subprocess.run([str(ROOT / script), *arguments], capture_output=True, text=True, timeout=HANG, check=False)


@contextlib.contextmanager
def started(folder, script):
    """Yields a script that was started in a folder, with its output. A test that itself runs in the background ignores Ctrl-C; the script does not."""
    process = subprocess.Popen([str(folder / script)], cwd=folder, stdout=subprocess.PIPE, stderr=subprocess.STDOUT, text=True,
                               preexec_fn=lambda: signal.signal(signal.SIGINT, signal.SIG_DFL))
    try:
        yield process
    finally:
        process.kill()
        process.wait()


def working_in(folder):
    """Returns the numbers of the processes that work in a folder."""
    found = []
    for process in Path("/proc").glob("[0-9]*"):
        with contextlib.suppress(OSError):
            if Path(os.readlink(process / "cwd")).is_relative_to(folder):
                found.append(int(process.name))
    return found


@pytest.mark.parametrize("script", BEGUN)
@pytest.mark.parametrize("option", ["-h", "--help"])
def test_help_is_printed_and_nothing_is_proved(script, option):
    result = ran(script, option)
    assert (result.returncode, result.stderr) == (0, "")
    assert f"./{script} [" in result.stdout


@pytest.mark.parametrize("script", BEGUN)
def test_an_unknown_argument_is_refused(script):
    result = ran(script, "--helpp")
    assert (result.returncode, result.stdout) == (2, "")
    assert f"./{script} [" in result.stderr


@pytest.mark.skipif(not shutil.which("rt"), reason="the Rattle kit is missing")
@pytest.mark.parametrize("script", BEGUN)
def test_ctrl_c_ends_the_script_and_its_processes(copy, script):
    with started(copy, script) as process:
        begun = any(BEGUN[script] in line for line in process.stdout)
        time.sleep(1)
        process.send_signal(signal.SIGINT)
        output, _ = process.communicate(timeout=HANG)
    assert begun and process.returncode == INTERRUPTED
    assert output.strip().split("\n")[-1].startswith(f"{script}: interrupted") and "Traceback" not in output
    assert end_soon(working_in(copy))  # a proof of a crate takes longer
    assert working_in(copy) == []


@pytest.mark.parametrize("subject, status", [
    ("rv_hart: keep the superinstruction of xor", 0), ("SPEED, DECISIONS: measure again", 0), ("rv_hart: " + "x" * 63, 0), ("rv_hart: " + "x" * 64, 1),
    ("keep the superinstruction of xor", 1), ("rv_hart: Keep it", 1), ("", 1)])
def test_hook_checks_the_subject_of_a_commit(tmp_path, subject, status):
    message = tmp_path / "message"
    message.write_text("# a comment of git\n%s\n\nThe reason is in the body, which may have lines of any length.%s\n" % (subject, "." * 80))
    done = subprocess.run([ROOT / "tools" / "hooks" / "commit-msg", message], capture_output=True, text=True, check=False)
    assert done.returncode == status and bool(done.stderr) == bool(status)
