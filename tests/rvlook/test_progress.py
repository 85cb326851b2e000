"""Long work on a terminal shows its progress there and nowhere else. Work that Ctrl-C or --seconds stops reports its results so far."""
import json
import os
import pty
import re
import select
import signal
import subprocess
import tempfile
import time

import pytest
from support.limits import HANG
from support.race_programs import assembled

from conftest import EXAMPLES, ROOT, RVLOOK

COUNTER = ("lui x5, 0x80011", "addi x6, x0, 200", "loop: lw x7, 0(x5)", "addi x7, x7, 1", "sw x7, 0(x5)", "addi x6, x6, -1", "bne x6, x0, loop",
           "done: jal x0, done")
STORE = EXAMPLES / "enclaves" / "store_leaking"
LEAK = ("leak", "--monitor", STORE / "image", "--symbols", STORE / "symbols", "--at", "key:32", "--tries", "1000", "--json")
TIMES = 3  # how often the progress is shown before Ctrl-C


@pytest.fixture
def stopped(bench):
    """Runs rvlook with a terminal as standard error, and sends SIGINT after its progress was shown a few times. Returns the status, how often
    it was shown, and the objects."""
    def run(words, pattern):
        ours, theirs = pty.openpty()
        with tempfile.TemporaryFile("w+") as output:
            process = subprocess.Popen([RVLOOK, *words], cwd=ROOT, stdin=subprocess.DEVNULL, stdout=output, stderr=theirs,
                                       env={**os.environ, "RVBENCH": bench, "TERM": "xterm"},
                                       preexec_fn=lambda: signal.signal(signal.SIGINT, signal.default_int_handler))
            os.close(theirs)
            shown, until = "", time.monotonic() + HANG
            while len(re.findall(pattern, shown)) < TIMES and time.monotonic() < until and process.poll() is None:
                shown += os.read(ours, 65536).decode() if select.select([ours], [], [], 1)[0] else ""
            process.send_signal(signal.SIGINT)
            process.wait(timeout=HANG)
            os.close(ours)
            output.seek(0)
            return process.returncode, len(re.findall(pattern, shown)), [json.loads(it) for it in output]
    return run


def test_races_shows_its_progress_and_reports_what_it_has(stopped, bench, tmp_path):
    (tmp_path / "long").write_text(assembled(bench, COUNTER).hex() + "\n")
    words = ("races", "--monitor", "--harts", "2", "--ram", "131072", "--outcome", "80011000", "--json", tmp_path / "long")
    status, shown, found = stopped(words, r"\rround \d+: \d+ states")
    assert (status, shown >= TIMES) == (130, True)
    assert (found[-1]["object"], found[-1]["complete"]) == ("races", False)
    assert found[-1]["covered"].startswith("stopped by Ctrl-C after ")


@pytest.mark.parametrize("jobs", ["1", "2"])
def test_leak_shows_a_bar_and_reports_what_it_has(stopped, jobs):
    status, shown, found = stopped((*LEAK, "--jobs", jobs), r"\r\[#*\.+\] \d+ of 1000  \d+ differ")
    assert (status, shown >= TIMES) == (130, True)
    assert (found[-1]["object"], found[-1]["pairs"]) == ("leak", sum(it["object"] == "pair" for it in found))


def test_progress_is_shown_on_a_terminal_alone(rvlook):
    done = rvlook(*LEAK, "--seconds", "1")
    pairs = json.loads(done.stdout.splitlines()[-1])["pairs"]
    assert 0 < pairs < 1000
    assert (done.returncode, done.stderr) == (1, "rvlook: warning: --seconds ended leak after %d of 1000 pairs\n" % pairs)


def test_conform_shows_a_bar_and_reports_what_it_has(stopped):
    words = ("conform", EXAMPLES / "monitors" / "own_monitor" / "image", "--jobs", "2", "--json")
    status, shown, found = stopped(words, r"\r\[#*\.+\] \d+ of \d+  ")
    assert (status, shown >= TIMES) == (130, True)
    assert (found[0]["object"], found[0]["scripts"] > 0, found[-1]["object"]) == ("conform", True, "cell")


def test_guard_shows_a_bar_and_reports_what_it_has(stopped):
    two = EXAMPLES / "monitors" / "two_enclaves"
    status, shown, found = stopped(("guard", "--timers", "60", "--json", two / "image", two / "ranges"), r"\r\[#*\.+\] \d+ of 61  runs with marks")
    kinds = [it["object"] for it in found]
    assert (status, shown >= TIMES) == (130, True)
    assert TIMES <= kinds.count("guarded_run") < 61 and kinds[-1] == "owner" and "guarded_twins" not in kinds


def test_no_progress_is_shown_to_a_caller_that_takes_the_messages():
    import io
    from rvlook.errors import captured_messages
    from rvlook.output.progress import Progress

    class Terminal(io.StringIO):
        def isatty(self):
            return True
    assert Progress(Terminal()).is_shown
    with captured_messages():
        assert not Progress(Terminal()).is_shown
