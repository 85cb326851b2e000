"""The prompt on a terminal: symbols, completion, history, Ctrl-C and Ctrl-D; after each the terminal is as before."""
import time

import pytest
from support.terminal import Terminal

from conftest import EXAMPLES, ROOT, RVLOOK

FOLDER = EXAMPLES / "enclaves" / "timer"
TIMER = ("--monitor", FOLDER / "image", "--symbols", FOLDER / "symbols")
SESSION = (  # the typed line, and the expected output
    (None, "host S _start>"), ("break main\r", "ok"), ("run 100\r", "why=break"), ("reg sp\r", "x2=80020000"), ("until switch\r", "world=e0"),
    ("back 1\r", "host S main+54>"), ("fly\x03", "host S main+54>"), ("fly\r", "error command"))
COMPLETED = (
    (None, "host S _start>"), ("acc\t", "access"), (" U r created 4\r", "allowed entry 15"), ("step 3\r", "ran 3"), ("\x1b[A\r", "ran 3"),
    ("break enclave_e\t", "enclave_entry"), ("\r", "ok"))


@pytest.fixture
def terminal(bench):
    """Starts rvlook on a terminal of a kind."""
    started = []

    def start(kind, *words):
        started.append(Terminal([RVLOOK, *words], ROOT, kind, RVBENCH=bench))
        return started[-1]
    yield start
    for it in started:
        if it.process.poll() is None:
            it.process.kill()
            it.process.wait()


def play(terminal, session, pause):
    """Types the lines of a session, and ends it by Ctrl-D."""
    for typed, shown in session:
        if typed:
            terminal.send(typed)
            time.sleep(pause)
        assert terminal.shows(shown), "after %r it does not show %r but %r" % (typed, shown, terminal.seen[-300:])
    assert terminal.shows("> ")
    terminal.send("\x04")
    assert terminal.end() == (0, True)


@pytest.mark.parametrize("kind", ["xterm", "dumb"])
def test_session_on_a_terminal(terminal, kind):
    play(terminal(kind, *TIMER), SESSION, 0.05)


def test_tab_completes_a_word_and_the_arrow_brings_a_line_again(terminal):
    play(terminal("xterm", *TIMER), COMPLETED, 0)


def test_interrupt_stops_a_long_trace(terminal, tmp_path):
    (tmp_path / "loop").write_text("1303130013031300\n6ff09fff\n")  # a loop without end
    trace = terminal("xterm", "trace", tmp_path / "loop", "--steps", "1000000")
    assert trace.shows("80000000")
    trace.send("\x03")
    trace.wait()
    assert trace.shows("rvlook: error: interrupted")
    assert trace.end() == (130, True)
