"""Ends of `rvlook gdb`: one line on standard error, and no process remains. Also the time in which Ctrl-C halts a run."""
import os
import pty
import re
import signal
import socket
import subprocess
import sys
import time

import pytest
from support.limits import HANG, wait_until
from support.packets import packet
from support.processes import children_of, end_soon, processor_time_of

from conftest import EXAMPLES, ROOT, RVLOOK

IMAGE, MONITOR = EXAMPLES / "enclaves" / "timer" / "image", ("--monitor",)
ENDLESS = "1303130013031300\n6ff09fff\n"  # a loop that never halts
SOON = 0.05  # seconds of processor time within which Ctrl-C halts
GONE = "rvlook: note: the debugger disconnected\n"
KILLED = "rvlook: error: %s: rvbench exited with status -9\n" % IMAGE
PARENT = "import subprocess, sys, time\nit = subprocess.Popen(%r, stdin=subprocess.PIPE)\nprint(it.pid, flush=True)\n" \
    "it.stdin.write(%r)\nit.stdin.flush()\ntime.sleep(60)"


@pytest.fixture
def endless(tmp_path):
    path = tmp_path / "endless"
    path.write_text(ENDLESS)
    return str(path)


@pytest.fixture
def environment(bench):
    return {**os.environ, "RVBENCH": bench, "TERM": "dumb"}


@pytest.fixture
def server(environment):
    """Starts a server at a port; gives the process and the port."""
    started = []

    def start():
        process = subprocess.Popen([RVLOOK, "gdb", "--port", "0", *MONITOR, IMAGE], cwd=ROOT, env=environment, stderr=subprocess.PIPE,
                                   preexec_fn=lambda: signal.signal(signal.SIGINT, signal.default_int_handler))
        started.append(process)
        return process, int(process.stderr.readline().decode().split("localhost:")[1])
    yield start
    for it in started:
        if it.poll() is None:
            it.kill()
            it.wait()
        it.stderr.close()


def check_end(process, numbers, status, message):
    """Checks the status of a server, its line, and that none of its processes is left."""
    assert process.wait(HANG) == status
    assert process.stderr.read().decode() == message
    assert numbers and end_soon(numbers)


@pytest.mark.parametrize("text, message", [("D", ""), ("vKill;1", ""), ("k", ""), ("", GONE)], ids=["detach", "kill", "k", "nothing"])
def test_server_ends_with_the_debugger(debugger, text, message):
    with debugger(IMAGE, MONITOR, stderr=subprocess.PIPE) as client:
        numbers = children_of(client.process.pid)
        client.give(packet(text) if text else b"")
        client.process.stdin.close()
        check_end(client.process, numbers, 0, message)


def test_server_ends_if_its_output_is_closed(debugger):
    with debugger(IMAGE, MONITOR, stderr=subprocess.PIPE) as client:
        numbers = children_of(client.process.pid)
        client.process.stdout.close()
        client.give(packet("g"))
        check_end(client.process, numbers, 0, GONE)


@pytest.mark.parametrize("packets", [("vCont;c",), ("qRcmd," + b"step 1000000".hex(), "qRcmd," + b"touch".hex())], ids=["continue", "subcommand"])
def test_server_ends_if_the_debugger_is_killed_meanwhile(environment, endless, packets):
    data = packet("QStartNoAckMode") + b"".join(map(packet, packets))
    code = PARENT % ([str(RVLOOK), "gdb", endless], data)
    parent = subprocess.Popen([sys.executable, "-c", code], cwd=ROOT, env=environment, stdout=subprocess.PIPE, stderr=subprocess.PIPE)
    number = int(parent.stdout.readline())
    assert wait_until(lambda: children_of(number))
    time.sleep(0.7)
    numbers = [number, *children_of(number)]
    parent.kill()
    parent.wait(HANG)
    assert end_soon(numbers)
    assert parent.stderr.read().decode() == GONE
    parent.stdout.close()
    parent.stderr.close()


@pytest.mark.parametrize("text, answer", [("m80010000,4", "E.rvbench has exited"), ("vCont;c", "X09")], ids=["read", "continue"])
def test_bench_that_is_killed_is_reported(debugger, text, answer):
    with debugger(IMAGE, MONITOR, stderr=subprocess.PIPE) as client:
        numbers = children_of(client.process.pid)
        for number in numbers:
            os.kill(number, signal.SIGKILL)
        assert client.ask(text) == answer
        check_end(client.process, numbers, 3, KILLED)


@pytest.mark.parametrize("words, program, message", [
    ((*MONITOR, IMAGE), "/none", "RVBENCH: no program at '/none'"), (("README.md", "--kind", "elf"), None, "'README.md' is a text file, ")], ids=["program", "image"])
def test_program_or_image_that_cannot_be_used_is_refused(rvlook, words, program, message):
    done = rvlook("gdb", *words, env={"RVBENCH": program} if program else None)
    assert done.returncode == 2
    assert re.fullmatch("rvlook: error: %s[^\n]*\n" % re.escape(message), done.stderr), done.stderr


def asked_at(connection, text):
    """The answer to a packet over a port."""
    connection.sendall(packet(text))
    data = b""
    while not re.search(rb"#..\Z", data, re.S):
        part = connection.recv(65536)
        if not part:
            break
        data += part
    return data.lstrip(b"+")[1:-3].decode()


def test_port_serves_one_debugger(server, rvlook):
    process, port = server()
    with socket.create_connection(("localhost", port)) as first:
        assert asked_at(first, "QStartNoAckMode") == "OK"
        with socket.create_connection(("localhost", port)) as second:
            assert second.recv(1) == b""
        assert process.stderr.readline().decode() == "rvlook: warning: rejected a second connection to the port\n"
        assert asked_at(first, "vCont;s:1")[:3] == "T05"
        numbers = children_of(process.pid)
        done = rvlook("gdb", "--port", port, *MONITOR, IMAGE)
        assert done.returncode == 2
        assert re.fullmatch("rvlook: error: cannot listen on port %d: Address already in use[^\n]*\n" % port, done.stderr), done.stderr
    check_end(process, numbers, 0, GONE)
    with pytest.raises(ConnectionRefusedError):
        socket.create_connection(("localhost", port))


def test_number_that_is_no_port_is_refused(rvlook):
    done = rvlook("gdb", "--port", "99999", *MONITOR, IMAGE)
    assert done.returncode == 2 and re.fullmatch("rvlook: error: cannot listen on port 99999: [^\n]*\n", done.stderr), done.stderr


def test_interrupt_before_a_debugger_comes_ends_the_server(server):
    process, _ = server()
    process.send_signal(signal.SIGINT)
    assert (process.wait(HANG), process.stderr.read().decode()) == (130, "rvlook: error: interrupted\n")


def test_terminal_gets_the_command_for_a_debugger(environment):
    ours, theirs = pty.openpty()
    done = subprocess.run([RVLOOK, "gdb", *MONITOR, IMAGE], cwd=ROOT, env=environment, stdin=theirs, capture_output=True, text=True, check=False)
    os.close(ours)
    os.close(theirs)
    assert (done.returncode, done.stderr) == (2, "rvlook: error: standard input is a terminal, not a debugger; run gdb-multiarch %s "
                                              "-ex 'target remote | ./rvlook gdb --monitor %s', or use --port N\n" % (IMAGE, IMAGE))


@pytest.mark.parametrize("words, before", [
    (MONITOR, ()), ((*MONITOR, "--harts", "2"), ()), (MONITOR, ("Z2,80020000,4",)), (MONITOR, ("qRcmd," + b"catch trap".hex(),))],
    ids=["one hart", "two harts", "watchpoint", "catchpoint"])
def test_interrupt_halts_soon(debugger, endless, words, before):
    """The processor time of the server and of rvbench counts, since the machine may be busy, and the best of three times."""
    with debugger(endless, words) as client:
        for text in before:
            client.ask(text)
        pid, times = client.process.pid, []
        processes = [pid, *children_of(pid)]
        for _ in range(3):
            client.give(packet("vCont;c"))
            time.sleep(0.3)
            began = sum(map(processor_time_of, processes))
            client.give(b"\x03")
            answer = client.answer()
            times.append(sum(map(processor_time_of, processes)) - began)
            assert answer[:3] == "T02"
    assert min(times) < SOON
