"""When rvbench writes: a reply to each complete line before it waits for input, and many replies in one call if the lines were read ahead."""
import os
import select
import socket
import subprocess
import time

import pytest

from support.limits import HANG

IMAGE = b"9300f0ff\n9300f0ff\n--\n"
REPLY = b"ran 1 pc=%08x mode=M world=bare why=done trap=-\n"
HOST = b"7300000073000000\n--\nsetreg 17 0a454e43\nsetreg 16 1\nsetreg 10 80020000\nsetreg 11 1000\nsetreg 14 80020000\nstep 1\n"
CREATED = 5 * b"ok\n" + b"ran 1 pc=80010004 mode=S world=host why=done trap=00000009:00000000\n"
LINES = 20000  # more than the program reads ahead


@pytest.fixture
def talk(bench):
    """Starts the program; returns the functions that send bytes and return the output of some length, and that end the input."""
    started = []

    def start(*words):
        program = subprocess.Popen([bench, *words], stdin=subprocess.PIPE, stdout=subprocess.PIPE, bufsize=0)
        started.append(program)

        def send(data, expected):
            program.stdin.write(data)
            found, end = b"", time.monotonic() + HANG
            while len(found) < len(expected) and time.monotonic() < end:
                if select.select([program.stdout], [], [], 0.1)[0]:
                    found += os.read(program.stdout.fileno(), 65536)
            assert found == expected

        def finish(expected):
            program.stdin.close()
            assert (program.stdout.read(), program.wait(timeout=HANG)) == (expected, 0)
        return send, finish

    yield start
    for program in started:
        program.kill()
        program.wait()


def test_each_line_has_its_reply_before_the_program_waits(talk):
    send, finish = talk("run")
    send(IMAGE + b"step 1\n", REPLY % 0x80000004)
    send(b"reg 1\nreg 2\n", b"x1=ffffffff\nx2=00000000\n")
    finish(b"")


def test_lines_before_an_unfinished_one_have_their_replies(talk):
    send, finish = talk("run")
    send(IMAGE + b"reg 0\nreg 1\nste", b"x0=00000000\nx1=00000000\n")
    send(b"p 1\n", REPLY % 0x80000004)
    send(b"reg 1", b"")
    finish(b"x1=ffffffff\n")


def test_the_first_script_of_a_twin_run_has_its_replies_before_the_second(talk):
    send, finish = talk("twin", "--ram", "196608", "--slot", "0")
    send(HOST + b"--\n", CREATED)
    send(b"mem 80020000 1\nreg 0\n", b"error blind\na: x0=00000000\nb: x0=00000000\n")
    finish(b"twin end 1\n")


def test_replies_to_lines_that_were_read_ahead_are_written_together(bench, tmp_path):
    """Each write of the program is one packet of the socket."""
    (tmp_path / "input").write_bytes(IMAGE + LINES * b"reg 0\n")
    receiver, sender = socket.socketpair(socket.AF_UNIX, socket.SOCK_SEQPACKET)
    with receiver, open(tmp_path / "input", "rb") as data, subprocess.Popen([bench, "run"], stdin=data, stdout=sender):
        sender.close()
        receiver.settimeout(HANG)
        packets = list(iter(lambda: receiver.recv(1 << 20), b""))
    assert b"".join(packets) == LINES * b"x0=00000000\n"
    assert len(packets) < LINES // 100
