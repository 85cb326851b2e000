"""The bench, driven over a pipe by the commands of docs/COMMANDS.md.

Lines are written while replies are read, so that neither pipe fills up and stops the other; a long list of commands costs one round
trip, not one for each."""
from __future__ import annotations

import fcntl
import os
import select
import shutil
import signal
import subprocess
import sys
import time
from functools import lru_cache
from typing import IO, Sequence, TypeVar

from rvlook.protocol.bench_line import ended, has_reply, is_malformed, tokens_of
from rvlook.protocol.replies import bytes_of, memory_commands, value_of
from rvlook.errors import BenchEnded, RvlookError, Unfinished

# The script that finds or builds the program, if this package is in a clone of the repository.
FINDER = os.path.join(os.path.dirname(os.path.abspath(__file__)), "..", "..", "..", "tools", "program")
# The program of an installation by ./install, which has this package in lib/rvbench/python.
INSTALLED = os.path.join(os.path.dirname(os.path.abspath(__file__)), "..", "..", "..", "rvbench")
PIPE_SIZE = 1 << 20
SET_PIPE_SIZE = 1031  # F_SETPIPE_SZ of Linux
MIN_LINES_TO_PAUSE = 20  # lines of reply that are worth a pause, so that they are read together
SECONDS_PER_LINE, MAX_PAUSE = 2e-6, 0.001  # seconds in which the program writes a line, and the longest pause
COUNTS = {"regs": 33, "pmp": 16}  # lines of reply of a command; 1 for the others, except for `sched` and `enclaves`
MARK = "reg 0"  # sent after `enclaves`, whose reply may have no line
MARK_REPLY = b"x0=00000000"
Own = TypeVar("Own", bound="Closing")


@lru_cache(maxsize=None)
def program_path() -> str:
    """Returns the path of the program: the one that RVBENCH names, or the one that ./rvbench runs."""
    path = os.environ.get("RVBENCH") or installed_program()
    if path and not os.path.exists(path):
        raise RvlookError("RVBENCH: no program at '%s'" % path)
    return path or built_program()


def installed_program() -> str | None:
    """Returns the path of the program that is installed with this package, or of `rvbench` on the PATH. None if this package is in a clone of the
    repository, or if there is no program."""
    if os.path.exists(FINDER):
        return None
    return INSTALLED if os.path.isfile(INSTALLED) and os.access(INSTALLED, os.X_OK) else shutil.which("rvbench")


def built_program() -> str:
    """Returns the path of the program that ./prove has built, or builds one without proof. Ends the build on SIGTERM and Ctrl-C. Raises Unfinished
    if the program cannot be found or built."""
    if not os.path.exists(FINDER):
        raise Unfinished("cannot find rvbench; add it to PATH, or set RVBENCH to its path")
    with subprocess.Popen([FINDER, "rvlook"], stdin=subprocess.DEVNULL, stdout=subprocess.PIPE, text=True) as building:
        old = signal.signal(signal.SIGTERM, lambda *_: sys.exit(128 + signal.SIGTERM))
        try:
            path = building.communicate()[0]
        except BaseException:
            building.terminate()
            raise
        finally:
            signal.signal(signal.SIGTERM, old)
    if building.returncode:
        raise Unfinished("cannot build rvbench; build it with ./prove, or set RVBENCH to its path")
    return path.rstrip("\n")


def is_enclaves(command: str) -> bool:
    """Returns whether a command is a valid `enclaves`, whose reply has a line for each enclave and may have none."""
    return "enclaves" in command and tokens_of(command)[0] == "enclaves" and not is_malformed(command)


def widen(*pipes: IO[bytes]) -> None:
    """Makes the buffers of pipes larger if the system can, so that each read or write transfers more."""
    for pipe in pipes:
        try:
            fcntl.fcntl(pipe.fileno(), SET_PIPE_SIZE, PIPE_SIZE)
        except OSError:
            pass


class Closing:
    """A resource that a `with` closes at its end."""

    def __enter__(self: Own) -> Own:
        return self

    def __exit__(self, *_: object) -> None:
        self.close()

    def close(self) -> None:
        """Releases what the resource holds."""


class Bench(Closing):
    """One process of the bench. `arguments` are its arguments, `image` the text of the image."""

    def __init__(self, arguments: Sequence[str], image: bytes, harts: int = 1) -> None:
        path = program_path()
        try:
            self.process = subprocess.Popen([path, *arguments], stdin=subprocess.PIPE, stdout=subprocess.PIPE, bufsize=0, start_new_session=True)
        except OSError as error:
            raise Unfinished("cannot run '%s': %s" % (path, error.strerror)) from None
        assert self.process.stdin and self.process.stdout
        self.stdin, self.stdout = self.process.stdin, self.process.stdout  # the pipes of the process
        os.set_blocking(self.stdin.fileno(), False)
        widen(self.stdin, self.stdout)
        self.harts = harts  # number of harts
        self.pending = memoryview(b"")  # input that is not written yet
        self.parts: list[bytes] = []  # bytes of replies that were read, but that no caller has got yet
        self.lines: list[bytes] = []  # complete lines that were read, the next one last
        self.send(image + b"--\n")

    def close(self) -> None:
        """Ends the program."""
        for pipe in (self.stdin, self.stdout):
            try:
                pipe.close()
            except OSError:
                pass
        if self.process.poll() is None:
            self.process.kill()
        self.process.wait()

    def send(self, text: bytes) -> None:
        """Queues input for the program; it is written while replies are read."""
        self.pending = memoryview(bytes(self.pending) + text)

    def transfer(self) -> bytes:
        """Writes what can be written, and reads what can be read; waits for either."""
        reading, writing = self.stdout.fileno(), self.stdin.fileno()
        readable, writable, _ = select.select([reading], [writing] if self.pending else [], [])
        if writable:
            try:
                self.pending = self.pending[os.write(writing, self.pending[:PIPE_SIZE]):]
            except BlockingIOError:
                pass
            except BrokenPipeError:
                self.pending = memoryview(b"")
        if not readable:
            return b""
        data = os.read(reading, 1 << 20)
        if not data:
            raise BenchEnded(self.last_words())
        return data

    def last_words(self) -> str:
        """Returns the last error message of the program, which has closed its output; its exit status if it has written no message."""
        lines = b"".join(self.parts).decode("ascii", "replace").splitlines()
        self.process.wait()
        faults = [line for line in lines if line.startswith("rvbench: ")]
        return faults[-1] if faults else "rvbench exited with status %d" % self.process.returncode

    def block(self, text: bytes, count: int) -> bytes:
        """Sends commands whose replies have `count` lines; returns the replies."""
        self.send(text)
        lines_read = sum(data.count(b"\n") for data in self.parts)
        while lines_read < count:
            data = self.transfer()
            self.parts.append(data)
            lines_read += data.count(b"\n")
            if count - lines_read > MIN_LINES_TO_PAUSE and not self.pending:
                time.sleep(min(MAX_PAUSE, (count - lines_read) * SECONDS_PER_LINE))
        block, self.parts = b"".join(self.parts), []
        return block

    def replies_to(self, commands: Sequence[str]) -> list[bytes]:
        """Sends commands whose replies have one line each; returns these lines."""
        return self.block(("\n".join(commands) + "\n").encode(), len(commands)).splitlines() if commands else []

    def line(self) -> bytes:
        """Returns the next line of the replies."""
        while not self.lines:
            self.parts.append(self.transfer())
            if self.parts[-1].endswith(b"\n"):
                self.lines = b"".join(self.parts).splitlines()[::-1]
                self.parts = []
        line = self.lines.pop()
        if line.startswith(b"rvbench: "):
            raise BenchEnded(line.decode("ascii", "replace"))
        return line

    def reply(self, command: str) -> list[bytes]:
        """Reads the reply to one command that was sent; returns its lines, none for a comment."""
        if not has_reply(command):
            return []
        if is_enclaves(command):
            return list(iter(self.line, MARK_REPLY))
        first = self.line()
        if first.startswith(b"error "):
            return [first]
        name = tokens_of(command)[0]
        count = self.harts if name == "sched" else COUNTS.get(name, 1)
        return [first] + [self.line() for _ in range(count - 1)]

    def ask(self, *commands: str) -> list[list[str]]:
        """Sends commands; returns for each one the lines of its reply."""
        self.queue(*commands)
        return self.read_replies(*commands)

    def queue(self, *commands: str) -> None:
        """Queues commands whose replies `read_replies` will read. Raises RvlookError for a command of more than one line."""
        if any("\n" in command for command in commands):
            raise RvlookError("a command must be a single line")
        text = "".join(ended(command) + (MARK + "\n" if is_enclaves(command) else "") for command in commands)
        self.send(text.encode("latin-1", "replace"))

    def begin(self, *commands: str) -> None:
        """Sends commands now whose replies `read_replies` will read."""
        self.queue(*commands)
        try:
            self.pending = self.pending[os.write(self.stdin.fileno(), self.pending[:PIPE_SIZE]):]
        except (BlockingIOError, BrokenPipeError):
            pass

    def read_replies(self, *commands: str) -> list[list[str]]:
        """Returns the replies to commands that were sent."""
        return [[line.decode("latin-1") for line in self.reply(command)] for command in commands]

    def one(self, command: str) -> str:
        """Sends a command; returns the one line of its reply."""
        return self.ask(command)[0][0]

    def register(self, number: int) -> int:
        """Returns the value of a register of the selected hart."""
        return value_of(self.one("reg %d" % number))

    def memory(self, address: int, size: int) -> bytes:
        """Returns bytes of memory, which must be in RAM."""
        return b"".join(bytes_of(reply.decode()) for reply in self.replies_to(memory_commands(address, size)))
