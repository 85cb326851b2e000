"""A client of gdb's remote serial protocol over a Unix socket (gdb manual, appendix E). It never waits longer than its time limit."""
from __future__ import annotations

import re
import socket
import subprocess
import time
from pathlib import Path
from typing import Iterable

from support.limits import HANG

PACKET = re.compile(rb"\$([^#]*)#[0-9a-f]{2}")
PART = 65536
# The most packets that are sent ahead of their answers.
AHEAD = 100


class RemoteError(Exception):
    """The server refused a packet, closed the connection, or did not answer within the time limit."""


class Remote:
    """A connection to a gdb server, a process that has been started. The server needs no acknowledgements, so that packets can be sent ahead of their
    answers."""

    def __init__(self, path: Path, server: subprocess.Popen[str], seconds: float = HANG):
        self.socket = _connect(path, server, time.monotonic() + seconds)
        self.socket.settimeout(seconds)
        self.unread = b""

    def close(self) -> None:
        """Closes the connection."""
        self.socket.close()

    def ask_all(self, packets: Iterable[str]) -> list[str]:
        """Sends packets, some at once, and returns their answers, in order."""
        texts = [it.encode("ascii") for it in packets]
        answers: list[str] = []
        for at in range(0, len(texts), AHEAD):
            some = texts[at:at + AHEAD]
            self.socket.sendall(b"".join(b"$%s#%02x" % (it, sum(it) % 256) for it in some))
            answers += [self._receive() for _ in some]
        return answers

    def ask(self, packet: str) -> str:
        """Sends a packet and returns its answer."""
        return self.ask_all([packet])[0]

    def order(self, packets: Iterable[str]) -> None:
        """Sends packets whose answer must be OK; raises `RemoteError` for any other answer."""
        sent = list(packets)
        for packet, answer in zip(sent, self.ask_all(sent)):
            if answer != "OK":
                raise RemoteError("the server answers '%s' to '%s'" % (answer, packet))

    def read_file(self, name: str) -> str:
        """Returns a file of the target's description, such as `target.xml`."""
        text, is_last = "", False
        while not is_last:
            answer = self.ask("qXfer:features:read:%s:%x,f00" % (name, len(text)))
            if answer[:1] not in ("l", "m"):
                raise RemoteError("the server has no file '%s'" % name)
            text, is_last = text + answer[1:], answer[0] == "l"
        return text

    def _receive(self) -> str:
        found = PACKET.search(self.unread)
        while not found:
            try:
                part = self.socket.recv(PART)
            except OSError as error:
                raise RemoteError("the server does not answer: %s" % error) from error
            if not part:
                raise RemoteError("the server has closed the connection")
            self.unread += part
            found = PACKET.search(self.unread)
        self.unread = self.unread[found.end():]
        return found[1].decode("ascii")


def _connect(path: Path, server: subprocess.Popen[str], end: float) -> socket.socket:
    """Connects to a server that may not have begun to listen. Raises RemoteError if it has ended."""
    while True:
        made = socket.socket(socket.AF_UNIX)
        try:
            made.connect(str(path))
            return made
        except OSError as error:
            made.close()
            if server.poll() is not None or time.monotonic() > end:
                raise RemoteError("cannot connect to %s: %s" % (path, error)) from error
            time.sleep(0.005)
