"""Packets of the GDB remote serial protocol, over two file descriptors. Their bytes are kept in strings, as latin-1."""
from __future__ import annotations

import contextlib
import os
import re
import select
import signal
import threading
import time
from typing import Any, Iterator, NoReturn

PACKET = re.compile(rb"\$([^#$]*)#(..)", re.S)  # a dollar sign in a packet begins another one
LONGEST_PACKET = 1 << 16  # bytes of a packet; what is announced to a debugger is less
NUMBER = re.compile(r"[0-9a-fA-F]{1,16}\Z")
ESCAPED = re.compile(r"[#$}*]")
INTERRUPT = b"\x03"
BEFORE_PACKET = re.compile(rb"[+\-\x03]*")  # acknowledgements and Ctrl-C
HUNG_UP = select.POLLHUP | select.POLLERR | getattr(select, "POLLRDHUP", 0)
SECONDS_BETWEEN_CHECKS = 0.2  # seconds between two checks whether the debugger has disconnected
SECONDS_TO_DOT = 2  # seconds after which a waiting debugger gets a sign of life; lldb waits five for a reply


class Gone(Exception):
    """Raised if the debugger has closed the connection."""


class Link:
    """The connection with the debugger. It receives packets, Ctrl-C, and acknowledgements, which are ignored."""

    def __init__(self, reading: int, writing: int) -> None:
        # `reading`, `writing`: file descriptors; `buffer`: received bytes; `acknowledged`: whether packets are acknowledged
        self.reading, self.writing, self.buffer, self.acknowledged = reading, writing, b"", True
        self.kept_open: Any = None  # the socket, which must not be closed while its descriptor is used; None for the standard streams

    def fill(self) -> None:
        """Reads what the debugger has sent into the buffer; waits for at least one byte. Raises Gone if the connection has ended."""
        try:
            data = os.read(self.reading, 65536)
        except ConnectionError:
            data = b""
        if not data:
            raise Gone
        self.buffer += data

    def packet(self) -> str:
        """Waits for the next packet; returns its text. As long as packets are acknowledged, asks for a packet with a wrong checksum again."""
        while True:
            match = PACKET.search(self.buffer)
            if not match:
                self.drop()
                self.fill()
                continue
            self.buffer = self.buffer[match.end():]
            is_right = not self.acknowledged or match[2].lower() == b"%02x" % (sum(match[1]) & 0xFF)
            if self.acknowledged:
                self.write(b"+" if is_right else b"-")
            if is_right:
                return match[1].decode("latin-1")

    def drop(self) -> None:
        """Removes from the buffer the bytes before the last start of a packet, and a packet that is too long."""
        start = self.buffer.rfind(b"$")
        self.buffer = self.buffer[start:] if start >= 0 else b""
        if len(self.buffer) > LONGEST_PACKET:
            self.buffer = b""
            if self.acknowledged:
                self.write(b"-")

    def interrupted(self) -> bool:
        """Returns whether Ctrl-C came. It is called while the harts run, when the debugger sends no packet."""
        if len(self.buffer) < LONGEST_PACKET and select.select([self.reading], [], [], 0)[0]:
            self.fill()
        leading = BEFORE_PACKET.match(self.buffer)
        assert leading
        self.buffer = self.buffer[leading.end():]
        return INTERRUPT in leading[0]

    @contextlib.contextmanager
    def watched(self, is_impatient: bool = False) -> Iterator[None]:
        """Raises Gone in the body of the `with` if the connection ends. If `is_impatient`, shows a dot every SECONDS_TO_DOT to the debugger."""
        def raise_gone(*_: object) -> NoReturn:
            """Raises Gone."""
            raise Gone

        old_handler, is_over = signal.signal(signal.SIGUSR1, raise_gone), threading.Event()
        watcher = threading.Thread(target=self.watch, args=(is_over, is_impatient), daemon=True)
        watcher.start()
        try:
            yield
        finally:
            is_over.set()
            watcher.join()
            signal.signal(signal.SIGUSR1, old_handler)

    def watch(self, is_over: threading.Event, is_impatient: bool) -> None:
        """Sends a signal to the main thread if the debugger closes the connection before `is_over` is set."""
        poll, last_shown = select.poll(), time.monotonic()
        poll.register(self.reading, HUNG_UP)
        while not is_over.wait(SECONDS_BETWEEN_CHECKS):
            if any(event & HUNG_UP for _, event in poll.poll(0)):
                main = threading.main_thread().ident
                assert main is not None
                signal.pthread_kill(main, signal.SIGUSR1)
                return
            if is_impatient and time.monotonic() > last_shown + SECONDS_TO_DOT:
                self.send("O" + hex_of("."))
                last_shown = time.monotonic()

    def send(self, text: str) -> None:
        """Sends a packet."""
        data = text.encode("latin-1", "replace")
        self.write(b"$%s#%02x" % (data, sum(data) & 0xFF))

    def show(self, line: str) -> None:
        """Makes the debugger show a line while the harts run."""
        self.send("O" + hex_of(line + "\n"))

    def write(self, data: bytes) -> None:
        """Writes all bytes; raises Gone if the connection ended."""
        try:
            while data:
                data = data[os.write(self.writing, data):]
        except ConnectionError:
            raise Gone from None


def escaped(text: str) -> str:
    """Escapes a text as binary data of the protocol."""
    return ESCAPED.sub(lambda match: "}" + chr(ord(match[0]) ^ 0x20), text)


def unescaped(text: str) -> bytes:
    """Reverts `escaped`; returns bytes."""
    return re.sub(r"\}(.)", lambda match: chr(ord(match[1]) ^ 0x20), text, flags=re.S).encode("latin-1")


def hex_of(text: str) -> str:
    """Returns a text that the debugger shows as the protocol has it: the hexadecimal digits of its UTF-8 bytes."""
    return text.encode("utf-8", "replace").hex()


def number_of(text: str) -> int:
    """Returns a hexadecimal number of the protocol. Raises ValueError for another text, also for signs, blanks and `0x`, which `int` accepts."""
    if not NUMBER.match(text):
        raise ValueError(text)
    return int(text, 16)


def little(word: str) -> str:
    """Converts eight hexadecimal digits between big and little endian."""
    return word[6:8] + word[4:6] + word[2:4] + word[0:2]
