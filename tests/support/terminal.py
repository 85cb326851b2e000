"""Runs a program on a terminal of its own, for interactive tests."""
import os
import pty
import re
import select
import signal
import subprocess
import termios
import time

from support.limits import HANG

AGAIN = 1  # seconds after which Ctrl-D is sent again
CODES = re.compile(r"\x1b\[[0-9;?]*[a-zA-Z]|\r")  # colours, cursor moves


class Terminal:
    """Starts a command on a new terminal."""

    def __init__(self, command, cwd, kind, **environment):
        self.master, self.slave = pty.openpty()
        self.before, self.seen = termios.tcgetattr(self.slave), ""
        self.process = subprocess.Popen(command, cwd=cwd, stdin=self.slave, stdout=self.slave, stderr=self.slave,
                                        env={**os.environ, "TERM": kind, **environment}, preexec_fn=self.control)

    def control(self):
        """Makes the terminal the controlling one, so that Ctrl-C reaches the program even if the caller ignores it."""
        signal.signal(signal.SIGINT, signal.SIG_DFL)
        os.setsid()
        os.close(os.open(os.ttyname(self.slave), os.O_RDWR))

    def read(self, seconds=0.1):
        """Reads what the program has written, without codes; returns whether there was anything."""
        if not select.select([self.master], [], [], seconds)[0]:
            return False
        self.seen += CODES.sub("", os.read(self.master, 65536).decode("utf-8", "replace"))
        return True

    def shows(self, text):
        """Returns whether a text is shown before the program ends; discards the output before it."""
        end = time.monotonic() + HANG
        while text not in self.seen and time.monotonic() < end:
            has_ended = self.process.poll() is not None
            if not self.read() and has_ended:
                break
        _, found, self.seen = self.seen.partition(text)
        return bool(found)

    def send(self, text):
        os.write(self.master, text.encode())

    def wait(self):
        """Waits for the end of the program."""
        end = time.monotonic() + HANG
        while self.process.poll() is None and time.monotonic() < end:
            self.read()

    def end(self):
        """Returns the status, and whether the settings of the terminal are as before. Sends Ctrl-D again if it came before the prompt."""
        end, sent = time.monotonic() + HANG, time.monotonic()
        while self.process.poll() is None and time.monotonic() < end:
            self.read()
            if time.monotonic() > sent + AGAIN:
                self.send("\x04")
                sent = time.monotonic()
        status = self.process.poll()
        if status is None:
            self.process.kill()
            self.process.wait()
        is_same = termios.tcgetattr(self.slave) == self.before
        os.close(self.slave)
        try:
            while self.read(0):
                pass
        except OSError:  # the other end is closed
            pass
        os.close(self.master)
        return status, is_same
