"""A client of the GDB remote serial protocol, for the tests of `rvlook gdb`."""
import re
import subprocess
import threading

from support.limits import HANG
from support.packets import packet

PC = 32  # the number of pc among the registers


class Client:
    """Starts a server on its standard streams. `console` is the output that the server sent since it was last cleared."""

    def __init__(self, command, cwd, environment, **more):
        self.process = subprocess.Popen([str(it) for it in command], cwd=cwd, env=environment, stdin=subprocess.PIPE, stdout=subprocess.PIPE,
                                        **more)
        self.clock = threading.Timer(HANG, self.process.kill)
        self.clock.start()
        self.console = ""
        assert self.ask("QStartNoAckMode") == "OK"

    def __enter__(self):
        return self

    def __exit__(self, kind, *_):
        if kind is None and self.process.returncode is None and not self.process.stdin.closed:
            self.end()
        self.clock.cancel()
        if self.process.poll() is None:
            self.process.kill()
            self.process.wait()
        for stream in (self.process.stdin, self.process.stdout, self.process.stderr):
            if stream:
                stream.close()

    def give(self, data):
        self.process.stdin.write(data)
        self.process.stdin.flush()

    def answer(self):
        """Returns the next reply; output before it goes to `console`."""
        while True:
            text = b""
            while not text.endswith(b"#"):
                byte = self.process.stdout.read(1)
                if not byte:
                    raise EOFError
                text += byte
            checksum = self.process.stdout.read(2)
            text = text.lstrip(b"+")[1:-1]
            assert int(checksum, 16) == sum(text) & 0xFF, text
            if not text.startswith(b"O") or text == b"OK":
                return text.decode("latin-1")
            self.console += bytes.fromhex(text[1:].decode()).decode("latin-1")

    def ask(self, text):
        """Returns the reply to a packet."""
        self.give(packet(text))
        return self.answer()

    def monitor(self, line):
        """Returns the output of a line of `monitor`."""
        self.console = ""
        assert self.ask("qRcmd," + line.encode().hex()) == "OK", line
        return self.console

    def halt(self, text):
        """Returns where a packet halts: the reason, and the registers and pc as `regs` prints them."""
        self.console = ""
        answer = self.ask(text)
        values = dict(re.findall(r"\b([0-9a-f]{2}):([0-9a-f]{8});", answer))
        shown = [bytes.fromhex(values["%02x" % number])[::-1].hex() for number in range(PC + 1)]
        reason = re.search(r"(r?a?watch|replaylog):\w+", answer)
        return (reason[0] if reason else ""), ["x%d=%s" % it for it in enumerate(shown[:PC])] + ["pc=" + shown[PC]]

    def signal(self, text):
        """Returns the signal with which a packet halts."""
        self.console = ""
        return int(self.ask(text)[1:3], 16)

    def end(self):
        """Detaches; the server ends with status 0."""
        self.ask("D")
        self.process.stdin.close()
        self.process.stdout.close()
        assert self.process.wait(HANG) == 0


def states_of(replies, image, words, count):
    """Returns the output of `regs` at reset, and after each of this many steps of hart 0."""
    lines = [it for it in replies(image, words, ["regs", *["step 1", "hart 0", "regs"] * count]) if "=" in it[:4]]
    return [lines[33 * number:33 * number + 33] for number in range(count + 1)]
