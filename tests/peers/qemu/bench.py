"""The bench side: `rvbench run` over a pipe, one hart without the monitor."""
from __future__ import annotations

import re
import subprocess
from dataclasses import dataclass
from typing import Optional

from .registers import COMPARED, M, NUMBERS, RAM_BYTES, S, State, U

MODES = {"U": U, "S": S, "M": M}
RAN = re.compile(r"ran \d+ pc=([0-9a-f]{8}) mode=([USM]) world=\w+ why=done trap=(?:-|([0-9a-f]{8}):([0-9a-f]{8}))$")
SHOW = ["regs", *("csr %x" % NUMBERS[name] for name in COMPARED)]
SHOWN = 33 + len(COMPARED)


@dataclass(frozen=True)
class Trap:
    """The cause and the value of a trap, as a step reports them."""

    cause: int
    value: int


class Bench:
    """A run of the program. `mode` and `trap` are those of the last step."""

    def __init__(self, program: str):
        words = [program, "run", "--ram", str(RAM_BYTES)]
        self.process = subprocess.Popen(words, stdin=subprocess.PIPE, stdout=subprocess.PIPE, text=True, bufsize=1 << 16)
        self.mode, self.trap = M, None  # type: int, Optional[Trap]
        assert self.process.stdin and self.process.stdout
        self.input, self.output = self.process.stdin, self.process.stdout
        self.input.write("--\n")

    def close(self) -> None:
        """Ends the program."""
        self.process.kill()
        self.process.wait()
        self.input.close()
        self.output.close()

    def ask(self, lines: list[str], replies: int) -> list[str]:
        """Sends lines, and returns this number of reply lines."""
        self.input.write("\n".join(lines) + "\n")
        self.input.flush()
        found = [self.output.readline().rstrip("\n") for _ in range(replies)]
        if not all(found):
            raise RuntimeError("the program ended at %s" % lines)
        return found

    def prepare(self, lines: list[str]) -> None:
        """Sends commands whose reply is `ok`."""
        if lines and set(self.ask(lines, len(lines))) != {"ok"}:
            raise RuntimeError("the program refuses one of %s" % lines)

    def write_words(self, address: int, words: list[int]) -> None:
        """Writes words to memory, little-endian."""
        data = b"".join(word.to_bytes(4, "little") for word in words)
        self.prepare(["poke %x %x" % (address + at, byte) for at, byte in enumerate(data)])

    def step(self, count: int = 1) -> State:
        """Makes steps, and returns the state after them."""
        head, *shown = self.ask(["step %d" % count, *SHOW], 1 + SHOWN)
        found = RAN.fullmatch(head)
        if not found:
            raise RuntimeError("unknown reply '%s'" % head)
        self.mode = MODES[found[2]]
        self.trap = Trap(int(found[3], 16), int(found[4], 16)) if found[3] else None
        return self._state(shown)

    def state(self) -> State:
        """Returns the present state."""
        return self._state(self.ask(SHOW, SHOWN))

    def read(self, name: str) -> int:
        """Returns the value of a control and status register."""
        return int(self.ask(["csr %x" % NUMBERS[name]], 1)[0].partition("=")[2], 16)

    def _state(self, shown: list[str]) -> State:
        wrong = [it for it in shown if "=" not in it]
        if wrong:
            raise RuntimeError("the program does not show a register: %s" % wrong[0])
        values = [int(it.partition("=")[2], 16) for it in shown]
        state = {"x%d" % number: values[number] for number in range(1, 32)}
        return {**state, "pc": values[32], **dict(zip(COMPARED, values[33:])), "mode": self.mode}

    def read_memory(self, address: int, count: int) -> bytes:
        """Returns bytes of memory."""
        ends = range(address, address + count, 64)
        lines = self.ask(["mem %x %d" % (at, min(64, address + count - at)) for at in ends], len(ends))
        return b"".join(bytes.fromhex(it.partition(":")[2].replace(" ", "")) for it in lines)
