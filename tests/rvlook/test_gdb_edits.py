"""Writes in `rvlook gdb`: a write is replayed at its step, and discarded after another write before it; and random moves."""
import random
import re

from conftest import EXAMPLES

BUG, TWO = EXAMPLES / "enclaves" / "bug" / "image", EXAMPLES / "enclaves" / "two_harts" / "image"
MONITOR, HARTS = ("--monitor",), ("--monitor", "--harts", "2")
INSIDE = "800200f8"  # the loop of the application of BUG
MOVES, MOST = 120, 200  # moves at random; steps until a breakpoint
PACKETS = {"step": "vCont;s:1", "continue": "vCont;c", "back": "bs", "reverse": "bc"}


def test_edit_is_replayed_at_its_step(debugger):
    with debugger(TWO, HARTS) as client:
        for packet in ("vCont;s:1", "vCont;s:1", "M80040000,1:ab", "P5=78563412", "vCont;s:1", "vCont;s:1", "bs", "bs"):
            client.ask(packet)
        assert (client.ask("m80040000,1"), client.ask("p5")) == ("ab", "78563412"), "at its step"
        client.ask("bs")
        assert (client.ask("m80040000,1"), client.ask("p5")) == ("00", "00000000"), "before its step"
        client.ask("vCont;s:1")
        assert (client.ask("m80040000,1"), client.ask("p5")) == ("ab", "78563412"), "at its step again"
        client.ask("bc")
        client.ask("Z0,80010014,4")
        client.ask("vCont;c")
        assert client.ask("m80040000,1") == "ab", "on the way on"


def test_edit_is_forgotten_after_another_one_before_it(debugger):
    with debugger(TWO, HARTS) as client:
        for packet in ("vCont;s:1", "vCont;s:1", "M80040000,1:ab", "bc", "Z0,80010014,4", "bc", "M80040001,1:cd"):
            client.ask(packet)
        client.console = ""
        client.ask("vCont;s:1")
        assert client.console == "[the history after step 0 is discarded]\n"
        client.ask("vCont;c")
        assert client.ask("m80040000,2") == "00cd"


class History:
    """The typed commands as lines of a script: `done` up to the current step, `future` after it."""

    def __init__(self, replies):
        self.replies, self.done, self.future = replies, [], []

    def state(self):
        """Returns the output of `regs` after `done`."""
        return self.replies(BUG, MONITOR, [*self.done, "regs"])[-33:]

    def places(self):
        """The pc after each step of `done`."""
        return re.findall(r"^ran 1 pc=(\w+)", "\n".join(self.replies(BUG, MONITOR, self.done)), re.M)

    def go_on(self):
        """Steps on to INSIDE; returns False, at the step where it was, if it is not met within MOST steps."""
        first = self.done.count("step 1")
        for _ in range(MOST):
            self.step()
        found = [number for number, it in enumerate(self.places()[first:]) if it == INSIDE]
        for _ in range(MOST - 1 - found[0] if found else MOST):
            self.back()
        return bool(found)

    def go_back(self):
        """Steps back to INSIDE, or to reset."""
        found = [number for number, it in enumerate(self.places()[:-1], 1) if it == INSIDE]
        for _ in range(self.done.count("step 1") - (found[-1] if found else 0)):
            self.back()

    def step(self):
        """One step on, with what was written after it."""
        following = self.future[1:]
        self.done.append("step 1")
        count = next((number for number, line in enumerate(following) if line == "step 1"), len(following))
        self.done, self.future = self.done + following[:count], following[count:]

    def back(self):
        """One step back, to after what was written there; nothing at reset."""
        if "step 1" in self.done:
            last = len(self.done) - 1 - self.done[::-1].index("step 1")
            self.done, self.future = self.done[:last], self.done[last:] + self.future

    def write(self, line):
        self.done, self.future = [*self.done, line], []


def wrote(client, history, chance):
    """Writes a byte or a register, in both."""
    if chance.random() < 0.5:
        at, value = 0x80030000 + chance.randrange(8), chance.randrange(256)
        client.ask("M%x,1:%02x" % (at, value))
        history.write("poke %x %02x" % (at, value))
    else:
        register, value = chance.choice((28, 29, 30)), chance.randrange(1 << 32)
        client.ask("P%x=%s" % (register, value.to_bytes(4, "little").hex()))
        history.write("setreg %d %x" % (register, value))
    data = bytes.fromhex(client.ask("g"))
    return ["x%d=%s" % (number, data[4 * number:4 * number + 4][::-1].hex()) for number in range(32)]


def moved(client, history, what):
    """Moves both; returns the registers of the client, or None if there is no breakpoint to continue to."""
    if what == "continue" and not history.go_on():
        return None
    {"step": history.step, "back": history.back, "reverse": history.go_back, "continue": lambda: None}[what]()
    return client.halt(PACKETS[what])[1]


def test_moves_and_writes_at_random_have_the_state_of_their_script(debugger, replies):
    chance, history = random.Random(1), History(replies)
    with debugger(BUG, MONITOR) as client:
        assert client.ask("Z0,%s,4" % INSIDE) == "OK"
        for number in range(MOVES):
            what = chance.choice(("step", "step", "step", "back", "back", "continue", "continue", "reverse", "write", "write"))
            found = wrote(client, history, chance) if what == "write" else moved(client, history, what)
            if found:
                assert history.state()[:len(found)] == found, "%d: %s after %d lines" % (number, what, len(history.done))
