"""The subcommand `gdb`: serves the bench to a debugger by the GDB remote serial protocol. Each hart is a thread."""
from __future__ import annotations

import re
import signal
import socket
import sys
import threading
from typing import Callable, Dict, Optional

from rvlook.errors import BenchEnded, RvlookError, error as report_error, note, warn
from rvlook.escapes import visible
from rvlook.gdb.moves import Moves, set_pc
from rvlook.gdb.link import Gone, Link, escaped, hex_of, little, number_of, unescaped
from rvlook.gdb.monitor import CommandLine, Monitor
from rvlook.gdb.reverse import Back
from rvlook.gdb.stops import Halt, Watch
from rvlook.gdb.target import CORE_REGISTERS, ENTERED, MEMORY, MODES, PC, PRIV, REGISTERS, TRIPLE, WORLD, WORLDS, target_text, threads_text
from rvlook.protocol import names
from rvlook.protocol.bench import Closing
from rvlook.protocol.console import consoles_of
from rvlook.protocol.memory_map import RAM_BASE
from rvlook.protocol.replies import poke_commands
from rvlook.protocol.run import Setup, error_of
from rvlook.protocol.timeline import Timeline

NAME = re.compile(r"[Qqv][A-Za-z]+\??|b[cs]|.", re.S)
CONDITION = re.compile(r"X([0-9a-f]{1,4}),([0-9a-f]+)")
VALUE = re.compile(r"[0-9a-fA-F]{8}\Z")
# kinds of breakpoints, and the names and accesses of kinds of watchpoints, by their numbers in the protocol
BREAKS, WATCHES = ("0", "1"), {"2": ("watch", "w"), "3": ("rwatch", "r"), "4": ("awatch", "rw")}
FEATURES = ("PacketSize=4000;QStartNoAckMode+;qXfer:features:read+;qXfer:memory-map:read+;qXfer:threads:read+;vContSupported+;"
            "ReverseStep+;ReverseContinue+;ConditionalBreakpoints+")
MOST_WATCHED = 32  # bytes of one watchpoint
MOST_READ = 0x2000  # bytes of memory in a reply; their digits fill PacketSize
PIECE = 2000  # characters of the output of `monitor` in a packet
SIGNS = re.compile(r"[#$}*]")  # characters that the text of an error must not contain
GONE = "X09"  # the stop reply "terminated by signal 9"


class Refused(Exception):
    """A request that the bench cannot fulfil; the text is for the debugger."""


class Server(Closing):
    """Replies to packets. Each method in ACTS gets the text after the name of the packet, and returns the reply; None if it sends none."""

    def __init__(self, link: Link, setup: Setup, command_line: CommandLine, has_files: bool = True) -> None:
        # `has_files`: whether `monitor` may name files
        self.link, self.setup, self.has_files, self.command_line = link, setup, has_files, command_line
        self.is_extended = self.is_over = False  # whether the debugger uses extended mode; whether the connection ends
        self.running: Moves | None = None  # None after the bench was ended
        self.moving_hart: int | None = None  # the hart that packets without a thread move; None: any
        self.start()

    def start(self) -> None:
        """Starts a bench, and runs the script."""
        self.close()
        moves = self.running = Moves(Timeline.of_script(self.setup), self.link)
        self.back, self.commands = Back(moves), Monitor(moves, self.command_line, self.has_files)  # for reverse execution; for lines of `monitor`
        self.shown_hart = self.last_halted = moves.timeline.hart  # the hart whose registers are shown; the hart that halted last
        self.moving_hart = None
        self.consoles = consoles_of(self.setup.symbols)

    def close(self) -> None:
        """Ends the bench."""
        if self.running:
            self.running.close()
        self.running = None

    @property
    def moves(self) -> Moves:
        """Returns the moves of the debugger; raises Refused if the bench was ended."""
        if not self.running:
            raise Refused("rvbench was terminated")
        return self.running

    @property
    def timeline(self) -> Timeline:
        """Returns the timeline of the bench."""
        return self.moves.timeline

    def serve(self) -> None:
        """Replies to packets until the debugger ends."""
        while not self.is_over:
            packet = self.link.packet()
            match = NAME.match(packet)
            name = match[0] if match else ""
            try:
                answer = ACTS[name](self, packet[len(name):]) if name in ACTS else ""
            except Refused as refusal:
                answer = "E.%s" % refusal
            except BenchEnded:
                self.link.send(GONE if name in MOVING else "E.rvbench has exited")
                raise
            except RvlookError as fault:
                answer = "E." + SIGNS.sub("?", visible(str(fault)))
            except (ValueError, LookupError, TypeError, ArithmeticError, MemoryError, RecursionError):
                answer = "E01"
            if answer is not None:
                self.link.send(answer)

    # features, threads and harts

    def no_acknowledgements(self, _: str) -> None:
        """Replies to QStartNoAckMode: packets after this reply are not acknowledged."""
        self.link.send("OK")
        self.link.acknowledged = False

    def transfer(self, arguments: str) -> str:
        """Replies to qXfer, `:KIND:read:NAME:OFFSET,LENGTH`, with a part of a document; `m` begins a part before the last one, `l` the last."""
        kind, _, name, location = arguments[1:].split(":")
        documents = {("features", "target.xml"): target_text, ("memory-map", ""): lambda: MEMORY % (RAM_BASE, self.setup.ram),
                     ("threads", ""): lambda: threads_text(map(self.hart_text, range(self.setup.harts if self.running else 0)))}
        text = documents[kind, name]()
        first, count = map(number_of, location.split(","))
        return ("m" if first + count < len(text) else "l") + escaped(text[first:first + count])

    def threads(self, _: str) -> str:
        """Replies to qfThreadInfo: the thread of a hart has the number of the hart, plus 1."""
        return "m" + ",".join("%x" % (hart + 1) for hart in range(self.setup.harts)) if self.running else "l"

    def hart_text(self, hart: int) -> str:
        """Returns the description of a hart as a thread."""
        self.timeline.settle()
        return "hart %d: %s in %s" % (hart, self.timeline.worlds[hart], self.timeline.modes[hart])

    def hart_of(self, thread: str) -> int:
        """Returns the hart of a thread; for any thread (empty, 0 or -1) the hart that halted last. Raises Refused if there is no such thread."""
        hart = self.last_halted if thread in ("", "0", "-1") else number_of(thread) - 1
        if not 0 <= hart < self.setup.harts:
            raise Refused("no such thread")
        return hart

    def choose(self, arguments: str) -> str:
        """Replies to H: `g` and a thread choose the hart that is shown; `c` and a thread choose the hart that moves."""
        hart = self.hart_of(arguments[1:])
        if arguments[0] == "g":
            self.shown_hart = hart
        else:
            self.moving_hart = None if arguments[1:] in ("0", "-1") else hart
        return "OK"

    # registers and memory

    def registers(self, _: str = "") -> str:
        """Replies to g with the values of CORE_REGISTERS."""
        return "".join(map(little, self.moves.view.registers(self.shown_hart)))

    def read_register(self, arguments: str) -> str:
        """Replies to p with the register that a number names, its index in REGISTERS."""
        number = number_of(arguments)
        if number < len(CORE_REGISTERS):
            return little(self.moves.view.registers(self.shown_hart)[number])
        if number in (PRIV, WORLD):
            return self.state()[number]
        if REGISTERS[number] in ENTERED:
            entered = self.commands.entry.find(self.timeline, self.shown_hart)
            return little(entered.registers[REGISTERS[number]]) if entered else "x" * 8  # `x`: the value is unknown
        value = self.moves.view.csr(self.shown_hart, names.CSRS[REGISTERS[number]])
        if value is None:
            raise ValueError(arguments)
        return little(value)

    def state(self) -> dict[int, str]:
        """Returns mode and world of the hart that is shown, by their numbers among the registers."""
        self.timeline.settle()
        mode, world = self.timeline.modes[self.shown_hart], self.timeline.worlds[self.shown_hart]
        return {PRIV: little("%08x" % MODES[mode]), WORLD: little("%08x" % WORLDS[world])}

    def forget_later_steps(self) -> None:
        """Discards what was derived from the steps after the present one, since the next command may change them."""
        self.back.discard()
        self.commands.entry.limit(self.timeline.position)

    def write_register(self, arguments: str) -> str:
        """Replies to P. Only x1 to x31 and pc can be written; raises Refused for others."""
        digits, value = arguments.split("=")
        number = number_of(digits)
        if not 0 < number <= PC:
            raise Refused("rvbench cannot write %s; it can write x1 to x31 and pc" % REGISTERS[number])
        if not VALUE.match(value):
            raise ValueError(value)
        self.forget_later_steps()
        self.timeline.choose(self.shown_hart)
        if number == PC:
            set_pc(self.moves, int(little(value), 16))
        else:
            self.moves.apply(["setreg %d %s" % (number, little(value))])
        return "OK"

    def read_memory(self, arguments: str) -> str:
        """Replies to m with bytes up to the first that is outside RAM."""
        first, count = map(number_of, arguments.split(","))
        data = self.moves.view.bytes(first, min(count, MOST_READ))
        if count and not data:
            raise Refused("%08x is outside RAM" % first)
        return data.hex()

    def write(self, arguments: str, decode: Callable[[str], bytes]) -> str:
        """Replies to M and X: stores bytes, which `decode` makes of hexadecimal digits (M) or escaped text (X). Raises Refused outside RAM."""
        location, text = arguments.split(":", 1)
        data = decode(text)
        first, count = map(number_of, location.split(","))
        if len(data) != count:
            raise Refused("got %d bytes instead of %d" % (len(data), count))
        if count and len(self.moves.view.bytes(first, count)) < count:
            raise Refused("the range is not entirely in RAM")
        self.forget_later_steps()
        self.moves.apply(poke_commands(first, data))
        return "OK"

    # breakpoints and watchpoints

    def set_stop(self, arguments: str) -> str:
        """Replies to Z: sets a breakpoint with its conditions, or a watchpoint."""
        kind, first, count = self.stop_of(arguments)
        if kind in BREAKS:
            conditions = [bytes.fromhex(match[2])[:int(match[1], 16)] for match in CONDITION.finditer(arguments)]
            self.moves.stops.set_break(self.timeline, kind, first, conditions)
        elif count > MOST_WATCHED or not self.moves.stops.set_watch(self.timeline, Watch(*WATCHES[kind], first, count)):
            report_error("cannot set the watchpoint: rvbench watches at most %d bytes" % MOST_WATCHED)
            raise Refused("rvbench watches at most %d bytes" % MOST_WATCHED)
        return "OK"

    def clear_stop(self, arguments: str) -> str:
        """Replies to z: removes a breakpoint or a watchpoint."""
        kind, first, count = self.stop_of(arguments)
        if kind in BREAKS:
            self.moves.stops.clear_break(self.timeline, kind, first)
        else:
            self.moves.stops.clear_watch(self.timeline, Watch(*WATCHES[kind], first, count))
        return "OK"

    @staticmethod
    def stop_of(arguments: str) -> tuple[str, int, int]:
        """Returns the kind, the address and the length of a breakpoint or watchpoint."""
        kind, first, count = arguments.split(";")[0].split(",")
        return kind, number_of(first), number_of(count)

    # execution, forward and reverse

    def halted(self, halt: Halt) -> str:
        """Returns the stop reply (packet T) that reports a halt, with the registers of its hart. This hart is shown from now on."""
        self.shown_hart = self.last_halted = halt.hart
        values = [*enumerate(map(little, self.moves.view.registers(halt.hart))), *self.state().items()]  # number and value of each register
        return "T%02xthread:%x;%s%s" % (halt.signal, halt.hart + 1, halt.reason, "".join("%02x:%s;" % value for value in values))

    def where(self, _: str) -> str:
        """Replies to ? with the state in which the hart that is shown has halted; W00 (the process exited) if the bench was ended."""
        return self.halted(Halt(self.shown_hart)) if self.running else "W00"

    def resume(self, arguments: str) -> str:
        """Replies to vCont, `;ACTION[:THREAD]` once or more: each hart does the first action that names it."""
        self.moves.show_notes()
        self.forget_later_steps()
        actions: dict[int, str] = {}
        for entry in arguments[1:].split(";"):
            action, _, thread = entry.partition(":")
            for hart in range(self.setup.harts) if thread in ("", "-1", "0") else [self.hart_of(thread)]:
                actions.setdefault(hart, action)
        running = [hart for hart, action in actions.items() if action[0] in "cC"]
        stepping = [hart for hart, action in actions.items() if action[0] in "sSr"]
        if stepping:
            action = actions[stepping[0]]
            addresses = range(*map(number_of, action[1:].split(",", 1))) if action[0] == "r" else ()  # r: steps while pc is in a range
            halt = self.moves.step(stepping[0], running, addresses)
        else:
            halt = self.moves.go_on(sorted(running))
        self.moves.redo()
        self.show_consoles()
        return self.halted(halt)

    def show_consoles(self) -> None:
        """Shows what the program has written to its consoles since they were last read."""
        for console in self.consoles:
            for line in console.read(self.timeline.ask):
                self.link.show("%s console: %s" % (console.writer, line))

    def go_on(self, action: str, location: str) -> str:
        """Replies to c and s of a debugger without vCont. `action` is c or s; `location`, if not empty, is the pc at which the hart resumes."""
        if location:
            self.forget_later_steps()
            self.timeline.choose(self.shown_hart)
            set_pc(self.moves, number_of(location))
        return self.resume(";%s:%s" % (action, "-1" if self.moving_hart is None else "%x" % (self.moving_hart + 1)))

    def step_back(self, _: str) -> str:
        """Replies to bs: goes to the state before the last step of a hart, which is the one that is shown if no thread was chosen."""
        return self.halted(self.back.step(self.shown_hart if self.moving_hart is None else self.moving_hart))

    def go_back(self, _: str) -> str:
        """Replies to bc: goes back to the last stop before the present step."""
        harts = range(self.setup.harts) if self.moving_hart is None else [self.moving_hart]
        return self.halted(self.back.go(self.shown_hart if self.moving_hart is None else self.moving_hart, list(harts)))

    # `monitor`, and the end and restart of the bench

    def monitor(self, arguments: str) -> str:
        """Replies to qRcmd: runs a line of the bench or of the prompt, or a subcommand."""
        self.forget_later_steps()
        self.timeline.choose(self.last_halted if self.moves.stops_after_watch else self.shown_hart)  # lldb names no hart before this packet
        text = self.commands.line(bytes.fromhex(arguments[1:]).decode("latin-1"))
        self.shown_hart = self.timeline.hart
        self.last_halted = self.shown_hart if self.moves.stops_after_watch else self.last_halted
        for first in range(0, len(text), PIECE):
            self.link.send("O" + hex_of(text[first:first + PIECE]))
        return "OK"

    def detach(self, _: str) -> str:
        """Replies to D: ends the connection, unless the debugger uses extended mode."""
        self.is_over = not self.is_extended
        return "OK"

    def kill(self, _: str) -> str:
        """Replies to vKill. A debugger in extended mode may run the bench again."""
        self.close()
        return self.detach("")

    def end(self, _: str) -> str | None:
        """Replies to k: lldb expects a reply, gdb none."""
        is_lldb = self.running and self.running.stops_after_watch
        self.close()
        self.is_over = not self.is_extended
        return GONE if is_lldb else None

    def extend(self, _: str) -> str:
        """Replies to !: enables extended mode, in which the debugger may run the bench again after its end."""
        self.is_extended = True
        return "OK"

    def run_again(self, _: str) -> str:
        """Replies to vRun: starts the bench again, and returns the stop reply of its first state."""
        self.start()
        return self.where("")

    def host(self, _: str) -> str:
        """Replies to qHostInfo, which only lldb sends, and which therefore shows that watchpoints must halt after the access."""
        self.moves.stops_after_watch = True
        return "triple:%s;ptrsize:4;endian:little;watchpoint_exceptions_received:after;" % hex_of(TRIPLE)

    def set_refresh(self, _: str) -> str:
        """Replies to QRvlookFresh: the debugger reads all registers again after each line of `monitor`."""
        self.commands.refreshes = True
        return "OK"


def answers(text: str) -> Callable[[Server, str], str]:
    """Returns a function that handles a packet by a fixed reply."""
    return lambda server, arguments: text


MOVING = ("vCont", "c", "s", "bc", "bs")  # packets with a stop reply
ACTS: Dict[str, Callable[[Server, str], Optional[str]]] = {
    "!": Server.extend, "?": Server.where, "D": Server.detach, "H": Server.choose, "P": Server.write_register,
    "M": lambda server, arguments: server.write(arguments, bytes.fromhex), "X": lambda server, arguments: server.write(arguments, unescaped),
    "R": lambda server, arguments: server.start(),  # without a reply
    "T": lambda server, arguments: "OK" if server.hart_of(arguments) >= 0 else "", "Z": Server.set_stop,
    "k": Server.end, "m": Server.read_memory, "p": Server.read_register, "z": Server.clear_stop, "g": Server.registers,
    "c": lambda server, arguments: server.go_on("c", arguments), "s": lambda server, arguments: server.go_on("s", arguments),
    "bc": Server.go_back, "bs": Server.step_back, "QRvlookFresh": Server.set_refresh,
    "QStartNoAckMode": Server.no_acknowledgements, "qAttached": answers("0"), "qC": lambda server, arguments: "QC%x" % (server.last_halted + 1),
    "qHostInfo": Server.host, "qProcessInfo": lambda server, arguments: "pid:1;" + server.host(arguments), "qRcmd": Server.monitor,
    "qSupported": answers(FEATURES), "qThreadExtraInfo": lambda server, arguments: hex_of(server.hart_text(server.hart_of(arguments[1:]))),
    "qXfer": Server.transfer, "qfThreadInfo": Server.threads, "qsThreadInfo": answers("l"), "vCont": Server.resume,
    "vCont?": answers("vCont;c;C;s;S;r"), "vKill": Server.kill, "vRun": Server.run_again}


def link_of(setup: Setup, port: int | None) -> Link:
    """Opens the connection with the debugger: the standard streams, or a port of this machine for the first client. A thread turns away later
    clients. Raises RvlookError if standard input is a terminal, or if the port cannot be used."""
    if port is None and sys.stdin.isatty():
        arguments = " ".join([*(["--monitor"] if setup.monitor else []), setup.image.name])
        raise RvlookError("standard input is a terminal, not a debugger; "
                          "run gdb-multiarch %s -ex 'target remote | ./rvlook gdb %s', or use --port N" % (setup.image.name, arguments))
    if port is None:
        return Link(sys.stdin.fileno(), sys.stdout.fileno())
    try:
        listening = socket.create_server(("localhost", port))
    except (OSError, OverflowError) as error:
        raise RvlookError("cannot listen on port %d: %s" % (port, getattr(error, "strerror", None) or error)) from None
    note("listening on localhost:%d" % listening.getsockname()[1])
    connection = listening.accept()[0]
    connection.setsockopt(socket.IPPROTO_TCP, socket.TCP_NODELAY, 1)
    threading.Thread(target=turn_away, args=(listening,), daemon=True).start()
    link = Link(connection.fileno(), connection.fileno())
    link.kept_open = connection  # keeps the connection for as long as its number is used
    return link


def turn_away(listening: socket.socket) -> None:
    """Closes all further connections to the port."""
    while True:
        listening.accept()[0].close()
        warn("rejected a second connection to the port")


def serve_gdb(setup: Setup, port: int | None, allow_files: bool, command_line: CommandLine) -> None:
    """Serves a debugger. A debugger on a port may name files only if `allow_files`, as any program of this machine may connect."""
    if port is None:
        signal.signal(signal.SIGINT, signal.SIG_IGN)  # of the terminal that the debugger shares; its own Ctrl-C comes as a byte
    try:
        with Server(link_of(setup, port), setup, command_line, port is None or allow_files) as server:
            server.serve()
    except Gone:
        note("the debugger disconnected")
    except BenchEnded as ended:
        raise error_of(setup, ended) from None
