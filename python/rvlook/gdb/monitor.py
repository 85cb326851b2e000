"""The commands of `monitor`: the commands of the bench and of the prompt, the subcommands of rvlook over the steps so far, and the commands of the
server itself."""
from __future__ import annotations

import contextlib
import io
import os
from argparse import Namespace
from typing import Callable, NamedTuple, Sequence, TextIO

from rvlook.errors import RvlookError
from rvlook.escapes import visible
from rvlook.gdb.entry import LastEntries
from rvlook.gdb.moves import DISCARDED, Moves
from rvlook.output.printer import Printer, place_text
from rvlook.prompt.prompt import PromptSession, run_own
from rvlook.protocol.bench_line import tokens_of
from rvlook.protocol.commands import COMMANDS, Form, is_form, written
from rvlook.protocol.names import Call
from rvlook.protocol.run import run_of
from rvlook.protocol.timeline import commands_of

FILE_SUBCOMMANDS = ("measure", "explain")  # subcommands whose arguments name the file that they read, not the run
NOT_OFFERED = ("gdb", "conform", "guard", "new")  # subcommands that run benches of their own or this server, or make a folder
FROM_HERE = ("leak", "timer", "races")  # subcommands over the steps after the present one
CAUGHT = ("switch", "trap", "call")  # the events that `catch` knows
SERVER_COMMANDS = {"catch": "catch [switch | trap | call | none]: stop after each world switch, trap, or monitor call; none removes all catchpoints",
                   "schedule": "schedule [DIGITS]: show or set the schedule of two harts, 1 to 64 digits 0 and 1 as for sched",
                   "entered": "entered: show where the host entered the enclave on this hart"}
STALE = "(gdb shows old registers until `maintenance flush register-cache`; load python/rvlook/gdb/client.py to refresh them)\n"
STALE_IN_LLDB = "(lldb shows old registers until the program continues)\n"
READ_FILES, FOLDERS = ("script", "symbols", "file", "input"), ("scripts", "sources", "folder", "junit")  # arguments that name files and folders


class CommandLine(NamedTuple):
    """The command line of rvlook for `monitor`."""
    names: tuple[str, ...]  # the names of the subcommands
    read: Callable[[Sequence[str]], Namespace]  # parses the arguments of a subcommand


class Monitor:
    """Runs lines of `monitor`. Only with `has_files` may a line name files."""

    def __init__(self, moves: Moves, command_line: CommandLine, has_files: bool = True) -> None:
        self.moves, self.entry, self.refreshes = moves, LastEntries(), False  # `refreshes`: whether the debugger reads registers again
        self.session: PromptSession | None = None  # runs the commands of the prompt; None before the first one
        self.has_files, self.read = has_files, command_line.read  # whether a line may name files; parses the arguments of a subcommand
        self.subcommands = tuple(name for name in command_line.names if name not in (*FILE_SUBCOMMANDS, *NOT_OFFERED))  # over an image

    def line(self, text: str) -> str:
        """Runs a line of `monitor`; returns its output. The notes of `page` go to standard error."""
        out, moves = io.StringIO(), self.moves
        old_state, had_command = (moves.timeline, moves.timeline.changes), moves.timeline.has_command
        errors = contextlib.nullcontext() if "page" in tokens_of(text)[:2] else contextlib.redirect_stderr(out)
        with contextlib.redirect_stdout(out), errors, moves.link.watched(moves.stops_after_watch):
            try:
                self.do(text, out)
            except RvlookError as fault:
                out.write(visible(str(fault)) + "\n")
            except SystemExit:
                pass  # after the help of a subcommand
        if old_state != (moves.timeline, moves.timeline.changes):
            moves.discard(moves.timeline.position)
            if had_command and moves.timeline is old_state[0] and not moves.timeline.has_command:
                out.write(DISCARDED % moves.timeline.position + "\n")
            out.write("" if self.refreshes else STALE_IN_LLDB if moves.stops_after_watch else STALE)
        return out.getvalue()

    def do(self, text: str, out: TextIO) -> None:
        """Runs a line, and prints its output."""
        tokens = tokens_of(text)
        if "\n" in text:
            print("monitor takes a single line")
        elif not tokens or tokens == ["help"]:
            self.help()
        elif tokens[0] in SERVER_COMMANDS:
            if not run_own(self, *tokens):
                print(SERVER_COMMANDS[tokens[0]])
        elif tokens[0] == "rvlook" or tokens[0] in FILE_SUBCOMMANDS or tokens[0] in self.subcommands and not self.is_command(tokens):
            self.subcommand(tokens[1:] if tokens[0] == "rvlook" else tokens)
        else:
            self.opened(out).line(text)

    @staticmethod
    def is_command(tokens: Sequence[str]) -> bool:
        """Returns whether a line is a command of the bench. For example, `timer on` is; `timer --every 2` is a subcommand."""
        return tokens[0] in COMMANDS and written(tokens[0], tokens[1:]) is not None

    def opened(self, out: TextIO | None = None) -> PromptSession:
        """Returns the session of the prompt over the debugger's bench."""
        if not self.session:
            setup = self.moves.timeline.setup
            self.session = PromptSession(self.moves, run_of(setup.with_script((), 0)), setup.symbols, Printer())
        self.session.printer = Printer(stream=out)
        return self.session

    def help(self) -> None:
        """Prints the commands."""
        print("debugger commands:")
        for text in SERVER_COMMANDS.values():
            print("  " + text)
        print("subcommands over the run so far: %s; and %s" % (" ".join(self.subcommands), " ".join(FILE_SUBCOMMANDS)))
        self.opened().help()

    def subcommand(self, tokens: Sequence[str]) -> None:
        """Runs a subcommand of rvlook, over a run whose script is what the debugger has done so far."""
        tokens = [token.encode("latin-1", "replace").decode("utf-8", "surrogateescape") for token in tokens]
        if not tokens or tokens[0] not in (*self.subcommands, *FILE_SUBCOMMANDS):
            print("rvlook requires a subcommand over the run so far: %s; or %s" % (" ".join(self.subcommands), " ".join(FILE_SUBCOMMANDS)))
            return
        if tokens[0] in FILE_SUBCOMMANDS:
            arguments = self.read(tokens)
            self.check_files(arguments)
        else:
            timeline = self.moves.timeline
            arguments = self.read([tokens[0], timeline.setup.image.name, *tokens[1:]])
            self.check_files(arguments)
            arguments.has_sources = self.has_files
            limit = arguments.steps if tokens[0] in FROM_HERE or "--steps" in tokens else 0
            setup = timeline.setup.with_script(commands_of(timeline.past, 0, timeline.hart), limit)
            arguments.opened = run_of(setup)
        arguments.do(arguments)

    def check_files(self, arguments: Namespace) -> None:
        """Raises RvlookError for an argument that names a file if files are disabled, and for a file that is not regular, since a read of it may
        block."""
        read_files = [value for value in (getattr(arguments, name, None) for name in READ_FILES) if value]
        named = read_files + [value for value in (getattr(arguments, name, None) for name in FOLDERS) if value]
        if named and not self.has_files:
            named = named[0] if isinstance(named[0], str) else named[0][0]
            raise RvlookError("cannot use '%s': files are disabled for a debugger on a port; start with rvlook gdb --allow-files --port N" % named)
        for path in read_files:
            if not os.path.isfile(path):
                raise RvlookError("'%s' is not a regular file" % path)

    # commands of the server

    def catch(self, what: str | None = None) -> None:
        """Adds a catchpoint, or removes all, and prints the catchpoints that are set."""
        stops, has_worlds = self.moves.stops, self.moves.timeline.setup.monitor
        if what == "none":
            stops.caught.clear()
        elif what in CAUGHT and what != "trap" and not has_worlds:
            print("this catchpoint requires the monitor; start with ./rvlook gdb --monitor %s" % self.moves.timeline.setup.image.name)
        elif what in CAUGHT:
            stops.caught.add(what)
        elif what:
            print(SERVER_COMMANDS["catch"])
        print("catchpoints: %s" % (" ".join(kind for kind in CAUGHT if kind in stops.caught) or "none"))

    def schedule(self, digits: str | None = None) -> None:
        """Sets or shows the schedule of two harts."""
        if self.moves.timeline.setup.harts == 1:
            print("a schedule requires two harts; start with ./rvlook gdb --monitor --harts 2 %s" % self.moves.timeline.setup.image.name)
            return
        if digits and not is_form(digits, Form.schedule):
            print("'%s' is not %s; try: schedule 01" % (digits, Form.schedule.value))
        elif digits:
            self.moves.schedule = digits
        print("schedule: " + self.moves.schedule)

    def entered(self) -> None:
        """Prints where the host entered the enclave on the hart."""
        timeline, symbols = self.moves.timeline, self.moves.timeline.setup.symbols
        entry = self.entry.find(timeline, timeline.hart)
        if not entry:
            print("the hart is not in an enclave, but in %s" % timeline.worlds[timeline.hart])
            return
        number = int(entry.values[16], 16)
        call = Call(number).name if number in set(Call) else "a monitor call"
        print("%s was entered at step %d, by %s at %s" % (timeline.worlds[timeline.hart], entry.step, call, place_text(entry.pc, symbols)))
