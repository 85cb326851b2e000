"""The prompt: commands of the bench with symbols and ABI names, and a few commands of its own. Its lines come from a terminal, with history and
completion by readline, or from standard input."""
from __future__ import annotations

import inspect
import sys
from typing import Callable, Iterator, Protocol, Sequence

from rvlook.access.map import Cause, EventFinder
from rvlook.access.map_text import print_event
from rvlook.errors import SymbolError
from rvlook.escapes import visible, visible_line
from rvlook.output.printer import Printer, Style, place_text
from rvlook.protocol import names
from rvlook.protocol.bench_line import has_reply, is_malformed, lines_of, tokens_of
from rvlook.protocol.commands import COMMANDS, Form, is_form, line_error, resolved
from rvlook.protocol.console import consoles_of
from rvlook.protocol.nearest import nearest
from rvlook.protocol.replies import Location, ran_of
from rvlook.protocol.run import HALTED_AFTER, Run, equal_at_end
from rvlook.protocol.symbols import Symbols
from rvlook.protocol.timeline import MOST_STEPS, Timeline

CHUNK = 2048  # steps that `until` searches in one exchange
UNTIL = ("switch", "trap", "below")  # the operands of `until`
IN_M = "mode=M"  # a part of the reply to a step after which the hart is in M
LONGEST_COUNT = 18  # the most digits of the operand of `back`
PLACES = (Form.address, Form.value)  # the forms of operands that may be symbols

OWN = {  # the commands of the prompt itself, with their help
    "until": "until switch | trap | below: run to the next world switch, trap, or return from M to S or U, at most 1000000 steps",
    "back": "back [N]: go back N steps (default 1), by a replay from reset", "map": "map: show the current access rights and the enclaves",
    "where": "where: show the next instruction, its symbol and its source line", "help": "help: show this list",
    "quit": "quit: leave the prompt; so does the end of the input"}
LONGEST_INPUT = 1 << 16  # characters of a line; a longer one is read in parts


class Keeper(Protocol):
    """An owner of the timeline of a session."""
    timeline: Timeline  # the timeline of the session

    def go(self, position: int) -> None:
        """Goes back to the state after a step."""


class TimelineKeeper:
    """An owner of a timeline. To go back, it replaces the timeline; the history after that step is discarded."""

    def __init__(self, timeline: Timeline) -> None:
        self.timeline = timeline  # the present one

    def go(self, position: int) -> None:
        """Goes back to the state after a step. The breakpoints and watchpoints stay set."""
        old_timeline, self.timeline = self.timeline, self.timeline.again(position)
        self.timeline.set_stops(old_timeline.stops)
        old_timeline.close()


class PromptSession:
    """The session of a prompt. `keeper` owns its timeline, and replaces the timeline if the user goes back."""

    def __init__(self, keeper: Keeper, run: Run, symbols: Symbols, printer: Printer) -> None:
        # `finder`: reads access rights
        self.keeper, self.setup, self.symbols, self.printer, self.finder = keeper, run.setup, symbols, printer, EventFinder(run)
        self.consoles = consoles_of(symbols)  # the consoles that the program has

    @property
    def timeline(self) -> Timeline:
        """Returns the timeline of the bench."""
        return self.keeper.timeline

    @property
    def hart(self) -> int:
        """Returns the chosen hart."""
        return self.timeline.hart

    @property
    def pc(self) -> str:
        """Reads the pc of the chosen hart, in hexadecimal digits: from the line "pc=..." after x0 to x31."""
        return self.timeline.ask("regs")[0][32][3:]

    def prompt(self) -> str:
        """Returns the prompt: world, mode and place."""
        hart = "hart %d " % self.hart if self.setup.harts > 1 else ""
        pc = self.pc
        name = self.symbols.name(int(pc, 16))
        return "%s%s %s %s> " % (hart, self.timeline.worlds[self.hart], self.timeline.modes[self.hart], name or pc)

    def line(self, text: str) -> bool:
        """Runs a line; returns False if the session ends. Prints the error for an ambiguous name."""
        tokens = tokens_of(text)
        if not has_reply(text):
            return True
        if tokens[0] in ("quit", "exit"):
            return False
        try:
            if tokens[0] not in OWN or is_malformed(text):
                self.command(resolved(text, self.symbols))
            elif not run_own(self, *tokens):
                self.print(OWN[tokens[0]])
        except SymbolError as fault:
            self.print(str(fault), Style.bad)
        return True

    def print(self, text: str, style: Style | None = None) -> None:
        """Prints a text on standard output."""
        text = visible(text)
        self.printer.line(self.printer.styled(text, style) if style else text)

    def command(self, line: str) -> None:
        """Runs a command of the bench, and prints its reply. After steps also prints console output and the next instruction."""
        replies = self.timeline.do(line)
        for reply in replies:
            self.print(reply, Style.bad if reply.startswith("error ") else None)
        if replies and replies[0].startswith("error "):
            self.refused(replies[0], tokens_of(line))
        if replies and ran_of(replies[0]):
            self.show_consoles()
            self.where()

    def show_consoles(self) -> None:
        """Prints what the program has written to its consoles since they were last read."""
        for console in self.consoles:
            for line in console.read(self.timeline.ask):
                self.print("%s console: %s" % (console.writer, line))

    def refused(self, reply: str, tokens: Sequence[str]) -> None:
        """Prints the meaning of an error reply to a command with these words, and what to write instead."""
        meaning, suggestion = line_error(reply, tokens)
        unknown = self.unknown_symbol(tokens) if reply == "error operand" else None
        if unknown:
            similar = nearest(unknown, self.symbols.by_name)
            meaning = "no symbol '%s'%s" % (unknown, "" if self.symbols else ": no symbols are loaded")
            suggestion = None if self.symbols else "an ELF file, or --symbols FILE"
            if similar:
                suggestion = " ".join(similar if token == unknown else token for token in tokens)
        self.print("  " + meaning)
        if suggestion:
            self.print("  try: " + suggestion)

    def unknown_symbol(self, tokens: Sequence[str]) -> str | None:
        """Returns an operand that should be an address or a value and is neither; None if there is no such operand."""
        command = COMMANDS.get(tokens[0])
        pairs = zip(tokens[1:], command.forms) if command and len(tokens) - 1 == len(command.forms) else ()
        return next((token for token, form in pairs if form in PLACES and not is_form(token, form) and self.symbols.address(token) is None), None)

    def help(self) -> None:
        """Prints the commands."""
        self.print("rvbench commands (operands may be symbols and register names):")
        usages = [("%s %s" % (name, command.letters)).strip() for name, command in COMMANDS.items()]
        for row in (usages[:10], usages[10:]):
            self.print("  " + "  ".join(row))
        self.print("prompt commands:")
        for text in OWN.values():
            self.print("  " + text)

    def where(self) -> None:
        """Prints the next instruction."""
        pc = self.pc
        [[reply]] = self.timeline.ask("dis " + pc)  # "PC: WORD INSTRUCTION", or "error ..." outside the RAM
        word, _, instruction = reply.rpartition(": ")[2].partition(" ")
        text = names.with_abi_names(instruction) if word != "error" else "(outside RAM)"
        self.print("next  %s  %s" % (text, place_text(pc, self.symbols)))

    def map(self) -> None:
        """Prints the present access rights."""
        pc, timeline = self.pc, self.timeline
        self.finder.state = self.finder.state_of(timeline, timeline.worlds)
        location = Location(pc, timeline.modes[timeline.hart], timeline.worlds[timeline.hart])
        event = self.finder.event(timeline.position, timeline.hart, Cause("now"), location)
        print_event(self.printer, event, self.symbols)

    def back(self, count: str = "1") -> None:
        """Goes back by a number of steps."""
        if not (count.isascii() and count.isdigit() and len(count) <= LONGEST_COUNT):
            self.print(OWN["back"])
            return
        self.keeper.go(max(0, self.timeline.position - int(count)))
        self.show_consoles()
        self.where()

    def until(self, what: str) -> None:
        """Runs up to a world switch, a trap or a return from M, if there is one within MOST_STEPS: a second bench at this step finds it first."""
        if what not in UNTIL:
            self.print(OWN["until"])
            return
        if what == "switch" and not self.setup.monitor:
            self.print("until switch requires the monitor; start with ./rvlook --monitor %s" % self.setup.image.name)
            return
        if what == "below" and self.setup.monitor:
            self.print("until below requires a bare image; start with ./rvlook --no-monitor %s" % self.setup.image.name)
            return
        with self.timeline.again(self.timeline.position) as ahead:
            ahead.settle()
            count = steps_to(ahead, self.end_of(what))
        if count is None:
            self.print("not reached within %d steps; the state is unchanged" % MOST_STEPS)
        else:
            self.command("step %d" % count)

    def end_of(self, what: str) -> Callable[[str, str], bool]:
        """Returns the test whether `until` ends at a step, from the replies to the step before it and to it."""
        if what == "below":
            return lambda before, after: IN_M in before and IN_M not in after
        usual = "trap=-" if what == "trap" else "world=%s " % self.timeline.worlds[self.hart]
        return lambda before, after: usual not in after


def run_own(owner: object, name: str, *operands: str) -> bool:
    """Runs a command by the method of its name; returns False if the method does not take these operands."""
    act = getattr(owner, name)
    try:
        inspect.signature(act).bind(*operands)
    except TypeError:
        return False
    act(*operands)
    return True


def steps_to(ahead: Timeline, is_end: Callable[[str, str], bool]) -> int | None:
    """Returns the number of steps to the first step that a test accepts by its reply and the reply before it. Returns None if the test accepts no
    step, or if the hart does nothing more."""
    before = "mode=%s" % ahead.modes[ahead.hart]
    for first_step in range(0, MOST_STEPS, CHUNK):
        lines = ahead.bench.block(b"step 1\n" * CHUNK, CHUNK).decode().splitlines()
        steps = next((n for n, replies in enumerate(zip([before, *lines], lines), 1) if is_end(*replies)), None)
        if steps:
            return first_step + steps
        if equal_at_end(lines) >= HALTED_AFTER:
            return None
        before = lines[-1]
    return None


def completions(session: PromptSession, tokens: Sequence[str]) -> Sequence[str]:
    """Returns the completions of the last of the words of a line; all commands if it is the first word."""
    if len(tokens) <= 1:
        return sorted([*COMMANDS, *OWN])
    if tokens[0] == "until":
        return UNTIL
    forms = COMMANDS[tokens[0]].forms if tokens[0] in COMMANDS else ()
    form = forms[len(tokens) - 2] if len(tokens) - 2 < len(forms) else None
    if form is Form.register:
        return names.ABI
    return sorted(session.symbols.by_name) if form in PLACES else []


def plain_lines(session: PromptSession) -> Iterator[str]:
    """Yields lines of standard input, each shown after its prompt."""
    while True:
        sys.stdout.write(session.prompt())
        sys.stdout.flush()
        line = sys.stdin.readline(LONGEST_INPUT)
        if not line:
            sys.stdout.write("\n")
            return
        sys.stdout.write(visible_line(line.rstrip("\n")) + "\n")
        yield line


def complete_by(session: PromptSession) -> None:
    """Makes the tab key complete the word before the cursor."""
    try:
        import readline
    except ImportError:
        return  # a Python that was built without it

    def complete(text: str, number: int) -> str | None:
        """Returns a completion by its number, or None."""
        tokens = (readline.get_line_buffer()[:readline.get_begidx()] + "|").split()
        texts = [completion + " " for completion in completions(session, tokens) if completion.startswith(text)]
        return texts[number] if number < len(texts) else None

    readline.set_completer(complete)
    readline.set_completer_delims(" \t")
    readline.parse_and_bind("tab: complete")


def terminal_lines(session: PromptSession) -> Iterator[str]:
    """Yields lines from a terminal."""
    complete_by(session)
    while True:
        try:
            yield input(session.prompt())
        except KeyboardInterrupt:
            print()  # Ctrl-C drops the line
        except EOFError:
            print()
            return


def bytes_text(line: str) -> str:
    """Returns a line of standard input, without its line feed, in the form of `bench_line`: a character of ISO 8859-1 for each byte."""
    data = line.encode(sys.stdin.encoding or "utf-8", "surrogateescape")
    return next(iter(lines_of(data.decode("latin-1"))), "")


def run_line(session: PromptSession, line: str) -> bool:
    """Runs a line. If Ctrl-C interrupts it, the state before the line is restored."""
    position = session.timeline.position
    try:
        return session.line(bytes_text(line))
    except KeyboardInterrupt:
        session.keeper.go(position)
        session.print("interrupted; the state is unchanged")
        return True


def show_prompt(run: Run, symbols: Symbols, printer: Printer) -> None:
    """Reads and runs lines up to the end of the input."""
    keeper = TimelineKeeper(Timeline.of_script(run.setup))
    session = PromptSession(keeper, run, symbols, printer)
    try:
        if sys.stdin.isatty():
            printer.line(printer.styled("Type help for the commands, quit or Ctrl-D to leave.", Style.aside))
        for line in terminal_lines(session) if sys.stdin.isatty() else plain_lines(session):
            if not run_line(session, line):
                return
    finally:
        keeper.timeline.close()
