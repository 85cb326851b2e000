"""The subcommand `trace`: prints the steps of a run as lines, as objects, and in the format of Spike's --log-commits."""
from __future__ import annotations

from dataclasses import dataclass, field
from typing import Iterable, NamedTuple, Optional, Sequence

from rvlook.escapes import visible_line
from rvlook.output.printer import Json, ObjectWriter, Printer, Style, end_object, end_text, hex8, run_object
from rvlook.protocol import names
from rvlook.protocol.console import Console, consoles_of, followed
from rvlook.protocol.instructions import Instruction, short_form
from rvlook.protocol.replies import RanTrap
from rvlook.protocol.run import End, Run
from rvlook.protocol.symbols import Symbols
from rvlook.protocol.timeline import Timeline
from rvlook.trace.tracer import CallMade, RunTracer, Touch, TracedCommand, TracedStep

SHOWN_REGISTERS = 2  # if more changed, as at a switch, a0 and the number of the others are shown
SHOWN_REPLY = 60  # characters of a reply to a line of the script
ARGUMENT_FORMS = {"base": "%x", "size": "%x", "window": " window %x", "window_size": "%x", "entry": " entry %x", "slot": "e%d",
                  "address": " to %x"}  # the formats of these arguments of a call; every other one is printed with its name
A0 = 10  # the number of the register
PRIVILEGE = {"M": 3, "S": 1, "U": 0}  # the numbers of the modes in the log of Spike


class Filter(NamedTuple):
    """The options that choose the steps to show."""
    first: int = 1  # number of the first step
    last: Optional[int] = None  # number of the last step; None: to the end
    world: Optional[str] = None  # the only world; None: any
    function: Optional[str] = None  # the only function; None: any
    traps: bool = False  # whether only steps that trap are wanted

    def matches(self, step: TracedStep, symbols: Symbols) -> bool:
        """Returns whether a step is wanted. On the bare bench, where `bare` is the only world, `world` may also be a mode."""
        worlds = (step.at.world, step.at.mode) if step.at.world == "bare" else (step.at.world,)
        if self.world and self.world not in worlds or self.traps and step.trap is None:
            return False
        return not self.function or symbols.function(int(step.at.pc, 16)) == self.function

    @property
    def is_whole(self) -> bool:
        """Returns whether all steps from the first to the last are wanted."""
        return not (self.world or self.function or self.traps)


def show_trace(run: Run, symbols: Symbols, printer: Printer, wanted: Filter, is_short: bool = False) -> None:
    """Prints the wanted steps, and the lines of the script if all steps are wanted."""
    if printer.as_json:
        run_object(printer, run, symbols)
    writer: ObjectTrace | Lines = ObjectTrace(run, symbols, printer) if printer.as_json else Lines(run, symbols, printer, is_short)
    shown, consoles = 0, consoles_of(symbols)
    for item in RunTracer(run, wanted.first, wanted.last).events():
        if isinstance(item, TracedStep):
            if wanted.matches(item, symbols):
                writer.step(item)
                shown += 1
            for console_writer, line in lines_of(item, consoles):
                writer.console(item.number, console_writer, line)
        elif isinstance(item, End):
            if not shown and item.steps >= wanted.first:
                writer.none()
            writer.end(item)
        elif wanted.is_whole:
            writer.command(item)


def lines_of(step: TracedStep, consoles: Sequence[Console]) -> Iterable[tuple[str, str]]:
    """Returns the lines of consoles that the store of a step completes, each after its writer."""
    touch = step.touch
    if not (consoles and touch and touch.done and touch.kind == "w" and touch.value):
        return ()
    return followed(consoles, touch.address, touch.value)


@dataclass
class ObjectTrace:
    """Writes a trace as objects."""
    run: Run  # the run that is traced
    symbols: Symbols  # name addresses
    printer: ObjectWriter  # takes the objects
    sites: dict[tuple[str, Optional[Instruction]], dict[str, Optional[str]]] = field(default_factory=dict)  # the constant members of a step, cached

    def step(self, step: TracedStep) -> None:
        """Writes a step."""
        target = step.target
        self.printer.object(
            "step", step=step.number, hart=step.hart, world=step.at.world, mode=step.at.mode, pc=step.at.pc, **self.site(step),
            registers={"x%d" % number: value for number, value in step.changed.items()}, touch=self.touch(step.touch),
            target=None if target is None else {"address": hex8(target), "symbol": self.symbols.name(target)},
            call=self.call(step.call), trap=self.trap(step.trap), next={"pc": step.next.pc, "mode": step.next.mode, "world": step.next.world})

    def site(self, step: TracedStep) -> dict[str, str | None]:
        """Returns the members of a step's object that depend only on its pc and instruction."""
        key = step.at.pc, step.instruction
        if key not in self.sites:
            pc, instruction = int(step.at.pc, 16), step.instruction
            self.sites[key] = {
                "symbol": self.symbols.name(pc), "function": self.symbols.function(pc), "source": self.symbols.source(pc),
                "caller": self.symbols.caller(pc), **{name: getattr(instruction, name, None) for name in ("word", "text", "abi", "short")}}
        return self.sites[key]

    def touch(self, touch: Touch | None) -> dict[str, Json] | None:
        """Returns an access as an object."""
        if touch is None:
            return None
        return {"kind": touch.kind, "address": hex8(touch.address), "width": touch.width, "value": touch.value,
                "symbol": self.symbols.name(touch.address), "done": touch.done}

    @staticmethod
    def call(call: CallMade | None) -> dict[str, Json] | None:
        """Returns a call as an object."""
        if call is None:
            return None
        return {"name": call.call.name, "arguments": {name: hex8(value) for name, value in call.arguments.items()}, "slot": call.slot}

    @staticmethod
    def trap(trap: RanTrap | None) -> dict[str, Json] | None:
        """Returns a trap as an object."""
        return None if trap is None else {"cause": trap.cause, "value": trap.value, "name": names.cause_name(trap.cause)}

    def command(self, command: TracedCommand) -> None:
        """Writes a line of the script."""
        self.printer.object("command", step=command.step, hart=command.hart, line=command.line, given=command.given, replies=list(command.replies))

    def console(self, number: int, writer: str, text: str) -> None:
        """Writes a line of a console."""
        self.printer.object("console", step=number, writer=writer, text=text)

    def none(self) -> None:
        """Writes nothing if no step is wanted."""

    def end(self, end: End) -> None:
        """Writes the end."""
        end_object(self.printer, end)


class Site(NamedTuple):
    """The part of a line of the trace that depends only on pc and instruction."""
    text: str  # the text of the instruction
    function: Optional[str]  # None if unknown
    source: Optional[str]  # source line; None if unknown


@dataclass
class Lines:
    """Prints a trace as lines. A heading shows world, mode and function if they change. The source line is also shown only if it changes."""
    run: Run  # the run that is traced
    symbols: Symbols  # name addresses
    printer: Printer  # prints the lines
    is_short: bool = False  # whether instructions are in the manual's short form
    heading: tuple[object, ...] = ()  # hart, world, mode and function of the last step
    source: Optional[str] = None  # the source of the last step; None if unknown
    sites: dict[tuple[str, Optional[Instruction]], Site] = field(default_factory=dict)  # cached

    def step(self, step: TracedStep) -> None:
        """Prints a step."""
        key = step.at.pc, step.instruction
        site = self.sites.get(key)
        if site is None:
            site = self.sites[key] = self.site(step)
        heading = step.hart, step.at.world, step.at.mode, site.function
        if heading != self.heading:
            self.head(heading)
        text = site.text if step.is_executed else "(an interrupt)" if step.is_interrupt else "(not fetched)"
        parts = self.effects(step)
        if site.source != self.source:
            self.source = site.source
            parts += [self.printer.styled(site.source, Style.aside)] if site.source else []
        self.printer.line("%6d  %s  %-32s %s" % (step.number, step.at.pc, text, "  ".join(parts)))
        if step.call:
            self.aside(call_text(step))
        elif step.trap:
            self.aside("%s, value %s" % (names.cause_name(step.trap.cause), step.trap.value), Style.bad)
        if step.next.world != step.at.world:
            self.aside("switch to %s in %s" % (step.next.world, step.next.mode))

    def site(self, step: TracedStep) -> Site:
        """Returns the text of an instruction, with the target of a branch or jump in place of its offset."""
        pc, instruction = int(step.at.pc, 16), step.instruction
        text = instruction.abi if instruction else "(not fetched)"
        if instruction and instruction.offset is not None:
            text = text[:text.rindex(" ") + 1] + self.address_text(step.target if step.target is not None else pc + instruction.offset)
        return Site(short_form(text) if self.is_short else text, self.symbols.function(pc), self.symbols.line(pc))

    def address_text(self, address: int) -> str:
        """Returns an address with its symbol as objdump writes them: `80000010 <main+10>`."""
        name = self.symbols.name(address)
        return "%08x <%s>" % (address, name) if name else "%08x" % address

    def head(self, heading: tuple[int, str, str, str | None]) -> None:
        """Prints world, mode and function if they change."""
        self.heading, self.source = heading, None
        number, world, mode, function = heading
        parts = ("hart %d" % number if self.run.setup.harts > 1 else None, world, mode, function)
        self.printer.line(self.printer.styled("  ".join(part for part in parts if part), Style.heading))

    def effects(self, step: TracedStep) -> list[str]:
        """Returns the registers that changed, the access, and the target of a jump to a register."""
        changed = ["%s=%s" % (names.ABI[number], value) for number, value in step.changed.items()]
        if len(changed) > SHOWN_REGISTERS:
            value = "a0=%s" % step.changed[A0] if A0 in step.changed else changed[0]
            changed = [value, "and %d more" % (len(changed) - 1)]
        if step.touch:
            changed.append(touch_text(step.touch, self.symbols))
        elif step.instruction and step.instruction.name == "jalr" and step.target is not None:
            changed.append("to " + self.address_text(step.target))
        return changed

    def aside(self, text: str, style: Style = Style.aside) -> None:
        """Prints an indented line."""
        self.printer.line(" " * 8 + self.printer.styled(text, style))

    def command(self, command: TracedCommand) -> None:
        """Prints a line of the script, and the first line of its reply."""
        first_line = command.replies[0] if command.replies else "(no reply)"
        shown = first_line if len(first_line) <= SHOWN_REPLY else first_line[:SHOWN_REPLY] + " .."
        hidden_lines = len(command.replies) - 1
        sent_line = "" if command.line == command.given else "  (%s)" % visible_line(command.line)
        self.printer.line("%s%s  %s%s" % (self.printer.styled("> " + visible_line(command.given), Style.aside), sent_line, shown,
                                          "  and %d more lines" % hidden_lines if hidden_lines > 0 else ""))

    def console(self, number: int, writer: str, text: str) -> None:
        """Prints a line of a console."""
        self.printer.line("%6d  %s console: %s" % (number, writer, text))

    def none(self) -> None:
        """Prints that no step is wanted."""
        self.printer.line("no step matches")

    def end(self, end: End) -> None:
        """Prints the end."""
        end_text(self.printer, end, self.symbols)


def call_text(step: TracedStep) -> str:
    """Returns a call with its arguments, and the status if it is refused."""
    call = step.call
    assert call is not None
    text = " ".join(ARGUMENT_FORMS.get(name, name + " %x") % value for name, value in call.arguments.items())
    status = step.changed.get(A0)
    refused = names.STATUSES.get(int(status, 16)) if status and step.next.world == step.at.world else None
    return "%s %s%s" % (call.call.name, text, ": " + refused if refused else "")


def touch_text(touch: Touch, symbols: Symbols) -> str:
    """Returns a load or store: kind, address, value or width, and symbol."""
    name = symbols.name(touch.address)
    value = "=" + touch.value if touch.value else " %d" % touch.width
    return "%s %08x%s%s%s" % (touch.kind, touch.address, value, "  " + name if name else "", "" if touch.done else "  refused")


def show_spike(run: Run, wanted: Filter, printer: Printer) -> None:
    """Prints a log in the format of Spike: a line for each of the wanted instructions that did not trap. It has the register and the control register
    that the instruction wrote, and its load or store."""
    symbols = run.setup.symbols
    with run.replay() as follower:
        for item in RunTracer(run, wanted.first, wanted.last).events():
            if isinstance(item, TracedStep) and item.trap is None and wanted.matches(item, symbols):
                printer.line(commit_text(item, follower))
            elif isinstance(item, End):
                return


def commit_text(step: TracedStep, follower: Timeline) -> str:
    """Returns a step as a line of Spike's log. Reads the control and status register that it wrote from `follower`, a replay of the run."""
    instruction = step.instruction
    assert instruction is not None
    text = "core%4d: %d 0x%s (0x%s)" % (step.hart, PRIVILEGE[step.at.mode], step.at.pc, instruction.word)
    if instruction.writes:
        text += " x%-2d 0x%s" % (instruction.writes, step.written)
    if instruction.csr is not None:
        follower.go(step.number)
        reply = follower.bench.one("csr %x" % instruction.csr)
        text += " c%d_%s 0x%s" % (instruction.csr, names.CSR_NAMES.get(instruction.csr, "unknown"), reply.split("=")[-1])
    if step.touch:
        text += " mem 0x%08x" % step.touch.address
        text += " 0x" + (step.touch.value or "") if step.touch.kind == "w" else ""  # Spike shows no value of a load here
    return text
