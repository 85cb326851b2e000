"""Opens the run that the arguments describe: its image, script, symbols and profile."""
from __future__ import annotations

from argparse import Namespace
from typing import Callable, Iterable, TypeVar

from rvlook.errors import UsageError, note, warn
from rvlook.image.detect import has_compressed, lacking_texts, reason_for_monitor
from rvlook.image.files import image_of, script_of
from rvlook.image.symbols import symbols_from
from rvlook.output.printer import Printer
from rvlook.protocol.bench_line import tokens_of
from rvlook.protocol.inputs import Image, ScriptLine
from rvlook.protocol.commands import error_text, resolved_script
from rvlook.protocol.run import Run, Setup, run_of
from rvlook.protocol.schedule import TURN, alternating, random_schedule
from rvlook.protocol.symbols import Symbols

Options = TypeVar("Options")
MOVING = (["step"], ["run"], ["sched"], ["hart"])  # the first words of lines of a script that sets the order of the harts itself


def setup_of(arguments: Namespace) -> Setup:
    """Returns the configuration of a run: the image, and the script with numbers in place of symbols."""
    image = image_of(arguments.image, arguments.kind)
    script = image.script + script_of(arguments.script)
    monitor = has_monitor(arguments, image, script)
    if has_compressed(image):
        warn("%s is built for compressed instructions, which rvbench does not support; rebuild it with -march=rv32im" % image.name)
    for text in lacking_texts(image):
        warn(text)
    symbols = symbols_from(arguments.symbols, image)
    lines = resolved_script(script, symbols)
    schedule = schedule_of(arguments, lines)
    return Setup(image, lines, monitor, arguments.ram, arguments.kind, arguments.harts, arguments.steps, schedule, symbols)


def schedule_of(arguments: Namespace, lines: Iterable[ScriptLine]) -> str:
    """Returns the schedule of two harts after the script; empty for the selected hart alone. A note reports the default."""
    if arguments.needs_order and arguments.harts > 1 and not sets_order(lines):
        raise UsageError("%s --harts 2 requires a script that chooses the harts, such as 'sched 01' or 'hart 1'; "
                         "or use races --harts 2, which tries every order" % arguments.subcommand)
    if not arguments.has_schedule:
        return ""
    if arguments.schedule is None and arguments.seed is None:
        if arguments.harts == 1 or sets_order(lines):
            return ""
        note("the harts alternate every %d steps; use --schedule N or --seed N for another order" % TURN)
    elif arguments.harts == 1:
        raise UsageError("--schedule and --seed require --harts 2")
    return alternating(arguments.schedule or TURN) if arguments.seed is None else random_schedule(arguments.seed)


def sets_order(lines: Iterable[ScriptLine]) -> bool:
    """Returns whether a script executes steps or selects a hart."""
    return any(tokens_of(line.text)[:1] in MOVING for line in lines)


def has_monitor(arguments: Namespace, image: Image, script: Iterable[ScriptLine]) -> bool:
    """Returns whether the image runs under the monitor. Without --monitor and --no-monitor the image decides, and a note reports why."""
    monitor = arguments.monitor
    reason = reason_for_monitor(image, script) if monitor is None else None
    if reason:
        note("running %s with --monitor because %s; use --no-monitor to run it bare" % (image.name, reason))
    if arguments.harts > 1 and not (monitor or reason):
        raise UsageError("--harts 2 requires --monitor")
    return bool(monitor or reason)


def run_from(arguments: Namespace, setup: Setup) -> Run:
    """Returns the run of a setup. Reports the script lines that rvbench rejects as findings; the exit status is then 2."""
    run = run_of(setup)
    for line, reply in run.errors:
        arguments.findings.refuse(error_text(line, reply, run.setup.symbols))
    return run


def refuse_empty_part(arguments: Namespace, least: int) -> None:
    """Raises UsageError if --from and --to select nothing. The numbers begin at `least`."""
    if arguments.last is not None and arguments.last < max(least, arguments.first):
        raise UsageError("--to %d is less than --from %d" % (arguments.last, max(least, arguments.first)))


def refuse_json(arguments: Namespace, option: str) -> None:
    """Raises UsageError if --json is given with an option that has its own output format."""
    if arguments.json:
        raise UsageError("%s cannot be combined with --json" % option)


def options_from(kind: Callable[..., Options], arguments: Namespace, **others: object) -> Options:
    """Returns the options of a subcommand. Each field of `kind` has the value of the argument of its name, its default if that is None, or the value
    in `others`."""
    given = {name: getattr(arguments, name) for name in kind.__annotations__ if name not in others}
    return kind(**{name: value for name, value in given.items() if value is not None}, **others)


def opened(arguments: Namespace) -> tuple[Run, Symbols, Printer]:
    """Returns the run, its symbols and the printer of a subcommand over an image."""
    run = arguments.opened or run_from(arguments, setup_of(arguments))
    return run, run.setup.symbols, Printer(arguments.json)


def opened_monitored(arguments: Namespace) -> tuple[Run, Symbols, Printer]:
    """Returns what `opened` returns, for a subcommand that needs the monitor of rvbench, which reports the enclaves."""
    run, symbols, printer = opened(arguments)
    if not run.setup.monitor:
        raise UsageError("%s requires the monitor of rvbench, but %s runs bare; use --monitor" % (arguments.subcommand, run.setup.image.name))
    return run, symbols, printer
