"""The subcommand `trace`."""
from __future__ import annotations

from argparse import Namespace

from rvlook.access.stack import report_overflows
from rvlook.cli.opening import opened, refuse_empty_part, refuse_json
from rvlook.errors import RvlookError
from rvlook.protocol.commands import no_symbol
from rvlook.trace.text import Filter, show_spike, show_trace


def perform(arguments: Namespace) -> None:
    """Shows the steps of a run."""
    refuse_empty_part(arguments, 1)
    if arguments.format == "spike":
        refuse_json(arguments, "--format spike")
    run, symbols, printer = opened(arguments)
    if arguments.function and arguments.function not in symbols.by_name:
        raise RvlookError(no_symbol(arguments.function, symbols))
    wanted = Filter(arguments.first, arguments.last, arguments.world, arguments.function, arguments.traps)
    if arguments.format == "spike":
        show_spike(run, wanted, printer)
    else:
        show_trace(run, symbols, printer, wanted, arguments.short)
    report_overflows(run, symbols, arguments.findings)
