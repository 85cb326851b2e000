"""The subcommand `window`."""
from __future__ import annotations

from argparse import Namespace

from rvlook.cli.opening import opened_monitored, options_from
from rvlook.errors import UsageError
from rvlook.finders.window import WindowOptions
from rvlook.finders.window_text import show_window
from rvlook.image.variables import variables_of


def perform(arguments: Namespace) -> None:
    """Shows what an enclave did with its window."""
    if arguments.public and not arguments.at:
        raise UsageError("--public requires --at PLACE")
    run, _, printer = opened_monitored(arguments)
    show_window(run, variables_of(arguments.symbols, run.setup.image), printer, options_from(WindowOptions, arguments), arguments.findings)
