"""The subcommand `map`."""
from __future__ import annotations

from argparse import Namespace

from rvlook.access.map_text import show_map
from rvlook.access.returns import show_returns
from rvlook.access.stack import report_overflows
from rvlook.cli.opening import opened, refuse_json
from rvlook.errors import UsageError


def perform(arguments: Namespace) -> None:
    """Shows the access rights, or the returns of a bare image."""
    if arguments.brief:
        refuse_json(arguments, "--brief")
    run, symbols, printer = opened(arguments)
    if arguments.returns and run.setup.monitor:
        raise UsageError("--returns requires a bare image, but %s runs under the monitor; use --no-monitor" % run.setup.image.name)
    if arguments.returns:
        show_returns(run, symbols, printer, arguments.findings)
    else:
        show_map(run, symbols, printer, arguments.brief)
    report_overflows(run, symbols, arguments.findings)
