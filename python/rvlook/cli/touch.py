"""The subcommand `touch`."""
from __future__ import annotations

from argparse import Namespace

from rvlook.access.stack import report_overflows
from rvlook.access.touch import show_lcov, show_touch
from rvlook.cli.opening import opened, refuse_json


def perform(arguments: Namespace) -> None:
    """Shows what each world touched."""
    if arguments.lcov:
        refuse_json(arguments, "--lcov")
        show_lcov(*opened(arguments), [path for path in (arguments.symbols, arguments.image) if path])
    else:
        run, symbols, printer = opened(arguments)
        show_touch(run, symbols, printer)
        report_overflows(run, symbols, arguments.findings)
