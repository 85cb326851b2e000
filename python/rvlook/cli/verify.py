"""The subcommand `verify`."""
from __future__ import annotations

from argparse import Namespace

from rvlook.cli.opening import opened_monitored, options_from
from rvlook.errors import UsageError
from rvlook.image.variables import variables_of
from rvlook.symbolic.options import VerifyOptions
from rvlook.symbolic.verify import show_verify


def perform(arguments: Namespace) -> None:
    """Explores all paths of an enclave."""
    if (arguments.public or arguments.wiped or arguments.must_know) and not arguments.at:
        raise UsageError("--public, --wiped and --must-know require --at PLACE")
    run, symbols, printer = opened_monitored(arguments)
    options = options_from(VerifyOptions, arguments)
    show_verify(run, symbols, variables_of(arguments.symbols, run.setup.image), printer, options, arguments.findings)
