"""The subcommand `timer`."""
from __future__ import annotations

from argparse import Namespace

from rvlook.cli.opening import opened_monitored, options_from
from rvlook.finders.timer import TimerOptions, show_timer


def perform(arguments: Namespace) -> None:
    """Interrupts an enclave before each step."""
    run, _, printer = opened_monitored(arguments)
    show_timer(run, printer, options_from(TimerOptions, arguments), arguments.findings)
