"""The subcommand `guard`."""
from __future__ import annotations

from argparse import Namespace

from rvlook.cli.opening import options_from
from rvlook.monitors.conform_text import MonitorFiles
from rvlook.monitors.guard import GuardPlan
from rvlook.monitors.guard_text import show_guard
from rvlook.monitors.ranges_file import ownership_of
from rvlook.output.printer import Printer


def perform(arguments: Namespace) -> None:
    """Checks that a monitor isolates its worlds."""
    setup, symbols = options_from(MonitorFiles, arguments).setup()
    plan = GuardPlan(setup, ownership_of(arguments.ranges, symbols), symbols, arguments.steps, arguments.seed, arguments.timers, arguments.jobs)
    show_guard(plan, Printer(arguments.json), arguments.findings)
