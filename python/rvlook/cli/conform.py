"""The subcommand `conform`."""
from __future__ import annotations

from argparse import Namespace

from rvlook.cli.opening import options_from
from rvlook.monitors.conform import ScriptPlan
from rvlook.monitors.conform_text import MonitorFiles, show_conform
from rvlook.output.printer import Printer


def perform(arguments: Namespace) -> None:
    """Compares a monitor with that of rvbench."""
    has_ram = any(option is not None for option in (arguments.ram, arguments.boot, arguments.memory))
    plan = ScriptPlan(arguments.tries, arguments.items, str(arguments.seed), arguments.only, arguments.seconds, arguments.jobs, arguments.deep,
                      has_ram)
    show_conform(options_from(MonitorFiles, arguments), plan, Printer(arguments.json), arguments.findings, arguments.scripts, arguments.table)
