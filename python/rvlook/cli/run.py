"""The subcommand `run`."""
from __future__ import annotations

from argparse import Namespace
from dataclasses import replace

from rvlook.cli.opening import run_from, setup_of
from rvlook.output.printer import Printer
from rvlook.trace.emulator import show_run


def perform(arguments: Namespace) -> None:
    """Runs a program to its end."""
    setup = setup_of(arguments)
    show_run(run_from(arguments, replace(setup, schedule="")), setup.schedule, Printer(arguments.json), arguments)
