"""The subcommand `races`."""
from __future__ import annotations

from argparse import Namespace

from rvlook.cli.opening import opened, options_from, refuse_empty_part
from rvlook.finders.races.text import RacesOptions, show_races


def perform(arguments: Namespace) -> None:
    """Searches all schedules."""
    refuse_empty_part(arguments, 0)
    run, _, printer = opened(arguments)
    show_races(run, printer, options_from(RacesOptions, arguments), arguments.findings)
