"""The subcommand `gdb`."""
from __future__ import annotations

from argparse import Namespace

from rvlook.cli.opening import setup_of
from rvlook.gdb.monitor import CommandLine
from rvlook.gdb.server import serve_gdb


def perform(arguments: Namespace) -> None:
    """Serves a debugger."""
    serve_gdb(setup_of(arguments), arguments.port, arguments.allow_files, CommandLine(*arguments.command_line))
