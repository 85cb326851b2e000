"""The prompt, which is no subcommand."""
from __future__ import annotations

from argparse import Namespace

from rvlook.cli.opening import opened
from rvlook.prompt.prompt import show_prompt


def perform(arguments: Namespace) -> None:
    """Runs the prompt."""
    show_prompt(*opened(arguments))
