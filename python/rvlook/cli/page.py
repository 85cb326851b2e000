"""The subcommand `page`."""
from __future__ import annotations

from argparse import Namespace

from rvlook.cli.opening import opened
from rvlook.errors import RvlookError
from rvlook.page.page import page_template, show_page


def perform(arguments: Namespace) -> None:
    """Writes a run as an HTML page. Raises RvlookError for --json, which the page does not have."""
    if arguments.json:
        raise RvlookError("page does not support --json; use map --json and trace --json")
    template = page_template()
    run, symbols, printer = opened(arguments)
    paths = [path for path in (arguments.symbols, arguments.image) if path] if arguments.has_sources else []
    show_page(run, symbols, printer, template, paths, arguments.sources)
