"""The subcommand `verify`: answers questions about all paths of an enclave, for all inputs of the host and all values of its secrets."""
from __future__ import annotations

from typing import TYPE_CHECKING

from rvlook.output.printer import run_object
from rvlook.output.progress import Progress
from rvlook.symbolic.strategy import Strategy
from rvlook.symbolic.text import show
from rvlook.symbolic.world import World

if TYPE_CHECKING:
    from rvlook.image.variables import Variables
    from rvlook.output.findings import ReportedCases
    from rvlook.output.printer import Printer
    from rvlook.protocol.run import Run
    from rvlook.protocol.symbols import Symbols
    from rvlook.symbolic.options import VerifyOptions
    from rvlook.symbolic.search import Search


def find_verify(run: Run, symbols: Symbols, variables: Variables, options: VerifyOptions) -> Search:
    """Explores the paths of an enclave, and replays the findings. Returns the search that knows most. Its field `is_cut` says whether Ctrl-C ended
    the searches. Raises Unfinished if no enclave runs in the slot."""
    strategy = Strategy(World(run, symbols, variables, options), options)
    is_cut = False
    try:
        with Progress() as progress:
            strategy.go(progress)
    except KeyboardInterrupt:
        is_cut = True
    search = strategy.result()
    search.is_cut = is_cut
    strategy.confirm(search)
    search.not_confirmed = len([example for example in search.findings.values() if not example.answer])
    return search


def show_verify(run: Run, symbols: Symbols, variables: Variables, printer: Printer, options: VerifyOptions, findings: ReportedCases) -> None:
    """Explores the paths of an enclave, and prints what was found and covered. After Ctrl-C it prints what is known, and raises
    KeyboardInterrupt."""
    if printer.as_json:
        run_object(printer, run, symbols)
    search = find_verify(run, symbols, variables, options)
    show(search, printer, findings)
    if search.is_cut:
        printer.stream.flush()
        raise KeyboardInterrupt
