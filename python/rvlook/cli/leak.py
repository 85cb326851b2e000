"""The subcommand `leak`."""
from __future__ import annotations

from argparse import Namespace
from importlib import import_module

from rvlook.cli.opening import opened, options_from, refuse_empty_part
from rvlook.errors import UsageError
from rvlook.finders.leak_search import Leak, LeakOptions, values_in
from rvlook.finders.leak_text import show_leak


def perform(arguments: Namespace) -> None:
    """Compares runs that differ in a secret."""
    refuse_empty_part(arguments, 1)
    if arguments.tries is not None and arguments.first > arguments.tries:
        raise UsageError("--from %d is greater than --tries %d" % (arguments.first, arguments.tries))
    if arguments.tries is None and len(arguments.secrets) != 2:
        raise UsageError("leak requires two secrets (ONE TWO) or --tries N; see 'rvlook leak --help'")
    run, _, printer = opened(arguments)
    values = [] if arguments.tries is not None else values_in(arguments.secrets)
    options = options_from(LeakOptions, arguments, is_strict=arguments.strict, values=values)
    show_leak(Leak(run, options, is_hidden), printer, arguments.findings)


def is_hidden(leak: Leak) -> bool:
    """Decides whether no secret changes what the host observes. Imports the modules of `verify`, which only equal runs need."""
    return bool(import_module("rvlook.symbolic.one_path").is_hidden(leak))
