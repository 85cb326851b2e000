"""The command line: its subcommands and their arguments."""
from __future__ import annotations

import argparse
import os
import subprocess
import sys
from argparse import ArgumentParser, Namespace
from functools import partial
from importlib import import_module
from typing import Any, Callable, Sequence

from rvlook.cli.options import (Parser, conform_options, expect_option, explain_options, findings_options, gdb_options, guard_options, image_options,
                                inputs_options, lcov_option, leak_options, map_options, measure_options, new_options, page_options, races_options,
                                schedule_options, slot_option, timer_options, trace_options, verify_options, window_options)
from rvlook.errors import RvlookError, UsageError, reason_of
from rvlook.output.findings import ReportedCases, check_junit, write_junit
from rvlook.protocol.nearest import meant

USAGE = "rvlook [SUBCOMMAND] IMAGE [OPTIONS]"
SUBCOMMANDS = """subcommands:
  run          run a program to its end, and print its console output
  map          show who can access each byte, and each change of these rights
  trace        show each step: instruction, registers, memory access, trap
  touch        show the bytes that each world read, wrote and executed
  window       show what an enclave did with its window in each activation
  inputs       vary the inputs of an enclave, and show the errors and leaks that the host can cause
  verify       answer questions about all paths of an enclave, for all inputs and secrets
  leak         compare runs that differ only in a secret of an enclave
  timer        interrupt an enclave before each step, and compare the results
  races        search all schedules of two harts and of timer interrupts
  conform      compare an M-mode monitor with the monitor of rvbench
  guard        check that an M-mode monitor with calls of any kind isolates worlds
  measure      compute the measurement of an enclave, as create records it
  explain      explain the errors of an rvbench input
  page         write the run as an HTML page
  gdb          serve the run to gdb: target remote | ./rvlook gdb IMAGE
  new          make a folder for an enclave of your own

Without a subcommand, rvlook IMAGE starts an interactive prompt.
See 'rvlook SUBCOMMAND --help' and docs/LOOK.md."""

PACKAGE = os.path.dirname(os.path.dirname(os.path.realpath(__file__)))
INSTALLED = os.path.join(PACKAGE, "../../version")  # what ./install wrote
PRINTER = os.path.join(PACKAGE, "../../tools/version")  # the script of a clone that prints the version


def later(name: str) -> Callable[[Namespace], None]:
    """Returns the function that runs a subcommand. It imports the module of the subcommand: the import of all would take longer than most runs."""
    def do(arguments: Namespace) -> None:
        import_module("rvlook.cli." + name).perform(arguments)
    return do


def add_subcommand(subparsers: Any, name: str, about: str, *more: Callable[[ArgumentParser], object]) -> None:
    """Adds a subcommand whose help begins with `about`; each function of `more` adds options to its parser."""
    parser = subparsers.add_parser(name, help=about, description=about + ".")
    for options in more:
        options(parser)
    parser.set_defaults(do=later(name), subcommand=name)


class Version(argparse.Action):
    """Prints the version, and exits."""

    def __call__(self, *_: Any) -> None:
        print(version())
        sys.exit(0)


OVER_AN_IMAGE: Sequence[Any] = (  # a name, its help, and its options
    ("run", "Run a program to its end, print its console output, and exit with its status", expect_option, schedule_options, findings_options),
    ("map", "Show who can access each byte of memory, and each change of these rights", map_options, schedule_options, findings_options),
    ("trace", "Show each step of a run", trace_options, schedule_options, findings_options),
    ("touch", "Show the bytes that each world read, wrote and executed, and the bytes that it could access", lcov_option, schedule_options,
     findings_options),
    ("window", "Show what an enclave read, wrote and left in its window in each activation", window_options, schedule_options, findings_options),
    ("inputs", "Vary the inputs of an enclave, and show the errors and leaks that the host can cause", slot_option, inputs_options,
     expect_option, findings_options),
    ("verify", "Explore all paths of an enclave, for all inputs of the host and all values of its secrets", slot_option, verify_options,
     schedule_options, findings_options),
    ("leak", "Compare runs that differ only in a secret of an enclave, and show where they diverge", slot_option, leak_options, findings_options),
    ("timer", "Interrupt an enclave before each of its steps, and check that the result stays the same", slot_option, timer_options,
     findings_options),
    ("races", "Search all schedules of two harts and of timer interrupts, and show the final states", races_options, findings_options),
    ("page", "Write the run as an HTML page", page_options, schedule_options),
    ("gdb", "Serve the run to a debugger by the GDB remote serial protocol", gdb_options, schedule_options))
OTHERS: Sequence[Any] = (  # the same without an image that is run
    ("conform", "Compare an M-mode monitor with the monitor of rvbench, call by call", conform_options, findings_options),
    ("guard", "Check that an M-mode monitor with calls of any kind isolates the worlds in S and U", guard_options, findings_options),
    ("measure", "Compute the measurement of an enclave, as the monitor's create records it", measure_options),
    ("explain", "Explain the errors of an rvbench input", explain_options, findings_options),
    ("new", "Make a folder for an enclave of your own", new_options))
NAMES = tuple(name for name, *_ in (*OVER_AN_IMAGE, *OTHERS))  # each is also the name of a module of this package


def parser_of(name: str = "") -> Parser:
    """Returns the parser of all subcommands. If the arguments begin with the name of a subcommand, only this subcommand has its options."""
    parser = Parser(prog="rvlook", usage=USAGE, epilog=SUBCOMMANDS, formatter_class=argparse.RawDescriptionHelpFormatter,
                    description="Show what a host and its enclaves can access, and when, in a run of rvbench.")
    parser.set_defaults(findings=ReportedCases(), is_report=False, junit=None, subcommand=None, command_line=(NAMES, read))
    parser.add_argument("--version", action=Version, nargs=0, help="print the version, the commit and the Rattle kit")
    subparsers = parser.add_subparsers(prog="rvlook", metavar="SUBCOMMAND", help=argparse.SUPPRESS)
    over_an_image = [(subcommand, about, partial(image_options, name=subcommand), *options) for subcommand, about, *options in OVER_AN_IMAGE]
    for subcommand, about, *options in (*over_an_image, *OTHERS):
        add_subcommand(subparsers, subcommand, about, *(options if subcommand == name or name not in NAMES else ()))
    return parser


def complete() -> None:
    """Prints the completions of a command line, and exits, if a shell asks for them by argcomplete's variables."""
    if "_ARGCOMPLETE" in os.environ:
        import argcomplete
        argcomplete.autocomplete(parser_of(), print_suppressed=True)


def with_secrets(parser: Parser, arguments: Sequence[str]) -> Namespace:
    """Parses the arguments of `leak`, whose two secrets may be anywhere after the image."""
    parsed, unrecognized = parser.parse_known_args(arguments)
    if len(unrecognized) > 2 or any(word.startswith("-") for word in unrecognized):
        parser.error("unrecognized arguments: %s" % " ".join(unrecognized))
    parsed.secrets = unrecognized
    return parsed


def read(arguments: Sequence[str]) -> Namespace:
    """Parses the command line."""
    complete()
    parser = parser_of(*arguments[:1])
    if not arguments:
        parser.print_help()
        sys.exit(2)
    if arguments[0] == "leak":
        return with_secrets(parser, arguments)
    if arguments[0] in NAMES or arguments[0] in ("-h", "--help", "--version"):
        return parser.parse_args(arguments)
    if not arguments[0].startswith("-") and not os.path.exists(arguments[0]):
        raise UsageError("no subcommand or file '%s'%s" % (arguments[0], meant(arguments[0], NAMES, "see 'rvlook --help'")))
    alone = Parser(prog="rvlook", usage=USAGE)
    image_options(alone)
    alone.set_defaults(do=later("prompt"), findings=ReportedCases(), is_report=False, junit=None)
    return alone.parse_args(arguments)


def perform(arguments: Namespace) -> int:
    """Runs the subcommand, and writes the JUnit report even if it fails; returns the exit status."""
    check_junit(arguments.junit)
    error = ""
    try:
        arguments.do(arguments)
        return arguments.findings.status(arguments.is_report)
    except BaseException as fault:  # the report must not look like that of a run that was finished
        error = "interrupted" if isinstance(fault, KeyboardInterrupt) else str(fault) if isinstance(fault, RvlookError) else reason_of(fault)
        raise
    finally:
        if arguments.junit:
            write_junit(arguments.junit, arguments.subcommand, arguments.findings, error)


def version() -> str:
    """Returns the version as `rvlook 0.1 (commit COMMIT, KIT)`; only the name if neither a clone nor an installation is around the package."""
    if os.path.exists(INSTALLED):
        with open(INSTALLED, encoding="utf-8") as file:
            return file.read().strip().replace("rvbench", "rvlook", 1)
    if os.path.exists(PRINTER):
        return subprocess.run([PRINTER, "rvlook"], stdout=subprocess.PIPE, text=True, check=False).stdout.strip()
    return "rvlook"
