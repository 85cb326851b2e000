"""The options of the subcommands, and the types of their values."""
from __future__ import annotations

import argparse
import math
import re
from argparse import ArgumentParser
from contextlib import suppress
from functools import partial
from typing import Any, Callable, NoReturn

from rvlook.errors import UsageError
from rvlook.monitors.grammar import GRAMMAR
from rvlook.protocol.schedule import TURN
from rvlook.symbolic.options import VerifyOptions

LONG_NUMBER = re.compile(r"(\d{20})\d{20,}")
MOST_STEPS, MOST_STEPS_OF_RUN = 1000000, 1000000000  # the defaults of --steps
ABOUT_STEPS, ABOUT_STEPS_OF_RACES = "run at most N steps after the script", "give up a hart if one transition has more than N steps"  # its help
WORLD = re.compile(r"host\Z|bare\Z|[MSU]\Z|e([0-9]|1[0-2])\Z")


class Parser(argparse.ArgumentParser):
    """A parser that reports an error in one line, and accepts no abbreviated options."""

    def __init__(self, **settings: Any) -> None:
        super().__init__(allow_abbrev=False, **settings)

    def error(self, message: str) -> NoReturn:
        """Raises UsageError with the message of argparse, in which long numbers are cut."""
        raise UsageError("%s; see '%s --help'" % (LONG_NUMBER.sub(r"\1...", message), self.prog))


def number_in(text: str, what: str, convert: Callable[[str], float] = int, least: int = 0, end: float = math.inf) -> float:
    """Converts a number from `least` up to before `end`, and no NaN. Raises ArgumentTypeError; `what` describes a valid value."""
    with suppress(ValueError):
        number = convert(text)
        if least <= number < end:
            return number
    raise argparse.ArgumentTypeError("'%s' is not %s" % (text, what))


count = partial(number_in, what="a non-negative integer")
positive = partial(number_in, what="a positive integer", least=1)
seconds = partial(number_in, what="a non-negative number of seconds", convert=float)
turn = partial(number_in, what="a number of steps from 1 to %d" % TURN, least=1, end=TURN + 1)


def world(text: str) -> str:
    """Checks the name of a world, and returns it."""
    if not WORLD.match(text):
        raise argparse.ArgumentTypeError("invalid world '%s' (expected host, bare, M, S, U, or e0 to e12)" % text)
    return text


def image_options(parser: ArgumentParser, name: str = "") -> None:
    """Adds the options of the image and its run, for a subcommand or for the prompt. `page` and `gdb` parse --json, but their help leaves it out."""
    steps = MOST_STEPS_OF_RUN if name == "run" else MOST_STEPS
    about_steps = ABOUT_STEPS_OF_RACES if name == "races" else ABOUT_STEPS
    parser.add_argument("image", metavar="IMAGE", help="an ELF file, raw bytes, or a hex image, which may be followed by -- and a script")
    parser.add_argument("--script", metavar="FILE", help="run the commands in FILE first, and show their steps too")
    parser.add_argument("--monitor", action="store_true", default=None, help="run the image under the monitor (default: the image decides)")
    parser.add_argument("--no-monitor", dest="monitor", action="store_false", help="run the image on the bare machine, without the monitor")
    parser.add_argument("--ram", metavar="BYTES", type=int, default=1 << 20, help="set the size of the RAM (default: 1048576)")
    parser.add_argument("--kind", choices=("auto", "raw", "elf"), default="auto", help="set the format of the image (default: auto)")
    parser.add_argument("--harts", type=int, choices=(1, 2), default=1, help="set the number of harts; 2 requires --monitor (default: 1)")
    parser.add_argument("--symbols", metavar="FILE", help="read symbols from an ELF file or from the output of nm (default: from the image)")
    parser.add_argument("--steps", metavar="N", type=count, default=steps, help="%s (default: %d)" % (about_steps, steps))
    parser.add_argument("--json", action="store_true",
                        help=argparse.SUPPRESS if name in ("page", "gdb") else "print one JSON object per line (see docs/LOOK.md)")
    parser.set_defaults(opened=None, schedule=None, has_schedule=False, needs_order=False)


def schedule_options(parser: ArgumentParser) -> None:
    """Adds the options that set the order of the steps of two harts."""
    order = parser.add_mutually_exclusive_group()
    order.add_argument("--schedule", metavar="N", type=turn, help="with --harts 2: switch harts after every N steps, 1 to 32 (default: 32, "
                       "or never if the script executes steps or selects a hart)")
    order.add_argument("--seed", metavar="N", type=count, help="with --harts 2: switch harts after a random number of steps, 1 to 16; N "
                       "is the seed")
    parser.set_defaults(has_schedule=True)


def page_options(parser: ArgumentParser) -> None:
    """Adds the options of `page`."""
    parser.add_argument("--sources", metavar="DIR", action="append", default=[],
                        help="embed source files below DIR too; repeatable (default: only below the directory of the ELF file)")
    parser.set_defaults(has_sources=True)


def findings_options(parser: ArgumentParser) -> None:
    """Adds the options that report findings to a calling program."""
    parser.add_argument("--exit-zero", dest="is_report", action="store_true", help="exit as if there were no findings")
    parser.add_argument("--junit", metavar="FILE", help="write the findings to FILE as a JUnit XML report")


def option(*names: str, **settings: Any) -> Callable[[ArgumentParser], object]:
    """Returns a function that adds an option."""
    return lambda parser: parser.add_argument(*names, **settings)


expect_option = option("--expect", metavar="FAILURE", action="append",
                       help="do not count FAILURE as a finding. FAILURE is the name of a trap or of a status, such as 'store access fault' or "
                            "BadRegion; NAME@PLACE is a failure at one function or address only; repeatable")
lcov_option = option("--lcov", action="store_true", help="print line and function coverage in the lcov format for genhtml")
slot_option = option("--slot", metavar="K", type=int, choices=range(13), default=0, help="select the enclave in slot K (default: 0)")
public_option = option("--public", metavar="WHAT", action="append",
                       help="allow a difference in WHAT: bytes PLACE[:BYTES] of the window, instructions PLACE[:BYTES], or answer; repeatable")


def trace_options(parser: ArgumentParser) -> None:
    """Adds the options of `trace`."""
    parser.add_argument("--from", dest="first", metavar="N", type=positive, default=1, help="start at step N (default: 1)")
    parser.add_argument("--to", dest="last", metavar="N", type=positive, help="stop after step N")
    parser.add_argument("--world", metavar="WORLD", type=world, help="show only steps of WORLD: host, bare, e0 to e12, or a mode of a bare image")
    parser.add_argument("--function", metavar="NAME", help="show only steps in the function NAME")
    parser.add_argument("--traps", action="store_true", help="show only steps that trap")
    parser.add_argument("--short", action="store_true", help="print pseudoinstructions such as mv, li, ret and csrw")
    parser.add_argument("--format", choices=("rows", "spike"), default="rows",
                        help="set the output format; spike is Spike's commit log (default: rows)")


def map_options(parser: ArgumentParser) -> None:
    """Adds the options of `map`."""
    parser.add_argument("--brief", action="store_true", help="show only the changes at each event")
    parser.add_argument("--returns", action="store_true",
                        help="show what changes at each return from M on the bare machine, and memory that S may access only while M handles a trap")


def leak_options(parser: ArgumentParser) -> None:
    """Adds the options of `leak`."""
    parser.add_argument("--at", metavar="PLACE", required=True,
                        help="set the location of the secret: PLACE[:BYTES] in the region, image:PLACE[:BYTES], or REGISTER@PLACE for a register "
                             "when the enclave first reaches PLACE")
    parser.usage = "rvlook leak IMAGE --at PLACE [ONE TWO] [OPTIONS]; ONE and TWO are the secrets, in hexadecimal digits"
    parser.set_defaults(secrets=(), needs_order=True)
    parser.add_argument("--strict", action="store_true", help="compare the operands of divisions too: the time of a division may depend on them")
    public_option(parser)
    parser.add_argument("--tries", metavar="N", type=positive,
                        help="compare N generated pairs of secrets: corner values, single bits and random values")
    parser.add_argument("--seed", metavar="S", type=int, default=0, help="set the seed of the random values (default: 0)")
    part_options(parser, "start at pair N of --tries", "stop after pair N of --tries")
    jobs_option(parser, "compare N pairs of runs at the same time")


def inputs_options(parser: ArgumentParser) -> None:
    """Adds the options of `inputs`."""
    parser.add_argument("--at", metavar="PLACE", help="set the location of a secret as for leak; report inputs for which the secret comes out")
    public_option(parser)
    parser.add_argument("--runs", metavar="N", type=positive, default=300, help="try at most N runs (default: 300)")
    parser.add_argument("--seconds", metavar="S", type=seconds, help="stop after S seconds, and report the results so far")
    parser.add_argument("--seed", metavar="N", type=int, default=0, help="set the seed of the random values (default: 0)")
    parser.add_argument("--entry", action="store_true",
                        help="also vary registers at an entry of the enclave: a0 to a3 at the call run, and a0 at the call resume after a stop")
    parser.add_argument("--scripts", metavar="DIR", help="write an rvbench input for each finding to DIR")
    jobs_option(parser, "try N runs at the same time")


def window_options(parser: ArgumentParser) -> None:
    """Adds the options of `window`."""
    parser.add_argument("--slot", metavar="K", type=int, choices=range(13), help="show only the enclave in slot K")
    parser.add_argument("--at", metavar="PLACE",
                        help="set the location of a secret as for leak; show writes that depend on the secret, and copies of the secret")
    public_option(parser)


def verify_options(parser: ArgumentParser) -> None:
    """Adds the options of `verify`."""
    parser.add_argument("--at", metavar="PLACE", action="append", default=[],
                        help="set the location of a secret in the region, PLACE[:BYTES]; repeatable")
    parser.add_argument("--public", metavar="WHAT", action="append", default=[],
                        help="allow WHAT to depend on the secret. WHAT is answer, or PLACE[:BYTES] of the window or of instructions. "
                             "WHAT@answer=N allows a difference only in activations with the answer N; repeatable")
    parser.add_argument("--must-know", metavar="PLACE", action="append", default=[],
                        help="check that the secret comes out only if the host knows the bytes PLACE[:BYTES] of the region; repeatable")
    parser.add_argument("--must-matter", metavar="PLACE", action="append", default=[],
                        help="check that the outputs depend on each of these bytes of the secret, PLACE[:BYTES]; repeatable")
    parser.add_argument("--wiped", action="store_true",
                        help="check that nothing in the region or the registers depends on the secret at a stop, except the secret itself and public "
                             "values")
    parser.add_argument("--given", metavar="PLACE", action="append", default=[],
                        help="assume that the bytes PLACE[:BYTES] of the window are those of the run without changed inputs; repeatable")
    parser.add_argument("--length", metavar="PLACE:N", action="append", default=[],
                        help="leave out inputs for which a load at PLACE in the window gives a number larger than N; repeatable")
    parser.add_argument("--allow", metavar="PLACE", action="append", default=[],
                        help="assume that accesses at PLACE[:BYTES] or FILE:LINE are right if the rule of objects does not decide them; repeatable")
    parser.add_argument("--calm", action="store_true", help="assume that the host changes the window only between two activations")
    parser.add_argument("--each", dest="merges", action="store_false",
                        help="explore sequences of activations one by one, instead of merging the states of all stops")
    parser.add_argument("--activations", metavar="N", type=positive, help="with --each: explore N activations (default: as many as the run has)")
    parser.add_argument("--bound", metavar="N", type=positive, default=64,
                        help="follow a loop for N rounds if the host chooses the number of rounds (default: 64)")
    parser.add_argument("--loops", action="store_true",
                        help="merge paths at the head of a loop, to cover any number of rounds that the host may choose")
    parser.add_argument("--seconds", metavar="S", type=seconds, default=60, help="stop after S seconds, and report the results so far (default: 60)")
    parser.add_argument("--timeout", metavar="MS", type=positive, default=5000, help="give z3 MS milliseconds for a query (default: 5000)")
    parser.add_argument("--replay", metavar="N", type=count, default=10, help="replay every Nth path, 0 for none (default: 10)")
    parser.add_argument("--scripts", metavar="DIR", help="write an rvbench input for each finding to DIR")
    parser.set_defaults(path_steps=VerifyOptions.path_steps)


def timer_options(parser: ArgumentParser) -> None:
    """Adds the options of `timer`."""
    parser.add_argument("--every", metavar="N", type=positive, default=1, help="interrupt before every Nth step only (default: 1)")
    jobs_option(parser, "compare N parts of the run at the same time")
    parser.set_defaults(needs_order=True)


def races_options(parser: ArgumentParser) -> None:
    """Adds the options of `races`."""
    parser.add_argument("--outcome", metavar="WHAT", action="append",
                        help="distinguish final states by WHAT: PLACE[:BYTES], VARIABLE.MEMBER, HART.REGISTER, enclaves, or e0 to e12; repeatable "
                             "(default: all shared memory, and enclaves)")
    parser.add_argument("--forbid", metavar="CONDITION", action="append",
                        help="count only final states that meet CONDITION as findings: a comparison such as 'left != 2', or halts, waits, "
                             "livelock or unfinished; repeatable")
    parser.add_argument("--timer", dest="timers", metavar="N", type=count, default=0,
                        help="search schedules with at most N timer interrupts (default: 0)")
    parser.add_argument("--preemptions", metavar="N", type=count, help="allow at most N preemptions of a hart (default: any number)")
    parser.add_argument("--end", metavar="PLACE", action="append", help="end a hart before the instruction at PLACE; repeatable")
    parser.add_argument("--limit", metavar="N", type=count, default=0, help="end a hart after N of its own steps (default: 0, no limit)")
    parser.add_argument("--scripts", metavar="DIR", help="write an rvbench input for each final state to DIR")
    parser.add_argument("--no-reduction", "--plain", dest="plain", action="store_true",
                        help="switch harts before every step, without partial-order reduction (slower, same final states)")
    part_options(parser, "search only schedules whose first switch or timer interrupt comes after step N or a later step",
                 "search only schedules whose first switch or timer interrupt comes after step N or an earlier step")
    jobs_option(parser, "search and replay with N processes")


def jobs_option(parser: ArgumentParser, about: str) -> None:
    """Adds the option that sets the number of processes, with its help."""
    parser.add_argument("--jobs", metavar="N", type=positive, default=1, help=about + " (default: 1)")


def part_options(parser: ArgumentParser, first: str, last: str) -> None:
    """Adds the options that select a part of a long task, with their help, and its time limit."""
    parser.add_argument("--from", dest="first", metavar="N", type=count, default=0, help=first)
    parser.add_argument("--to", dest="last", metavar="N", type=count, help=last)
    parser.add_argument("--seconds", metavar="S", type=seconds, help="stop after S seconds, and report the results so far")


def monitor_options(parser: ArgumentParser) -> None:
    """Adds the options of a subcommand whose image is a monitor in M."""
    parser.add_argument("--ram", metavar="BYTES", type=int, default=0x30000, help="set the size of the RAM (default: 196608)")
    parser.add_argument("--symbols", metavar="FILE", help="read symbols from an ELF file or from the output of nm (default: from the image)")
    parser.add_argument("--boot", metavar="FILE",
                        help="run the commands in FILE before the first step (default: set a0 to 80010000, and a1 to the size of the RAM)")
    parser.add_argument("--lowered", metavar="SYMBOL", action="append",
                        help="clear the timer line when the monitor stores to SYMBOL; repeatable (default: when the hart takes the interrupt)")
    parser.add_argument("--seed", metavar="S", type=int, default=1, help="set the seed of the random values (default: 1)")
    parser.add_argument("--json", action="store_true", help="print one JSON object per line (see docs/LOOK.md)")


def conform_options(parser: ArgumentParser) -> None:
    """Adds the options of `conform`."""
    parser.add_argument("image", metavar="MONITOR", help="an ELF file with a monitor that runs in M")
    monitor_options(parser)
    parser.add_argument("--memory", metavar="FIRST-LAST",
                        help="set the memory of host and enclaves, which may access no other memory (default: from 80010000 to the end of the RAM)")
    parser.add_argument("--tries", metavar="N", type=count, default=60, help="run N random scripts after the directed ones (default: 60)")
    parser.add_argument("--items", metavar="N", type=positive, default=120, help="run about N items in each random script (default: 120)")
    parser.add_argument("--deep", action="store_true",
                        help="add scripts with many calls, and with blocks of up to 2 MiB in 4 MiB of RAM; this takes minutes")
    parser.add_argument("--exact", action="store_true", help="compare the stored PMP entries, mepc, mcause and mtval too")
    parser.add_argument("--only", metavar="TEXT", default="",
                        help="run only scripts with TEXT in the name, and accept empty cells of the coverage table")
    jobs_option(parser, "run N scripts at the same time")
    parser.add_argument("--seconds", metavar="S", type=seconds, help="stop after S seconds, and report the results so far")
    parser.add_argument("--scripts", metavar="DIR", help="write the shrunk script that shows a difference to DIR, once for each of the two monitors")
    parser.add_argument("--table", action="store_true", help="show the coverage table even if there is a difference")
    parser.set_defaults(ram=None, host=None)


def guard_options(parser: ArgumentParser) -> None:
    """Adds the options of `guard`."""
    parser.add_argument("image", metavar="IMAGE", help="an ELF file with a monitor that runs in M, its host and its enclaves")
    parser.add_argument("--host", metavar="FILE", help="load the host and its enclaves from a second ELF file")
    parser.add_argument("ranges", metavar="RANGES", help="a file that declares who owns which range")
    monitor_options(parser)
    parser.add_argument("--timers", metavar="N", type=count, default=8, help="run N times with timer interrupts at random steps (default: 8)")
    parser.add_argument("--steps", metavar="N", type=count, default=20000,
                        help="run at most N steps in S and U; steps in M do not count (default: 20000)")
    jobs_option(parser, "do N runs at the same time")
    parser.set_defaults(exact=False, memory=None)
    parser.epilog, parser.formatter_class = GRAMMAR, argparse.RawDescriptionHelpFormatter


def gdb_options(parser: ArgumentParser) -> None:
    """Adds the options of `gdb`."""
    parser.add_argument("--port", metavar="N", type=int,
                        help="listen on localhost port N, 0 for any free port (default: use standard input and output)")
    parser.add_argument("--allow-files", action="store_true", help="allow a debugger on the port to read and write files with `monitor`")


def measure_options(parser: ArgumentParser) -> None:
    """Adds the options of `measure`."""
    parser.add_argument("file", metavar="FILE", help="an ELF file, or the raw bytes of the region")
    for name in ("BASE", "SIZE", "WINDOW", "WINDOW_SIZE", "ENTRY"):
        parser.add_argument(name.lower(), metavar=name, help="a hexadecimal number or a symbol")
    parser.add_argument("--symbols", metavar="FILE", help="read symbols from an ELF file or from the output of nm (default: from FILE)")
    parser.add_argument("--json", action="store_true", help="print one JSON object (see docs/LOOK.md)")


def explain_options(parser: ArgumentParser) -> None:
    """Adds the options of `explain`."""
    parser.description = "Explain the errors of an rvbench input: the line, its meaning, and what to write instead."
    parser.usage = "rvlook explain [--json] INPUT [-- ARGUMENT...]"
    parser.add_argument("--json", action="store_true", help="print one JSON object per line (see docs/LOOK.md)")
    parser.add_argument("input", metavar="INPUT", help="a file with an image, a line -- and a script; - for standard input")
    parser.add_argument("arguments", metavar="ARGUMENT", nargs="*", help="arguments for ./rvbench, after -- (default: run)")


def new_options(parser: ArgumentParser) -> None:
    """Adds the argument of `new`."""
    parser.description = "Make a folder for an enclave of your own: sources, tests, a Makefile, tasks for an editor, and a script for CI."
    parser.add_argument("folder", metavar="DIR", help="the folder, which must be new or empty")
