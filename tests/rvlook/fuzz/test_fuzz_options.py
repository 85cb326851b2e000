"""Command lines with options in any combination and with odd values: an exit status, and one line for what is refused."""
from hypothesis import strategies as st
from support.fuzzing import fuzz
from support.hostile import check, run

from conftest import EXAMPLES

ADDS = EXAMPLES / "enclaves" / "adds"
MONITOR = EXAMPLES / "monitors" / "two_enclaves"
VALUES = ["0", "1", "2", "-1", "32", "131072", "1000000", "9" * 30, "9" * 5000, "f" * 5000, "1e9", "nan", "inf", "0x10", "\u00b2", "", " ", "a0", "main",
          "main:4", "main+ffffffff", "80030000", "80030000:8", "a0@main", "image:main", "host", "e0", "e12", "hart", "text", "spike", "0.a0", "1.sp",
          "enclaves", "80030000 == 1", "all", "\x1b[2J", "\udcff", "/none", "--", "-h", "%s%n", "'", "raw", "elf"]
OPTIONS = ["--ram", "--kind", "--harts", "--schedule", "--seed", "--from", "--to", "--world", "--function", "--format", "--slot", "--at", "--public",
           "--tries", "--runs", "--every", "--outcome", "--forbid", "--timer", "--preemptions", "--end", "--limit", "--entry", "--symbols", "--script",
           "--boot", "--lowered", "--items", "--only", "--timers"]
FLAGS = ["--monitor", "--no-monitor", "--json", "--traps", "--short", "--brief", "--returns", "--lcov", "--strict", "--exit-zero", "--no-reduction"]
SUBCOMMANDS = ["map", "trace", "touch", "window", "inputs", "leak", "timer", "races", "page", "run", "measure", "explain", "guard", "conform"]
BOUNDED = {"inputs": ["--seconds", "2"], "leak": ["--seconds", "2"], "races": ["--seconds", "2"], "conform": ["--seconds", "2"]}

value = st.sampled_from(VALUES)
option = st.one_of(st.tuples(st.sampled_from(OPTIONS), value), st.tuples(st.sampled_from(FLAGS)))
given = st.tuples(st.sampled_from(SUBCOMMANDS), st.lists(option, max_size=3), st.lists(value, max_size=2))


def words_of(subcommand, options, more):
    """Returns a command line that ends in time."""
    image = MONITOR / "image" if subcommand in ("guard", "conform") else ADDS / "image"
    steps = ["--steps", "300"] if subcommand not in ("measure", "explain", "conform") else []
    ranges = [MONITOR / "ranges", "--timers", "1"] if subcommand == "guard" else []
    flat = [word for it in options for word in it]
    return [subcommand, image, *ranges, *flat, *more, *steps, *BOUNDED.get(subcommand, [])]


def test_command_lines_of_any_options(bench, fuzz_seconds):
    def holds(example):
        done = run(bench, *words_of(*example), seconds=60)
        check(done)
        assert done.status in (0, 1, 2, 3), (done.status, done.errors)
        assert done.status != 2 or done.errors

    fuzz(given, holds, 15, fuzz_seconds)
