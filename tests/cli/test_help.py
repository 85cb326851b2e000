"""Help texts: on standard output, with status 0. The examples in them run unchanged."""
import re
import subprocess

import pytest

from support.limits import HANG

SUBCOMMANDS = ("run", "twin", "asm", "dis")
OPTIONS = {"run": ("--ram <BYTES>", "--kind <", "--monitor ", "--harts <HARTS>"),
           "twin": ("--slot <K>", "--kind <", "--ram <BYTES>", "--harts <HARTS>")}
EXAMPLE = re.compile(r"^  (printf '.*) \| rvbench(.*)$", re.M)
LAST_LINE = {"": "x1=ffffffff", "run": "pc=80000004", "twin": "twin end 4", "asm": "e39e00fe", "dis": "fff00093 addi x1, x0, -1"}
ENTRIES = ("step", "run", "break", "watch", "reg", "csr", "mem", "dis", "pmp,", "enclaves", "hart")


@pytest.fixture
def help_of(bench):
    """Returns the help for these arguments; nothing else is written."""
    def text(*words):
        done = subprocess.run([bench, *words], stdin=subprocess.DEVNULL, capture_output=True, text=True, timeout=HANG, check=False)
        assert (done.returncode, done.stderr) == (0, "")
        return done.stdout
    return text


def has_line(text, beginning):
    return re.search("^ *" + re.escape(beginning), text, re.M)


@pytest.mark.parametrize("word", ["--help", "-h", "help"])
def test_help_lists_the_subcommands(help_of, word):
    text = help_of(word)
    assert has_line(text, "Usage: rvbench")
    for subcommand in (*SUBCOMMANDS, "help"):
        assert has_line(text, subcommand + " "), subcommand


@pytest.mark.parametrize("subcommand", SUBCOMMANDS)
@pytest.mark.parametrize("form", ["{} --help", "{} -h", "help {}"])
def test_each_subcommand_has_help_with_its_options(help_of, subcommand, form):
    text = help_of(*form.format(subcommand).split())
    assert has_line(text, "Usage: rvbench " + subcommand)
    for option in OPTIONS.get(subcommand, ()):
        assert has_line(text, option), option


@pytest.mark.parametrize("words", ["run --ram 65536 --help", "run --harts 2 --help"])
def test_help_is_printed_after_other_options(help_of, words):
    assert has_line(help_of(*words.split()), "Usage: rvbench run")


@pytest.mark.parametrize("words", ["run --help --bad", "--help --bad", "run --harts 2 --help"])
def test_help_before_a_mistake_is_printed(help_of, words):
    assert has_line(help_of(*words.split()), "Usage: rvbench")


@pytest.mark.parametrize("words", ["run --bad --help", "--bad --help", "run --ram x --help", "help bogus"])
def test_a_mistake_before_help_is_refused(bench, words):
    done = subprocess.run([bench, *words.split()], stdin=subprocess.DEVNULL, capture_output=True, text=True, timeout=HANG, check=False)
    assert (done.returncode, done.stdout, done.stderr) == (2, "rvbench: command line\n", "")


@pytest.mark.parametrize("name", ENTRIES)
def test_the_help_of_run_lists_the_commands(help_of, name):
    assert re.search("^  %s " % re.escape(name), help_of("run", "--help"), re.M)


@pytest.mark.parametrize("subcommand", ["", *SUBCOMMANDS])
def test_the_example_in_the_help_runs(bench, help_of, subcommand):
    text = help_of(*subcommand.split(), "--help")
    assert has_line(text, "Example: ")
    given, words = EXAMPLE.search(text).groups()
    done = subprocess.run(["bash", "-c", '%s | "$0"%s' % (given, words), bench], capture_output=True, text=True, timeout=HANG, check=True)
    assert done.stdout.splitlines()[-1].startswith(LAST_LINE[subcommand])
