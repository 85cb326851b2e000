"""A preloaded library refuses each allocation in turn. The program then either reports that it is out of memory, with no output before that,
or writes the complete correct output."""
import os
import re
import shutil
import subprocess
from pathlib import Path

import pytest

from cli.cases import EXAMPLES, case, example_input
from support.limits import HANG

LIBRARY = Path(__file__).with_name("refuse_allocation.c")
IN_A_ROW = 50  # runs with the correct output, after which no further allocation is refused
NO_MEMORY, RAM, LINE = "rvbench: memory", "rvbench: ram 2", "rvbench: line N fault 8"


def compiler():
    """Returns the C compiler: that of CC, of the kit, or of the system."""
    if os.environ.get("CC"):
        return [os.environ["CC"]]
    page = subprocess.run(["rt", "doc"], capture_output=True, text=True, check=False).stdout.strip() if shutil.which("rt") else ""
    clang = Path(page).parent / "toolchain/bin/clang"
    return [str(clang), "-fuse-ld=lld"] if page and clang.exists() else ["cc"]


@pytest.fixture(scope="module")
def library(tmp_path_factory):
    path = tmp_path_factory.mktemp("library") / "refuse_allocation.so"
    subprocess.run([*compiler(), "-shared", "-fPIC", "-nostdlib", "-fno-builtin", "-o", path, LIBRARY], check=True)
    return path


def run(program, words, data, **environment):
    done = subprocess.run([program, *words.split()], input=data, stdout=subprocess.PIPE, timeout=HANG, check=False, env={**os.environ, **environment})
    return done.stdout, done.returncode


def answers_in_turn(program, library, words, data, wanted):
    """Returns the distinct outputs under refused allocations, in the order in which they first occur."""
    found, at, right = [], 0, 0
    while right < IN_A_ROW:
        at += 1
        output, status = run(program, words, data, REFUSE_AT=str(at), LD_PRELOAD=str(library))
        if (output, status) == wanted:
            right += 1
            continue
        right = 0
        assert status == 1 and output.count(b"\n") == 1, (at, output[:100])
        kind = re.sub(r"line \d{1,3} ", "line N ", output.decode().rstrip("\n"))
        if kind not in found[-1:]:
            found.append(kind)
        assert len(found) < 5, found
    return found


def labels(count):
    return "".join("label_%d: jal x0, label_%d\n" % (it, it) for it in range(1, count + 1)).encode()


def example(name, words):
    folder = EXAMPLES / name
    return words, example_input(folder), ((folder / "stdout").read_bytes(), 0)


def command_line_case(name, words=""):
    it = case(name)
    return words, it.stdin, (it.stdout, it.status)


def long_script():
    lines = "".join("regs\nbreak %x\nwatch %x\nfly\nstep 1000\n" % (it, it) for it in range(1, 101))
    return case("first_replies/image_step_register").stdin + lines.encode()


RUNS = {
    "run": (lambda: command_line_case("first_replies/image_step_register"), [NO_MEMORY, RAM]),
    "run_ram": (lambda: command_line_case("first_replies/image_step_register", "run --ram 65536"), [NO_MEMORY, RAM]),
    "run_of_a_long_script": (lambda: ("", long_script(), None), [NO_MEMORY, RAM]),
    "run_monitor": (lambda: example("enclaves/at_rest", "run --monitor"), [NO_MEMORY, RAM]),
    "run_harts": (lambda: example("enclaves/two_harts", "run --monitor --harts 2"), [NO_MEMORY, RAM]),
    "twin": (lambda: command_line_case("twin_examples/destroy_clears", "twin"), [NO_MEMORY, RAM]),
    "asm": (lambda: command_line_case("asm/loop", "asm"), [NO_MEMORY, LINE]),
    "dis": (lambda: command_line_case("dis/fences_and_a_word_of_no_instruction", "dis"), [NO_MEMORY]),
    "asm_of_many_labels": (lambda: ("asm", labels(100), (b"6f000000\n" * 100, 0)), [NO_MEMORY, LINE]),
    "asm_of_an_unknown_label": (lambda: ("asm", labels(100) + b"jal x0, nowhere\n", (b"rvbench: line 101 fault 5\n", 1)), [NO_MEMORY, LINE]),
    "a_refused_word": (lambda: ("fly", b"", (b"rvbench: command line\n", 2)), [NO_MEMORY]),
    "a_refused_number": (lambda: ("run --ram x", b"", (b"rvbench: command line\n", 2)), [NO_MEMORY]),
    "two_bare_harts": (lambda: ("run --harts 2", b"", (b"rvbench: command line\n", 2)), [NO_MEMORY]),
    "help": (lambda: ("--help", b"", None), [NO_MEMORY]),
}


@pytest.mark.parametrize("name", RUNS)
def test_each_refused_allocation_is_reported(bench, library, name):
    make, kinds = RUNS[name]
    words, data, wanted = make()
    assert answers_in_turn(bench, library, words, data, wanted or run(bench, words, data)) == kinds
