"""The reader of steps: it decodes each instruction as it is executed, also code that is changed, and code that is changed and restored."""
import sys
from dataclasses import replace

import pytest

from conftest import EXAMPLES, ROOT
from support.race_programs import REGIONS, assembled, call_script

sys.path.insert(0, str(ROOT / "python"))
from rvlook.access.touch import base_of  # noqa: E402
from rvlook.cli.opening import opened  # noqa: E402
from rvlook.cli.parser import read  # noqa: E402
from rvlook.protocol.reader import Reader, lines_of  # noqa: E402
from rvlook.protocol.stretch import Stretch  # noqa: E402

CREATE, DESTROY, MEASURE = 1, 2, 5
NOP = "addi x0, x0, 0"  # the word 00000013
CODE = 0x80010004  # of `word` in MEASURED
# Stores `lw x3, 0(x1)`, the word 0000a183, over the instruction at `word`, executes it, and stores the original instruction over it again.
RESTORED = ["lui x1, 0x80000", "lui x2, 0xa", "addi x2, x2, 0x183", "addi x4, x0, 0x13", "jal x0, word", NOP, NOP, NOP, "word: " + NOP,
            "beq x5, x2, back", "addi x5, x2, 0", "sw x2, 32(x1)", "jal x0, word", "back: sw x4, 32(x1)", "end: jal x0, end"]
# A digest is measured over the instructions that the host has executed, and will execute again.
MEASURED = ["ecall", "word: " + NOP, *[NOP] * 7, "ecall", "jal x0, word"]
# The host executes the first word of a region before its enclave is created, and after it is destroyed.
DESTROYED = ["jalr x1, 0(x9)", "ecall", "ecall", "jalr x1, 0(x9)", *[NOP] * 1020, "jalr x0, 0(x1)"]
SCRIPTS = {"measured": [*call_script(CREATE, REGIONS[0], 0x1000, 0, 0, REGIONS[0]), "step 9", *call_script(MEASURE, 0, CODE)],
           "destroyed": ["setreg 9 %x" % REGIONS[0], *call_script(CREATE, REGIONS[0], 0x1000, 0, 0, REGIONS[0]), "step 3", *call_script(DESTROY, 0)]}


def run_of(tmp_path, code, script, *words):
    """Returns the run of a raw image. A script sets registers before some steps; the steps themselves are one stretch wherever no line is between them."""
    image = tmp_path / "image"
    digits = code.hex()
    image.write_text("\n".join([*(digits[at:at + 120] for at in range(0, len(digits), 120)), "--", *script, ""]))
    return opened(read(["touch", str(image), "--steps", "100", *words]))[0]


def steps_of(run):
    """Returns the lines, the items and the values of the steps of a run as the reader gives them, and as it gives them if each step was decoded alone."""
    found, exact = [], []
    with Reader(run, base_of) as reader, Reader(run, base_of) as other:
        for item in run.stretches():
            if isinstance(item, Stretch):
                known = replace(item, lines=lines_of(run, item))
                for reads, several in ((reader.read(item), found), (other.read(known), exact)):
                    several += [list(reads.lines), list(reads.indices), list(reads.items), [reads.values[at] for at in reads.starts]]
    return found, exact


def lines_at(found, pc):
    """Returns the instructions that were executed at a pc."""
    return [it.partition(b": ")[2] for lines in found[::4] for it in lines if it.startswith(b"%x:" % pc)]


def test_code_that_is_changed_and_restored_within_a_stretch(bench, tmp_path, monkeypatch):
    monkeypatch.setenv("RVBENCH", bench)
    found, exact = steps_of(run_of(tmp_path, assembled(bench, RESTORED), [], "--no-monitor"))
    assert found == exact
    assert [it.split()[1] for it in lines_at(found, 0x80000020)] == [b"addi", b"lw"]


@pytest.mark.parametrize("name, code, at", [("measured", MEASURED, CODE), ("destroyed", DESTROYED, REGIONS[0])])
def test_code_that_the_monitor_changes(bench, tmp_path, monkeypatch, name, code, at):
    """The script sets the registers of the call before the stretch that calls, so that no line is between the first and the second execution."""
    monkeypatch.setenv("RVBENCH", bench)
    found, exact = steps_of(run_of(tmp_path, assembled(bench, code), SCRIPTS[name], "--monitor"))
    assert found == exact
    assert len(set(lines_at(found, at))) == 2


@pytest.mark.parametrize("name", ["changes", "rewrites"])
def test_programs_that_store_over_their_code(bench, monkeypatch, name):
    monkeypatch.setenv("RVBENCH", bench)
    found, exact = steps_of(opened(read(["touch", "--no-monitor", str(ROOT / "speed" / (name + ".image")), "--steps", "500"]))[0])
    assert found == exact


def test_runs_with_equal_replies_and_other_instructions(bench, tmp_path, monkeypatch):
    monkeypatch.setenv("RVBENCH", bench)
    runs = [run_of(tmp_path, assembled(bench, ["auipc x1, 0", access, "end: jal x0, end"]), [], "--no-monitor") for access in ("lw x3, 0(x1)", "sw x3, 4(x1)")]
    found = [steps_of(run) for run in runs]
    assert all(one == exact for one, exact in found)
    assert [it.kind for it, in (one[2] for one, _ in found)] == ["r", "w"]


@pytest.mark.parametrize("name", ["hmac", "hmac_attacked", "store", "adds"])
def test_code_that_does_not_change_is_decoded_once(bench, monkeypatch, name):
    monkeypatch.setenv("RVBENCH", bench)
    run = opened(read(["touch", "--monitor", str(EXAMPLES / "enclaves" / name / "image")]))[0]
    monkeypatch.setattr("rvlook.protocol.reader.lines_of", None)
    with Reader(run, base_of) as reader:
        assert sum(len(reader.read(it).lines) for it in run.stretches() if isinstance(it, Stretch)) > 100
