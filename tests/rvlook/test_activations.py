"""The operations of activations, for code that a program stores into itself."""
import sys

from conftest import ROOT
from support.race_programs import assembled

sys.path.insert(0, str(ROOT / "python"))
from rvlook.access.activations import Activations  # noqa: E402
from rvlook.cli.opening import opened  # noqa: E402
from rvlook.cli.parser import read  # noqa: E402

WORD_AT = 0x80000020
NOP = "addi x0, x0, 0"  # the word 00000013
# Stores `lw x3, 0(x1)`, the word 0000a183, over the instruction at `word`, executes it, and stores the original instruction over it again.
TWICE = ["lui x1, 0x80000", "lui x2, 0xa", "addi x2, x2, 0x183", "sw x2, 32(x1)", "addi x4, x0, 0x13", NOP, NOP, NOP, "word: " + NOP, "sw x4, 32(x1)",
         "end: jal x0, end"]


def test_instruction_that_is_stored_and_replaced_again_is_decoded_as_executed(bench, tmp_path, monkeypatch):
    monkeypatch.setenv("RVBENCH", bench)
    image = tmp_path / "image"
    image.write_bytes(assembled(bench, TWICE))
    run, _, _ = opened(read(["leak", "--no-monitor", str(image), "--at", "image:80000100:4", "--tries", "1"]))
    (activation,) = Activations(run).all()
    assert [(it.pc, it.kind, it.address) for it in activation.operations] == [
        (0x8000000C, "w", WORD_AT), (WORD_AT, "r", 0x80000000), (0x80000024, "w", WORD_AT)]
