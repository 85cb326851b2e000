"""Symbols as operands of commands at the prompt."""
from conftest import PROGRAMS


def test_symbol_with_a_damaged_offset_is_refused(rvlook):
    folder = PROGRAMS / "bare_user"
    done = rvlook("--no-monitor", folder / "image", "--symbols", folder / "symbols", stdin="break _start+zz\nquit\n")
    assert done.returncode == 0
    assert "Traceback" not in done.stderr
    assert "error operand" in done.stdout
