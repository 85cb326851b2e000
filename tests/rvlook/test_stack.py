"""Stack overflows: `map`, `touch` and `trace` report the first use of a stack outside the range that the symbols give."""
import shutil
import subprocess

import pytest

from conftest import BUILD, PROGRAMS, ROOT

FRAME = "rvlook: warning: stack overflow in e0 at step 67, sum: sp set to 800209e0, 704 bytes below application_stack_bottom\n"
SUBCOMMANDS = ("map", "touch", "trace")


@pytest.mark.parametrize("subcommand", SUBCOMMANDS)
def test_a_frame_below_the_stack_is_found(rvlook, program, subcommand):
    done = rvlook(subcommand, *program("stack_overflow"))
    assert (done.returncode, done.stderr) == (1, FRAME)
    assert done.stdout == rvlook(subcommand, "--exit-zero", *program("stack_overflow")).stdout


def test_exit_zero_keeps_the_message(rvlook, program):
    done = rvlook("map", "--exit-zero", *program("stack_overflow"))
    assert (done.returncode, done.stderr) == (0, FRAME)


@pytest.fixture
def uses(rvlook, program, tmp_path):
    """Runs a subcommand over the program `stack_uses` with a task."""
    def run(subcommand, task):
        script = tmp_path / "script"
        script.write_text("poke task %02x\n" % task)
        return rvlook(subcommand, *program("stack_uses"), "--script", script)
    return run


@pytest.mark.parametrize("task, text", [
    (1, "step 61, in_a_large_frame+8: sp set to 80020240, 288 bytes below application_stack_bottom"),
    (2, "step 150, fill+8: store to 8001fe44, 1308 bytes below application_stack_bottom"),
    (3, "step 153, fill+8: store to 80020e48, 72 bytes above application_stack_top")], ids=["register", "pointer_below", "pointer_above"])
def test_use_outside_the_stack_is_found(uses, task, text):
    for subcommand in SUBCOMMANDS:
        done = uses(subcommand, task)
        assert (done.returncode, done.stderr) == (1, "rvlook: warning: stack overflow in e0 at %s\n" % text)


def test_pointers_into_the_stack_and_their_distances_are_no_overflow(uses):
    done = uses("touch", 0)
    assert (done.returncode, done.stderr) == (0, "")


@pytest.mark.parametrize("name", ["adds", "hmac", "store", "two_harts"])
def test_the_examples_stay_inside_their_stacks(rvlook, name):
    folder = ROOT / "examples" / "enclaves" / name
    harts = ["--harts", "2"] if name in ("two_harts", "store") else []
    done = rvlook("map", "--monitor", *harts, folder / "image", "--script", folder / "script", "--symbols", folder / "symbols")
    assert "stack overflow" not in done.stderr
    assert done.returncode == 0


def test_without_symbols_of_a_stack_nothing_is_checked(rvlook, program):
    done = rvlook("map", "--monitor", program("stack_overflow")[0])
    assert (done.returncode, done.stderr) == (0, "")


@pytest.mark.skipif(not shutil.which("clang"), reason="clang is not installed")
def test_with_source_lines_the_line_is_reported(rvlook, tmp_path):
    shutil.copytree(PROGRAMS / "stack_overflow", tmp_path / "stack")
    elf = tmp_path / "program.elf"
    subprocess.run([BUILD, tmp_path / "stack", elf], check=True, capture_output=True)
    done = rvlook("trace", "--monitor", elf)
    assert "stack overflow in e0 at step 67, application.c:9: sp set to" in done.stderr


@pytest.mark.skipif(not shutil.which("clang"), reason="clang is not installed")
def test_a_smaller_buffer_is_no_overflow(rvlook, tmp_path):
    folder = tmp_path / "stack"
    shutil.copytree(PROGRAMS / "stack_overflow", folder)
    source = (folder / "application.c").read_text()
    (folder / "application.c").write_text(source.replace("#define SIZE 256", "#define SIZE 64"))
    elf = tmp_path / "program.elf"
    subprocess.run([BUILD, folder, elf], check=True, capture_output=True)
    done = rvlook("map", "--monitor", elf)
    assert (done.returncode, done.stderr) == (0, "")


@pytest.mark.skipif(not shutil.which("clang"), reason="clang is not installed")
def test_a_store_through_sp_above_the_stack_is_found(rvlook, tmp_path):
    folder = tmp_path / "stack"
    shutil.copytree(PROGRAMS / "stack_overflow", folder)
    (folder / "application_store.s").write_text(".globl application_store\napplication_store: sw zero, 512(sp)\n ret\n")
    (folder / "application.c").write_text(
        "void application_store(void);\nunsigned application(volatile unsigned *window)\n{\n    application_store();\n    return window[0];\n}\n")
    elf = tmp_path / "program.elf"
    subprocess.run([BUILD, folder, elf], check=True, capture_output=True)
    done = rvlook("touch", "--monitor", elf)
    assert done.returncode == 1
    assert " above application_stack_top" in done.stderr and "store to 80020ff" in done.stderr


def test_monitor_has_a_stack_of_its_own(rvlook):
    """M of a monitor on the bare machine does not use the stack of the host, whose frames are checked too."""
    folder = ROOT / "examples" / "monitors"
    words = ("map", "--no-monitor", "--script", folder / "boot", "--steps", "3000", folder / "two_enclaves" / "image", "--symbols")
    done = rvlook(*words, folder / "two_enclaves" / "symbols")
    assert (done.returncode, done.stderr) == (0, "")


def test_overflow_of_the_stack_of_the_monitor_is_found(rvlook, tmp_path):
    folder, symbols = ROOT / "examples" / "monitors" / "two_enclaves", tmp_path / "symbols"
    text = (folder / "symbols").read_text(encoding="ascii")
    top = next(line.split()[0] for line in text.splitlines() if line.endswith(" monitor_stack_top"))
    symbols.write_text("\n".join("%08x  monitor_stack_bottom" % (int(top, 16) - 16) if line.endswith(" monitor_stack_bottom") else line
                                 for line in text.splitlines()) + "\n")
    done = rvlook("map", "--no-monitor", "--script", folder.parent / "boot", "--steps", "600", folder / "image", "--symbols", symbols)
    assert done.returncode == 1 and " bytes below monitor_stack_bottom\n" in done.stderr
