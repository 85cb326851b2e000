"""`examples/build` on folders of others: no text of a folder is run or reaches a terminal, and only what the build made is removed."""
import os
import shutil
import signal
import subprocess

import pytest

from conftest import BUILD, EXAMPLES, ROOT
from support.builds import COMPILERS, build, with_clang
from support.limits import HANG, wait_until

ESCAPE = "\x1b[2J"


@pytest.fixture
def folder(tmp_path):
    """A copy of the sources of `enclave_adds`."""
    path = tmp_path / "adds"
    shutil.copytree(EXAMPLES / "enclaves" / "adds", path)
    return path


def add_symbol(folder, name, compiler="--clang"):
    """Adds a source of the host that defines a symbol of this name. gcc writes the name without quotes for C, so its source is assembly."""
    if compiler == "--gcc":
        (folder / "host_more.s").write_text('.globl "%s"\n.data\n"%s": .word 1\n' % (name, name))
        return
    quoted = name.replace("\\", "\\\\").replace("\n", "\\n").replace('"', '\\"')
    (folder / "host_more.c").write_text('int more __asm__("%s") = 1;\nvoid *used_more = &more;\n' % quoted)


@pytest.mark.parametrize("compiler", COMPILERS)
@pytest.mark.parametrize("end", ["bottom", "top"])
def test_name_of_a_symbol_is_not_run(folder, compiler, end):
    planted = folder / "planted"
    add_symbol(folder, "z\n1+a[$(id>planted)] T host_stack_%s" % end, compiler)
    done = build(folder, compiler=compiler)
    assert not planted.exists()
    assert done.returncode == 1
    assert "has a control character; rename it" in done.stderr


@with_clang
def test_name_with_a_line_break_is_refused(folder):
    """It would add a line to `symbols` that names any address."""
    add_symbol(folder, "z\n80010000 T application")
    before = (folder / "symbols").read_bytes()
    done = build(folder)
    assert (done.returncode, done.stderr) == (1, "build: error: the symbol 'z^J80010000 T application' has a control character; rename it\n")
    assert (folder / "symbols").read_bytes() == before


@with_clang
@pytest.mark.parametrize("name", [".build.config", ".build.backup", ".rvlook.backup"])
def test_other_hidden_files_of_the_folder_stay(folder, name):
    (folder / name).mkdir()
    (folder / name / "notes").write_text("kept\n")
    assert build(folder).returncode == 0
    assert (folder / name / "notes").read_text() == "kept\n"


@pytest.mark.parametrize("compiler", COMPILERS)
def test_relative_include_of_cflags_is_relative_to_the_folder(folder, compiler):
    """The build compiles `string.c`, which is elsewhere, with the same options."""
    (folder / "config.h").write_text("#define FIRST 1\n")
    (folder / "application.c").write_text("""void *memcpy(void *, const void *, unsigned);
unsigned application(volatile unsigned *window)
{
    unsigned numbers[2];
    memcpy(numbers, (const void *)window, sizeof numbers);
    return window[2] = numbers[0] + numbers[FIRST];
}
""")
    (folder / "link.ld").write_text((EXAMPLES / "shared" / "link.ld").read_text().replace("80020000, LENGTH = 4K", "80020000, LENGTH = 8K"))
    done = build(folder, compiler=compiler, cwd=ROOT, CFLAGS="-include config.h")
    assert (done.returncode, done.stderr) == (0, "")


@with_clang
def test_cflags_are_no_patterns_of_files(folder):
    """A word of CFLAGS such as -DNAME[1] is passed as it is, even if a file matches it."""
    (folder / "-DADDED1").write_text("")
    text = (folder / "application.c").read_text()
    (folder / "application.c").write_text("#ifdef ADDED1\n#error a file name became an option\n#endif\n" + text)
    done = build(folder, CFLAGS="-DADDED?")
    assert "a file name became an option" not in done.stderr


@pytest.mark.parametrize("compiler", COMPILERS)
def test_errors_of_the_compiler_have_no_control_characters(folder, compiler):
    (folder / ("host_%s.c" % ESCAPE)).write_text('int x = "%s;\n' % ESCAPE)
    done = build(folder, compiler=compiler)
    assert done.returncode == 1
    assert "host_^[[2J.c" in done.stderr
    assert all(it.isprintable() for it in done.stderr.splitlines())


@pytest.mark.parametrize("compiler", COMPILERS)
@pytest.mark.parametrize("name", ["host_call", "application_call"])
def test_names_in_errors_have_no_control_characters(folder, compiler, name):
    """The names are of a function that nothing defines, and of one that only the host defines."""
    (folder / (name + ".c")).write_text('int missing(void) __asm__("a%sb");\nint %s(void) { return missing(); }\n' % (ESCAPE, name))
    (folder / "host_more.c").write_text('extern int host_call(void);\nint (*used)(void) = %s;\n' % ("host_call" if name == "host_call" else "0"))
    if name == "application_call":
        add_symbol(folder, "a%sb" % ESCAPE)
    done = build(folder, compiler=compiler)
    assert done.returncode == 1
    assert "a^[[2Jb" in done.stderr
    assert all(it.isprintable() for it in done.stderr.splitlines())


def test_name_of_a_missing_folder_has_no_control_characters(tmp_path):
    done = build(str(tmp_path / ESCAPE))
    assert done.returncode == 1
    assert "^[[2J" in done.stderr and ESCAPE not in done.stderr


@with_clang
def test_folder_is_not_written_over(folder):
    (folder / "out").mkdir()
    done = build(folder, folder / "out")
    assert (done.returncode, done.stderr) == (1, "build: error: '%s' is not a regular file\n" % (folder / "out"))
    assert (folder / "out").is_dir()


@with_clang
def test_build_that_is_ended_leaves_no_temporary_folder(folder, tmp_path):
    temporary = tmp_path / "temporary"
    temporary.mkdir()
    (folder / "host_slow.c").write_text("".join("int slow_%d(int a) { return a * %d; }\n" % (it, it) for it in range(60000)))
    with subprocess.Popen([BUILD, "--clang", folder], env={**os.environ, "TMPDIR": str(temporary)}, stdout=subprocess.PIPE,
                          stderr=subprocess.PIPE) as process:
        assert wait_until(lambda: list(temporary.glob("*/*")))
        process.send_signal(signal.SIGTERM)
        process.communicate(timeout=HANG)
    assert process.returncode == 143
    assert not list(temporary.iterdir())


def test_help_has_the_usage():
    done = subprocess.run([BUILD, "--help"], capture_output=True, text=True, check=True)
    assert done.stdout.startswith("usage: examples/build [--clang|--gcc]")
