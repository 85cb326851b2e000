"""`examples/build`: its results with either compiler, its errors, the stacks that it reports, and hostile source folders."""
import os
import re
import shutil
import subprocess

import pytest

from conftest import BUILD, PROGRAMS, ROOT
from support.builds import COMPILERS, HAS_CLANG, build, with_clang

EXAMPLES = ROOT / "examples"
LINK = EXAMPLES / "shared" / "link.ld"
STORED = tuple("enclaves/" + it for it in ("adds", "bug", "host_inputs", "hmac", "hmac_attacked", "refused", "store", "store_leaking", "timer", "at_rest",
                                           "two_harts")) + ("monitors/own_monitor",)
MONITOR = EXAMPLES / "monitors" / "own_monitor"
MEMCPY = """void *memcpy(void *to, const void *from, unsigned size)
{
    char *out = to;
    const char *in = from;
    while (size--)
        *out++ = *in++;
    return to;
}
"""
COPYING = """void *memcpy(void *, const void *, unsigned);
unsigned application(volatile unsigned *window)
{
    unsigned numbers[2];
    memcpy(numbers, (const void *)window, sizeof numbers);
    return window[2] = numbers[0] + numbers[1];
}
"""
OF_MORE_FILES = """unsigned sum_of(unsigned, unsigned);
unsigned application_twice(unsigned);
unsigned application(volatile unsigned *window)
{
    return window[2] = application_twice(sum_of(window[0], window[1]));
}
"""


@pytest.fixture
def folder(tmp_path):
    """A copy of the sources of `enclave_adds`."""
    path = tmp_path / "adds"
    shutil.copytree(EXAMPLES / "enclaves" / "adds", path)
    return path


def is_clang_14():
    done = subprocess.run(["clang", "--version"], capture_output=True, text=True, check=False) if HAS_CLANG else None
    return bool(done) and "version 14." in done.stdout


def write_application(folder, text, host=None):
    """Writes another application into the folder, with a region of 8 KiB; `host` is text before the source of the host."""
    (folder / "application.c").write_text(text)
    (folder / "link.ld").write_text(LINK.read_text().replace("80020000, LENGTH = 4K", "80020000, LENGTH = 8K"))
    if host:
        (folder / "host.c").write_text(host + (folder / "host.c").read_text())


def address_of(folder, name):
    """Returns the address of a symbol in the listing, as text."""
    return re.search("^([0-9a-f]{8})  %s$" % name, (folder / "symbols").read_text(), re.M)[1]


def last_reply(program, folder, *commands):
    """Runs the image of the folder until the host halts; returns the last line of the output."""
    script = "--\nbreak %s\nrun 1000000\n%s\n" % (address_of(folder, "halt"), "\n".join(commands))
    done = subprocess.run([program, "run", "--monitor"], input=(folder / "image").read_text() + script, capture_output=True, text=True, check=True)
    return done.stdout.splitlines()[-1]


@pytest.mark.skipif(not is_clang_14(), reason="clang 14 is not installed")
@pytest.mark.parametrize("name", STORED)
def test_the_stored_images_are_what_clang_14_builds(tmp_path, name):
    examples = tmp_path / "examples"
    shutil.copytree(EXAMPLES, examples, symlinks=True)
    (tmp_path / "python").symlink_to(ROOT / "python")
    done = build(name, command=examples / "build")
    assert (done.returncode, done.stderr) == (0, "")
    for part in ("image", "symbols"):
        assert (examples / name / part).read_bytes() == (EXAMPLES / name / part).read_bytes(), part


@pytest.mark.parametrize("compiler", COMPILERS)
def test_an_enclave_that_uses_a_function_of_the_host_is_refused(folder, compiler):
    write_application(folder, COPYING.replace("memcpy", "copied"), MEMCPY.replace("memcpy", "copied"))
    done = build(folder, compiler=compiler)
    assert (done.returncode, done.stderr) == (1, "build: error: the enclave uses functions that only the host has: copied\n")


@pytest.mark.parametrize("compiler", COMPILERS)
def test_an_enclave_that_is_too_large_is_refused(folder, compiler):
    (folder / "application.c").write_text("unsigned char table[5000] = {1};\n" + (folder / "application.c").read_text())
    done = build(folder, compiler=compiler)
    first, second, third = done.stderr.splitlines()
    assert done.returncode == 1
    assert re.fullmatch(r"build: error: REGION of %s is too small by \d+ bytes" % LINK, first)
    assert second == "  the size of a region or window is a power of two, at least 4096; its address is a multiple of its size"
    assert third == "  copy %s to %s, and increase the LENGTH of REGION" % (LINK, folder)


@pytest.mark.parametrize("compiler", COMPILERS)
def test_a_function_that_no_source_has_is_reported(folder, compiler):
    text = (folder / "application.c").read_text().replace("return window[2];", "return __udivdi3(window[2], window[1]);")
    (folder / "application.c").write_text("unsigned long long __udivdi3(unsigned long long, unsigned long long);\n" + text)
    done = build(folder, compiler=compiler)
    assert done.returncode == 1
    assert done.stderr.startswith("build: error: undefined functions: __udivdi3\n  memcpy, memmove, memset and memcmp are provided;")


@pytest.mark.parametrize("compiler", COMPILERS)
def test_memcpy_is_given_to_an_enclave_without_one(bench, folder, compiler):
    write_application(folder, COPYING)
    assert build(folder, compiler=compiler).returncode == 0
    assert last_reply(bench, folder, "mem 80030008 4") == "80030008: b3 15 00 00"


@pytest.mark.parametrize("compiler", COMPILERS)
def test_host_and_enclave_may_each_have_a_memcpy(bench, folder, compiler):
    write_application(folder, MEMCPY + COPYING.split("\n", 1)[1], MEMCPY)
    assert build(folder, compiler=compiler).returncode == 0
    assert address_of(folder, "region_size") == "00002000"
    assert last_reply(bench, folder, "mem 80030000 12") == "80030000: d2 04 00 00 e1 10 00 00 b3 15 00 00"


@pytest.mark.parametrize("compiler", COMPILERS)
def test_all_files_of_a_folder_are_built_with_cflags(bench, folder, compiler):
    write_application(folder, OF_MORE_FILES)
    (folder / "sums.c").write_text("unsigned sum_of(unsigned a, unsigned b) { return a + b + ADDED; }\n")
    (folder / "application_twice.s").write_text(".globl application_twice\napplication_twice: slli a0, a0, 1\n ret\n")
    done = build(folder, compiler=compiler, CFLAGS="-DADDED=7")
    assert done.returncode == 0, done.stderr
    assert last_reply(bench, folder, "mem 80030008 4") == "80030008: 74 2b 00 00"


@pytest.mark.parametrize("compiler", COMPILERS)
def test_a_word_of_the_window_is_stored_by_one_instruction(folder, compiler):
    assert build(folder, compiler=compiler).returncode == 0
    assert "  sb " not in (folder / "listing").read_text()


@pytest.mark.parametrize("compiler", COMPILERS)
def test_the_hmac_is_right_by_either_compiler(bench, tmp_path, compiler):
    folder = tmp_path / "hmac"
    shutil.copytree(EXAMPLES / "enclaves" / "hmac", folder)
    assert build(folder, compiler=compiler).returncode == 0
    codes = last_reply(bench, folder, "mem %s 64" % address_of(folder, "codes")).split(":")[1]
    assert codes == (EXAMPLES / "enclaves" / "hmac" / "stdout").read_text().splitlines()[-1].split(":")[1]


def test_a_folder_that_is_not_there_is_refused(tmp_path):
    done = build(tmp_path / "nowhere")
    assert done.returncode == 1
    assert done.stderr == "build: error: no folder '%s', neither here nor in examples\n" % (tmp_path / "nowhere")


@with_clang
def test_each_stack_is_reported(folder):
    done = build(folder)
    assert done.returncode == 0, done.stderr
    assert done.stdout == "build: stack sizes in bytes: host 65216, application 3264, runtime 512\n"
    assert done.stderr == ""


@with_clang
def test_stacks_of_a_program_with_many_symbols_are_reported(folder):
    (folder / "host_more.s").write_text("".join("symbol_with_a_long_name_to_fill_the_pipe_%d = %d\n" % (it, it) for it in range(4000)))
    done = build(folder)
    assert done.returncode == 0, done.stderr
    assert done.stdout == "build: stack sizes in bytes: host 65216, application 3264, runtime 512\n"


@with_clang
def test_a_small_stack_is_a_warning(tmp_path):
    path = tmp_path / "stack"
    shutil.copytree(PROGRAMS / "stack_overflow", path)
    done = build(path)
    assert done.returncode == 0
    assert done.stderr == ("build: warning: the application has 352 bytes of stack, fewer than 1024; "
                           "increase the LENGTH of REGION in link.ld\n")
    assert build("--stack", "300", path).stderr == ""


@with_clang
def test_a_response_file_of_the_compiler_is_a_source(folder):
    """As a response file, `@a.c` would pass options such as -fplugin=./p.so to the compiler."""
    (folder / "@a.c").write_text("-fplugin=./planted.so\n")
    done = build(folder)
    assert done.returncode != 0
    assert "planted.so" not in done.stderr or "plugin" not in done.stderr.split("error")[0]
    assert "@a.c:1:1: error" in done.stderr
    (folder / "@a.c").write_text("int planted(void) { return 1; }\n")
    assert build(folder).returncode == 0


@with_clang
def test_a_source_that_begins_with_a_dash_is_no_option(folder):
    (folder / "-fplugin=x.c").write_text("int planted(void) { return 1; }\n")
    done = build(folder)
    assert done.returncode == 0, done.stderr


@with_clang
@pytest.mark.parametrize("arguments", [("-P",), ("./-P",), ("--", "-P")])
def test_a_folder_that_begins_with_a_dash_is_no_option(folder, arguments):
    odd = folder.rename(folder.parent / "-P")
    done = build(*arguments, cwd=odd.parent)
    assert done.returncode == 0, done.stderr


@with_clang
@pytest.mark.parametrize("name", ["listing", "image", "symbols"])
def test_an_output_replaces_a_symbolic_link_and_not_its_target(folder, name):
    target = folder.parent / "target"
    target.write_text("kept\n")
    (folder / name).unlink(missing_ok=True)
    (folder / name).symlink_to(target)
    assert build(folder).returncode == 0
    assert target.read_text() == "kept\n"
    assert not (folder / name).is_symlink()


@with_clang
def test_the_elf_file_replaces_a_symbolic_link_and_not_its_target(folder):
    target = folder.parent / "target"
    target.write_text("kept\n")
    (folder / "program.elf").symlink_to(target)
    assert build(folder, folder / "program.elf").returncode == 0
    assert target.read_text() == "kept\n"
    assert (folder / "program.elf").read_bytes().startswith(b"\x7fELF")


@with_clang
def test_no_temporary_file_is_left(folder):
    before = {it.name for it in folder.iterdir()}
    assert build(folder, folder / "program.elf").returncode == 0
    assert {it.name for it in folder.iterdir()} == before | {"program.elf", "listing"}


@with_clang
def test_cdpath_does_not_choose_another_folder(folder, tmp_path):
    decoy = tmp_path / "elsewhere" / folder.name
    shutil.copytree(folder, decoy)
    (decoy / "host.c").write_text("#error decoy\n")
    done = build(folder.name, cwd=folder.parent, CDPATH=str(decoy.parent))
    assert done.returncode == 0, done.stderr


@with_clang
def test_build_runs_through_a_symbolic_link(folder, tmp_path):
    link = tmp_path / "bin" / "build"
    link.parent.mkdir()
    link.symlink_to(BUILD)
    assert build(folder, command=link).returncode == 0


@with_clang
def test_a_source_that_is_no_regular_file_is_refused(folder):
    os.mkfifo(folder / "pipe.c")
    done = build(folder)
    assert done.returncode == 1
    assert done.stderr == "build: error: 'pipe.c' is not a regular file\n"


def symbol_in(elf, name):
    """Returns the address of a symbol of an ELF file, as text."""
    tool = "llvm-nm" if HAS_CLANG else "riscv64-unknown-elf-nm"
    text = subprocess.run([tool, elf], capture_output=True, text=True, check=True).stdout
    return re.search(r"^([0-9a-f]{8}) \w %s$" % name, text, re.M)[1]


@pytest.mark.parametrize("compiler", COMPILERS)
def test_a_monitor_and_a_host_are_linked_into_one_file(bench, folder, tmp_path, compiler):
    before = sorted((it.name, it.read_bytes()) for it in folder.iterdir())
    elf = tmp_path / "pair.elf"
    done = build("--with-monitor", MONITOR, folder, elf, compiler=compiler)
    assert (done.returncode, done.stderr) == (0, "")
    assert sorted((it.name, it.read_bytes()) for it in folder.iterdir()) == before
    boot = (EXAMPLES / "monitors" / "boot").read_text()
    script = "%sbreak %s\nrun 1000000\nmem %s 4\n" % (boot, symbol_in(elf, "halt"), symbol_in(elf, "sum"))
    image = re.sub("(.{1,120})", r"\1\n", elf.read_bytes().hex())
    done = subprocess.run([bench, "run"], input=image + "--\n" + script, capture_output=True, text=True, check=True)
    lines = done.stdout.splitlines()
    assert "mode=S world=bare why=break" in lines[-2]
    assert lines[-1].endswith(": b3 15 00 00")  # 1234 + 4321


def test_a_monitor_without_a_link_script_is_refused(tmp_path):
    (tmp_path / "monitor.c").write_text("int x;\n")
    done = build(tmp_path)
    assert (done.returncode, done.stderr) == (1, "build: error: no link.ld in '%s'\n" % tmp_path)


def test_a_folder_without_a_monitor_is_refused_as_one(folder, tmp_path):
    done = build("--with-monitor", folder, folder, tmp_path / "pair.elf")
    assert (done.returncode, done.stderr) == (
        1, "build: error: no monitor in '%s': it has no monitor.c, and no link.ld with ENTRY(monitor_entry)\n" % folder)


OTHER_MONITOR = ROOT / "tests" / "cli" / "other_monitor"  # a link script, assembly and C++


@pytest.mark.parametrize("compiler", ["--clang", "--gcc"])
def test_a_monitor_in_other_languages_is_built(rvlook, folder, tmp_path, compiler):
    if not shutil.which("clang" if compiler == "--clang" else "riscv64-unknown-elf-g++"):
        pytest.skip("the compiler is not installed")
    monitor, pair = tmp_path / "kernel", tmp_path / "pair.elf"
    shutil.copytree(OTHER_MONITOR, monitor)
    assert build(compiler, "--with-monitor", monitor, folder, pair).stderr == ""
    shown = rvlook("map", "--returns", "--no-monitor", "--script", EXAMPLES / "monitors" / "boot", "--steps", "100", pair).stdout
    assert "to S at 80010000  _start" in shown and "80010000-" in shown
    alone = build(compiler, monitor, tmp_path / "alone.elf")
    assert alone.returncode == 0 and (tmp_path / "alone.elf").exists()


@pytest.mark.skipif(not is_clang_14(), reason="clang 14 is not installed")
def test_the_stored_image_of_monitor_and_host_is_what_clang_14_builds(tmp_path):
    folder = tmp_path / "two_enclaves"
    shutil.copytree(EXAMPLES / "monitors" / "two_enclaves", folder)
    done = build("--with-monitor", MONITOR, folder)
    assert (done.returncode, done.stderr) == (0, "")
    for part in ("image", "symbols"):
        assert (folder / part).read_bytes() == (EXAMPLES / "monitors" / "two_enclaves" / part).read_bytes(), part
