"""Symbols, source lines and inlined calls against nm and addr2line, and `touch --lcov` against the steps and genhtml: on an example that
clang and GNU's compiler build with debugging information."""
import os
import shutil
import subprocess
from dataclasses import dataclass
from pathlib import Path

import pytest

from conftest import BUILD, EXAMPLES

SHARED, EXAMPLE = EXAMPLES / "shared", EXAMPLES / "enclaves" / "adds"
HOST = (SHARED / "host.s", EXAMPLE / "host.c")
ENCLAVE = (SHARED / "runtime.s", EXAMPLE / "runtime.c", EXAMPLE / "application.c")
C_FLAGS = ("-ffreestanding", "-fno-builtin", "-Os")


@dataclass(frozen=True)
class Tools:
    """A compiler, its options for the machine and the linker, and the prefix of its tools."""
    compiler: str
    machine: tuple
    linker: tuple
    prefix: str

    def missing(self):
        """Returns the tools that are not installed."""
        return [it for it in (self.compiler, *(self.prefix + name for name in ("nm", "addr2line", "objcopy"))) if not shutil.which(it)]

    def output(self, tool, *words):
        return subprocess.run([self.prefix + tool, *words], capture_output=True, text=True, check=True).stdout.splitlines()

    def compiled(self, folder, source):
        """Compiles a source; returns the object file."""
        made = folder / (source.name + ".o")
        flags = C_FLAGS if source.suffix == ".c" else ()
        subprocess.run([self.compiler, *self.machine, "-g", *flags, "-I", SHARED, "-c", "-o", made, source], check=True)
        return made

    def built(self, folder):
        """Builds the example with all its symbols; returns the ELF file."""
        host, enclave = ([self.compiled(folder, it) for it in them] for them in (HOST, ENCLAVE))
        for made in enclave:
            self.output("objcopy", "--prefix-alloc-sections=.enclave", made)
        elf = folder / "program.elf"
        subprocess.run([self.compiler, *self.machine, "-nostdlib", *self.linker, "-T", SHARED / "link.ld", "-Wl,-n", "-o", elf, *host, *enclave],
                       check=True)
        return elf


ALL = (
    Tools("clang", ("--target=riscv32", "-march=rv32im", "-mabi=ilp32"), ("-fuse-ld=lld",), "llvm-"),
    Tools("riscv64-unknown-elf-gcc", ("-march=rv32im_zicsr", "-mabi=ilp32"), ("-Wl,--no-warn-rwx-segments",), "riscv64-unknown-elf-"))


@pytest.fixture(scope="module", params=ALL, ids=lambda it: it.compiler)
def build(request, results, tmp_path_factory):
    """The tools, the ELF file that they build, and the steps of its run."""
    pytest.importorskip("elftools")
    tools = request.param
    if tools.missing():
        pytest.skip("%s is not installed" % tools.missing()[0])
    elf = tools.built(tmp_path_factory.mktemp("symbols"))
    return tools, elf, [it for it in results("trace", elf, "--monitor") if it["object"] == "step"]


def name_of(line):
    """The file and the line that addr2line shows, without folders."""
    return None if line.endswith((":?", ":0")) else line.split(" (disc")[0].split("/")[-1]


def callers_of(tools, elf, addresses):
    """For each address, the line of the outermost call that was inlined there, or None."""
    found, at = {}, None
    for line in tools.output("addr2line", "-a", "-i", "-e", elf, *addresses):
        if line.startswith("0x"):
            at = found.setdefault("%08x" % int(line, 16), [])
        else:
            at.append(line.split(" (disc")[0].split("/")[-1])
    return {address: lines[-1] if len(lines) > 1 else None for address, lines in found.items()}


def test_symbol_of_each_step_is_that_of_nm(build):
    tools, elf, steps = build
    named = {(parts[2], int(parts[0], 16)) for parts in map(str.split, tools.output("nm", elf))}
    assert len(steps) > 50
    for step in steps:
        name, _, offset = step["symbol"].partition("+")
        assert (name, int(step["pc"], 16) - int(offset or "0", 16)) in named, step["symbol"]


def test_source_line_of_each_step_is_that_of_addr2line(build):
    tools, elf, steps = build
    addresses = sorted({step["pc"] for step in steps})
    wanted = dict(zip(addresses, map(name_of, tools.output("addr2line", "-e", elf, *addresses))))
    assert {(step["pc"], step["source"]) for step in steps} == set(wanted.items()) and any(wanted.values())


def test_caller_of_an_inlined_step_is_that_of_addr2line(build):
    tools, elf, steps = build
    wanted = callers_of(tools, elf, sorted({step["pc"] for step in steps}))
    assert {(step["pc"], step["caller"]) for step in steps} == set(wanted.items())
    assert any(wanted.values()), "there is no inlined call"


def lcov_of(rvlook, elf):
    done = rvlook("touch", "--lcov", "--monitor", elf)
    assert done.returncode == 0, done.stderr
    return done.stdout


def test_lcov_counts_the_source_lines_of_the_steps(build, rvlook):
    _, elf, steps = build
    executed, name = set(), None
    for line in lcov_of(rvlook, elf).splitlines():
        kind, _, rest = line.partition(":")
        if kind == "SF":
            assert Path(rest).exists()
            name = os.path.basename(rest)
        if kind == "DA" and not rest.endswith(",0"):
            executed.add("%s:%s" % (name, rest.split(",")[0]))
    assert executed == {it["source"] for it in steps if it["source"]}


@pytest.mark.skipif(not shutil.which("genhtml"), reason="genhtml is not installed")
def test_genhtml_takes_the_lcov_file(build, rvlook, tmp_path):
    (tmp_path / "run.info").write_text(lcov_of(rvlook, build[1]))
    done = subprocess.run(["genhtml", "-q", "-o", tmp_path / "html", tmp_path / "run.info"], capture_output=True, text=True, check=False)
    assert done.returncode == 0, done.stderr
