"""OpenSBI on the bare machine: it boots, answers two calls, and `guard` finds nothing but planted bugs.

The sources are those in OPENSBI_SOURCE, or in out/opensbi, where `examples/monitors/opensbi/fetch` may put them. Without them the tests are skipped."""
import importlib.machinery
import importlib.util
import os
import re
import shutil

import pytest

from conftest import EXAMPLES, ROOT

FOLDER = EXAMPLES / "monitors" / "opensbi"
RAM = ("--ram", "4194304")
BOOT = FOLDER / "boot"
SPECIFICATION, HAS_TIME = "00000000 02000000", "00000000 00000001"  # error and value of the two calls
RESTORED = "\tREG_L\ta5, SBI_TRAP_REGS_OFFSET(a5)(a0)"
WRITABLE = "(SBI_DOMAIN_MEMREGION_M_READABLE |\n\t\t\t\t   SBI_DOMAIN_MEMREGION_M_WRITABLE)"
BUGS = {
    "a5 is lost": ("firmware/fw_base.S", RESTORED, "\tli\ta5, 0", "violation of context", "with a5 00000000, not 55555555"),
    "data of the firmware are readable": ("lib/sbi/sbi_domain.c", WRITABLE, WRITABLE[:-1] + " | SBI_DOMAIN_MEMREGION_SU_READABLE)",
                                          "violation of access", "may access r-- 80020000-8002ffff, which belongs to monitor")}


@pytest.fixture(scope="module")
def port():
    """Returns the script `port` as a module."""
    loader = importlib.machinery.SourceFileLoader("port", str(FOLDER / "port"))
    module = importlib.util.module_from_spec(importlib.util.spec_from_loader("port", loader))
    loader.exec_module(module)
    return module


@pytest.fixture(scope="module")
def source():
    """Returns the folder of the sources of OpenSBI; skips the tests without them or without the compiler."""
    for path in filter(None, (os.environ.get("OPENSBI_SOURCE"), str(ROOT / "out" / "opensbi"))):
        if os.path.isdir(path):
            break
    else:
        pytest.skip("no sources of OpenSBI; run examples/monitors/opensbi/fetch out/opensbi")
    if not all(map(shutil.which, ("clang", "ld.lld", "llvm-objcopy", "make"))):
        pytest.skip("clang, lld, llvm and make are not all installed")
    return path


def guard(rvlook, program):
    return rvlook("guard", *RAM, "--timers", "0", "--boot", BOOT, program, FOLDER / "guarded")


def test_opensbi_boots_and_is_guarded(rvlook, bench, source, port, tmp_path):
    port.port(port.Path(source), tmp_path / "source")
    port.build(tmp_path, FOLDER / "host")
    program = tmp_path / "opensbi.elf"
    returns = rvlook("map", "--returns", *RAM, "--script", BOOT, program)
    assert returns.returncode == 0, returns.stderr
    assert re.findall(r"^return at step \d+ to S at \w+  (\w+)", returns.stdout, re.M) == ["payload_bin", "main", "main"]
    assert "80030000-803fffff   3904K  S rwx  U rwx" in returns.stdout
    ended = rvlook("run", *RAM, "--script", BOOT, "--expect", "illegal instruction", program)
    assert (ended.returncode, ended.stderr.count("expected: illegal instruction")) == (0, 8), ended.stderr
    assert answers(rvlook, program, tmp_path) == [SPECIFICATION, HAS_TIME]
    guarded = guard(rvlook, program)
    assert guarded.returncode == 0 and "violation" not in guarded.stdout, guarded.stdout + guarded.stderr
    check_bugs(rvlook, port, tmp_path)


def answers(rvlook, program, folder):
    """Returns the error and the value that each call of the host returned."""
    script = folder / "calls"
    script.write_text(BOOT.read_text() + "run 300000\nmem version 8\nmem has_time 8\n")
    done = rvlook("trace", *RAM, "--script", script, "--from", "300000", program)
    rows = [bytes.fromhex(it) for it in re.findall(r"^> mem .*  [0-9a-f]{8}: ((?:[0-9a-f]{2} ?){8})$", done.stdout, re.M)]
    return ["%s %s" % (it[3::-1].hex(), it[:3:-1].hex()) for it in rows]


def check_bugs(rvlook, port, folder):
    """Plants each bug in the port and checks that guard finds it."""
    for name, old, new, kind, text in BUGS.values():
        path = folder / "source" / name
        before = path.read_text()
        assert before.count(old) == 1
        path.write_text(before.replace(old, new))
        port.build(folder, FOLDER / "host")
        done = guard(rvlook, folder / "opensbi.elf")
        assert done.returncode == 1 and kind in done.stdout and text in done.stdout, done.stdout + done.stderr
        path.write_text(before)


def test_port_refuses_other_sources(port, tmp_path):
    with pytest.raises(port.Refused, match="no sources of OpenSBI"):
        port.port(tmp_path, tmp_path / "made")
    (tmp_path / "include" / "sbi").mkdir(parents=True)
    (tmp_path / "include" / "sbi" / "sbi_version.h").touch()
    (tmp_path / "firmware").mkdir()
    (tmp_path / "firmware" / "fw_base.S").write_text("amoswap.w a6, a7, (a6)\n" * 2)
    with pytest.raises(port.Refused, match="'firmware/fw_base.S' has 0 times"):
        port.port(tmp_path, tmp_path.parent / (tmp_path.name + "_made"))
