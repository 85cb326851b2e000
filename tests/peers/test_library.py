"""The self test of Mbed TLS: the script on a small library in its form, and on the library itself if MBEDTLS names its sources."""
import os
import re
import shutil
from pathlib import Path

import pytest

from peers.gcc import building
from peers.library import self_test

SOURCE = (self_test.HERE / "self_test.c").read_text(encoding="ascii")


@pytest.fixture(autouse=True)
def compiler():
    """Skips the tests if the compiler is not installed."""
    if not shutil.which(building.COMPILER):
        pytest.skip("%s is not installed" % building.COMPILER)


def small_library(folder, failing):
    """Makes a library in which one self test fails, if `failing` names it; returns its folder."""
    headers, functions = re.findall(r'"mbedtls/(\w+\.h)"', SOURCE), re.findall(r"\bmbedtls_\w+_self_test\b", SOURCE)
    (folder / "include" / "mbedtls").mkdir(parents=True)
    (folder / "library").mkdir()
    for name in headers:
        (folder / "include" / "mbedtls" / name).write_text("".join("int %s(int verbose);\n" % it for it in functions))
    text = "#include MBEDTLS_CONFIG_FILE\n" + "".join("int %s(int verbose) { return %d; }\n" % (it, it == failing) for it in functions)
    (folder / "library" / "aes.c").write_text(text)
    return folder


@pytest.mark.parametrize("failing, end", [("", ""), ("mbedtls_sha256_self_test", "status 4")], ids=["passes", "fails"])
def test_small_library(bench, tmp_path, failing, end):
    results = self_test.run_self_test(bench, small_library(tmp_path, failing))
    assert [(it.form.name, it.end) for it in results] == [(form.name, end) for form in building.FORMS]


def test_mbed_tls(bench):
    folder = os.environ.get("MBEDTLS")
    if not folder:
        pytest.skip("MBEDTLS does not name the sources of Mbed TLS (apt-get source mbedtls)")
    assert [it.end for it in self_test.run_self_test(bench, Path(folder))] == ["", "", ""]
