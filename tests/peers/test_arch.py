"""The script for riscv-arch-test, on two small programs in its form: equal and false references, no reference, and a test that does not build."""
import shutil

import pytest

from peers.arch import signatures

EXAMPLE = signatures.HERE / "example"


@pytest.fixture
def suite(tmp_path):
    """Returns a copy of the example; skips the test if the compiler is not installed."""
    if not shutil.which(signatures.COMPILER[0]):
        pytest.skip("%s is not installed" % signatures.COMPILER[0])
    return shutil.copytree(EXAMPLE, tmp_path / "suite")


def ends(bench, suite, references=None):
    """Returns the end of each test of a suite."""
    return {it.name: it.end for it in (signatures.run_test(bench, suite, test, references) for test in signatures.tests_in(suite))}


def test_both_programs_have_their_signatures(bench, suite):
    assert ends(bench, suite) == {"add-01": "passed", "ecall": "passed"}


@pytest.mark.parametrize("name, group, word", [("add-01", "I", "80000000"), ("ecall", "privilege", "0000000b")])
def test_a_false_signature_is_noticed(bench, suite, name, group, word):
    path = suite / "rv32i_m" / group / "references" / (name + ".reference_output")
    path.write_text(path.read_text().replace(word, "00000003"))
    assert ends(bench, suite)[name] == "failed"


def test_references_of_another_model_and_none(bench, suite, tmp_path):
    other = tmp_path / "sail"
    other.mkdir()
    shutil.copy(suite / "rv32i_m" / "I" / "references" / "add-01.reference_output", other / "add-01.signature")
    assert ends(bench, suite, other) == {"add-01": "passed", "ecall": "no reference"}


def test_a_test_that_does_not_build_or_halt(bench, suite):
    path = suite / "rv32i_m" / "I" / "src" / "add-01.S"
    text = path.read_text()
    path.write_text(text.replace("TEST_RR_OP(add", "fence.i; TEST_RR_OP(add", 1))
    assert ends(bench, suite)["add-01"] == "left out"
    path.write_text(text.replace("RVTEST_CODE_END", "forever: j forever"))
    assert ends(bench, suite)["add-01"] == "failed"
