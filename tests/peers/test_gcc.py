"""A sample of GCC's execution tests ends as expected on the bare machine, as the host, and as an enclave; a test that fails is noticed."""
import shutil

import pytest

from peers.gcc import building, campaign, sources

# One of this many tests is in the sample.
SHARE = 40
# Sources with their ends in all forms.
FAILING = [("void abort(void); int main(void) { abort(); }", "abort"), ("int main(void) { return 3; }", "status 3"),
           ("int main(void) { *(volatile int *)4 = 1; }", "a trap")]


@pytest.fixture(scope="module", autouse=True)
def compiler():
    """Skips the tests if the compiler is not installed."""
    if not shutil.which(building.COMPILER):
        pytest.skip("%s is not installed" % building.COMPILER)


def test_a_sample_passes_in_each_form(bench, tmp_path):
    archive = sources.tarball()
    if archive is None:
        pytest.skip("the sources of GCC's tests (Debian: gcc-12-source) are not installed")
    chosen = sources.sources_in(sources.unpack(archive, tmp_path))[::SHARE]
    results = campaign.run_all(bench, chosen, 1)
    assert results.failed == {}
    assert len(results.passed) > 0.8 * len(chosen)
    assert set(results.left_out) <= set(campaign.listed())


@pytest.mark.parametrize("text, end", FAILING, ids=[end for _, end in FAILING])
def test_a_test_that_fails_is_noticed(bench, tmp_path, text, end):
    path = tmp_path / "failing.c"
    path.write_text(text, encoding="ascii")
    results = campaign.run_all(bench, [sources.source_of(path)], 1)
    assert results.failed == {"%s/failing" % tmp_path.name: "; ".join("%s: %s" % (form.name, end) for form in building.FORMS)}


def test_a_test_that_passes_passes(bench, tmp_path):
    path = tmp_path / "passing.c"
    path.write_text("int main(void) { return 0; }", encoding="ascii")
    assert campaign.run_all(bench, [sources.source_of(path)], 1).passed == ["%s/passing" % tmp_path.name]


def test_a_test_that_does_not_build_is_left_out_with_its_error(bench, tmp_path):
    path = tmp_path / "wrong.c"
    path.write_text("#include <stdio.h>\nint main(void) { return 0; }", encoding="ascii")
    assert "stdio.h" in campaign.run_all(bench, [sources.source_of(path)], 1).left_out["%s/wrong" % tmp_path.name]
