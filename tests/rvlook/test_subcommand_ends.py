"""Each subcommand with a failing output, a closed pipe, Ctrl-C, a missing file, and a file that is not ELF."""
from pathlib import Path

import pytest
from support.message_files import IMAGES, REGION, Files
from support.message_runs import FULL, Runs

from conftest import EXAMPLES, ROOT, RVLOOK

ADDS, SUM, LEAKS = str(EXAMPLES / "enclaves" / "adds" / "image"), str(EXAMPLES / "programs" / "sum" / "stdin"), IMAGES + "/leak/image"
MONITORS = EXAMPLES / "monitors"
OWN, PAIR, RANGES = (str(MONITORS / it) for it in ("own_monitor/image", "two_enclaves/image", "two_enclaves/ranges"))
LONG_RACE = ("races", "--monitor", "--harts", "2", "--ram", "131072", "MANY")
SHORT = {
    "map": ("map", SUM), "trace": ("trace", SUM), "touch": ("touch", SUM), "page": ("page", SUM), "map --json": ("map", SUM, "--json"),
    "trace --format spike": ("trace", SUM, "--format", "spike"), "leak": ("leak", "--monitor", LEAKS, "--at", "80020800", "00", "01"),
    "window": ("window", "--monitor", ADDS), "leak --tries": ("leak", "--monitor", LEAKS, "--at", "80020800:4", "--tries", "1"),
    "races": ("races", "--monitor", ADDS), "timer": ("timer", "--monitor", ADDS),
    "verify": ("verify", "--monitor", ADDS),
    "conform": ("conform", OWN, "--only", "reset"), "guard": ("guard", PAIR, RANGES, "--timers", "0", "--steps", "99"),
    "measure": ("measure", REGION, "80020000", "1000", "0", "0", "80020000"), "explain": ("explain", SUM), "the prompt": (SUM,)}
ENDLESS = ("LOOP", "--steps", "500000000")
LONG = {  # runs that take a while; LOOP and MANY are files of support.message_files
    "map": ("map", *ENDLESS), "trace": ("trace", *ENDLESS), "touch": ("touch", *ENDLESS), "page": ("page", *ENDLESS),
    "map --json": ("map", *ENDLESS, "--json"), "trace --format spike": ("trace", *ENDLESS, "--format", "spike"),
    "leak --tries": ("leak", "--monitor", LEAKS, "--at", "80020800:4", "--tries", "1000"), "races": LONG_RACE,
    "timer": ("timer", "--monitor", EXAMPLES / "enclaves" / "hmac" / "image"), "conform": ("conform", OWN),
    "conform --jobs": ("conform", OWN, "--jobs", "2"), "guard": ("guard", PAIR, RANGES)}
IMAGES = (SUM, ADDS, REGION, LEAKS, OWN, PAIR)


@pytest.fixture(scope="module")
def runs(bench):
    return Runs(RVLOOK, ROOT, bench)


def with_file(words, path):
    """The command line with another file in place of its image."""
    return [path if it in IMAGES else it for it in words]


@pytest.mark.parametrize("name", SHORT)
def test_full_output_is_reported(runs, name):
    assert runs.run(SHORT[name], FULL) == (3, ["rvlook: error: cannot write the output: No space left on device"])


@pytest.mark.parametrize("name", SHORT)
def test_closed_pipe_is_reported(runs, name):
    assert runs.unread(SHORT[name]) == (141, ["rvlook: error: broken pipe"])


@pytest.mark.parametrize("name", LONG)
def test_interrupt_stops_the_work(runs, name, tmp_path):
    files = {"LOOP": tmp_path / "loop", "MANY": tmp_path / "many"}
    files["LOOP"].write_text(Files.LOOP)
    files["MANY"].write_text(Files.MANY)
    assert runs.stopped([files.get(it, it) for it in LONG[name]]) == (130, ["rvlook: error: interrupted"])


@pytest.mark.parametrize("name", SHORT)
def test_missing_file_is_refused(runs, name):
    wanted = "no subcommand or file '/none'; see 'rvlook --help'" if name == "the prompt" else "cannot open '/none': No such file or directory"
    assert runs.run(with_file(SHORT[name], "/none")) == (2, ["rvlook: error: " + wanted])


@pytest.mark.parametrize("name", SHORT)
def test_file_that_is_cut_is_refused(runs, name, tmp_path):
    cut = Path(tmp_path, "cut.elf")
    cut.write_bytes(b"\x7fELF")
    status, lines = runs.run(with_file(SHORT[name], cut))
    if name == "explain":  # a text is explained, whatever it is
        assert (status, lines) == (1, [])
    else:
        assert status == 2 and lines and all(it.startswith("rvlook: ") for it in lines), lines
