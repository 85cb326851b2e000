"""`--scripts DIR` replaces a file of DIR, also one that is a link, and leaves the target of the link as it is."""
import pytest

from conftest import EXAMPLES
from support.monitors import variant

MEASURED = ("monitor.c", "enclaves[slot].measurement[i];", "enclaves[slot].measurement[i] ^ 1;")
ADDS = ["--monitor", EXAMPLES / "enclaves" / "adds" / "image"]
RUNS = {
    "finding_1": ["inputs", "--monitor", EXAMPLES / "enclaves" / "bug" / "image", "--runs", "40"],
    "finding_1.input": ["inputs", "--monitor", EXAMPLES / "enclaves" / "bug" / "image", "--runs", "40"],
    "final_state_1": ["races", *ADDS]}


def linked(tmp_path, name):
    """Makes a folder whose file of this name is a link to another file; returns both."""
    folder, target = tmp_path / "scripts", tmp_path / "target"
    folder.mkdir()
    target.write_text("kept\n")
    (folder / name).symlink_to(target)
    return folder, target


def check(folder, target, name):
    """Checks that the file was written, and the target was not."""
    assert target.read_text() == "kept\n"
    assert not (folder / name).is_symlink() and (folder / name).stat().st_size > 10
    assert not [it for it in folder.iterdir() if it.name.startswith(".")]


@pytest.mark.parametrize("name", RUNS)
def test_script_replaces_a_link(rvlook, tmp_path, name):
    folder, target = linked(tmp_path, name)
    done = rvlook(*RUNS[name], "--scripts", folder)
    assert done.returncode in (0, 1), done.stderr
    check(folder, target, name)


@pytest.mark.parametrize("name", ["own.script", "reference.script"])
def test_script_of_conform_replaces_a_link(rvlook, tmp_path, name):
    folder, target = linked(tmp_path, name)
    done = rvlook("conform", variant(tmp_path, [MEASURED]), "--only", "measured byte 0", "--scripts", folder)
    assert done.returncode == 1, done.stderr
    check(folder, target, name)
