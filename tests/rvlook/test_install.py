"""An installed rvlook: `pip install .` makes the command `rvlook`, which runs in any folder."""
import importlib.util
import os
import shutil
import subprocess
import sys

import pytest
from support.limits import HANG

from conftest import ROOT

FILES = ("pyproject.toml", "README.md")
OTHER = 12345  # a user that owns nothing else


@pytest.fixture(scope="module")
def installed(tmp_path_factory):
    """Installs a copy of the package into a new virtual environment without a network; gives the path of its `rvlook`."""
    for name in ("venv", "ensurepip", "setuptools"):
        if importlib.util.find_spec(name) is None:
            pytest.skip("%s is not installed" % name)
    folder = tmp_path_factory.mktemp("install")
    source, venv = folder / "source", folder / "venv"
    shutil.copytree(ROOT / "python", source / "python", ignore=shutil.ignore_patterns("__pycache__", "*.egg-info"))
    for name in FILES:
        shutil.copy(ROOT / name, source / name)
    environment = {name: value for name, value in os.environ.items() if name not in ("PYTHONPATH", "PYTHONHOME")}
    subprocess.run([sys.executable, "-m", "venv", "--system-site-packages", venv], env=environment, check=True, capture_output=True, timeout=HANG)
    done = subprocess.run([venv / "bin" / "python", "-m", "pip", "install", "--no-index", "--no-deps", "--no-build-isolation", source],
                          env=environment, capture_output=True, text=True, timeout=HANG, check=False)
    assert done.returncode == 0, done.stdout + done.stderr
    return venv / "bin" / "rvlook"


def run(installed, bench, folder, *words):
    """Runs the installed command in another folder."""
    environment = {**os.environ, "RVBENCH": bench, "TERM": "dumb"}
    environment.pop("PYTHONPATH", None)
    return subprocess.run([installed, *words], cwd=folder, env=environment, capture_output=True, text=True, timeout=HANG, check=False)


def test_installed_map_is_the_same(installed, bench, tmp_path, rvlook):
    words = ["map", "--kind", "elf", str(ROOT / "examples" / "programs" / "elf" / "image"), "--steps", "300"]
    done = run(installed, bench, tmp_path, *words)
    assert done.returncode == 0, done.stderr
    assert done.stdout == rvlook(*words).stdout


def test_installed_package_has_the_parts_of_the_page(installed, bench, tmp_path):
    pytest.importorskip("jinja2")
    done = run(installed, bench, tmp_path, "page", "--kind", "elf", str(ROOT / "examples" / "programs" / "elf" / "image"), "--steps", "20")
    assert done.returncode == 0, done.stderr
    assert done.stdout.startswith("<!DOCTYPE html>")


def test_exit_status_is_that_of_the_script(installed, bench, tmp_path):
    assert run(installed, bench, tmp_path, "map", "none").returncode == 2


@pytest.mark.parametrize("is_own", [True, False])
def test_bytecode_is_written_only_for_the_owner_of_the_clone(tmp_path, is_own):
    shutil.copytree(ROOT / "python", tmp_path / "python", ignore=shutil.ignore_patterns("__pycache__"))
    shutil.copy(ROOT / "rvlook", tmp_path)
    if not is_own:
        if os.geteuid():
            pytest.skip("only root can give files to another user")
        os.chown(tmp_path / "python" / "rvlook", OTHER, OTHER)
    environment = {name: value for name, value in os.environ.items() if name != "PYTHONDONTWRITEBYTECODE"}
    helps = [subprocess.run([tmp_path / "rvlook", "map", "--help"], env=environment, capture_output=True, text=True, timeout=HANG, check=True)
             for _ in range(2)]
    assert helps[0].stdout.startswith("usage: rvlook map") and helps[0].stdout == helps[1].stdout
    assert bool(list(tmp_path.rglob("*.pyc"))) == is_own
