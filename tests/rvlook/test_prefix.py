"""`./install PREFIX`, used from an empty folder without the clone; and `rvlook new`."""
import os
import re
import shutil
import subprocess
import sys

import pytest
from support.limits import HANG

from conftest import EXAMPLES, ROOT

HELLO = ["host: creating an enclave", "runtime: the region begins at 80020000", "application: hello from U-mode", "host: the enclave answered 42"]
PAGES = {"rvbench.1": "twin", "rvlook.1": ".SH CONFORM"}


@pytest.fixture(scope="module")
def prefix(bench, tmp_path_factory):
    """Installs into a new prefix; returns it."""
    folder = tmp_path_factory.mktemp("prefix") / "a prefix"
    done = subprocess.run([ROOT / "install", folder], env={**os.environ, "RVBENCH": bench}, capture_output=True, text=True, timeout=HANG, check=False)
    assert done.returncode == 0, done.stdout + done.stderr
    return folder


@pytest.fixture
def run(prefix, tmp_path):
    """Runs an installed command in an empty folder, with nothing of the clone in its environment."""
    def command(name, *words, stdin=""):
        environment = {"PATH": "%s:%s" % (prefix / "bin", os.environ["PATH"]), "HOME": str(tmp_path), "TERM": "dumb"}
        return subprocess.run([prefix / "bin" / name, *map(str, words)], cwd=tmp_path, env=environment, input=stdin, capture_output=True, text=True,
                              timeout=HANG, check=False)
    return command


def test_installed_simulator_replies(run):
    done = run("rvbench", stdin="9300f0ff\n--\nstep 1\n")
    assert (done.returncode, done.stdout, done.stderr) == (0, "ran 1 pc=80000004 mode=M world=bare why=done trap=-\n", "")
    assert "Usage: rvbench [COMMAND]" in run("rvbench", "--help").stdout


@pytest.mark.parametrize("name", ["rvbench", "rvlook"])
def test_version_has_the_commit_and_the_kit(run, name):
    done = run(name, "--version")
    assert done.returncode == 0 and done.stdout.startswith(name + " 0.1 (commit ") and "rattle-kit-" in done.stdout
    clone = subprocess.run([ROOT / name, "--version"], capture_output=True, text=True, timeout=HANG, check=False)
    assert clone.stdout == done.stdout


def test_installed_rvlook_runs_an_example(run, prefix):
    examples = prefix / "share" / "rvbench" / "examples" / "enclaves"
    done = run("rvlook", "run", examples / "hello" / "image", "--symbols", examples / "hello" / "symbols")
    assert (done.returncode, done.stdout.splitlines()) == (0, HELLO)


def test_installed_files_do_not_name_the_clone(prefix):
    texts = [it for it in prefix.rglob("*") if it.is_file() and not it.is_symlink() and it.name != "rvbench" or it.parent.name == "bin"]
    assert len(texts) > 100
    assert not [it for it in texts if str(ROOT).encode() in it.read_bytes()]
    assert not [it for it in prefix.rglob("*") if it.is_symlink() and not it.resolve().is_relative_to(prefix.resolve())]


def test_man_pages_and_completion(prefix):
    if shutil.which("help2man"):
        for page, part in PAGES.items():
            text = (prefix / "share" / "man" / "man1" / page).read_text(encoding="utf-8")
            assert text.startswith(".\\\"") and ".SH NAME" in text and part in text
    assert "complete" in (prefix / "share" / "bash-completion" / "completions" / "rvbench").read_text(encoding="utf-8")
    for typed, completed in {"rvlook wi": "window", "rvlook map --sch": "--schedule"}.items() if shutil.which("register-python-argcomplete") else ():
        asked = ("PATH=%r:$PATH; source %r; COMP_LINE=%r; COMP_POINT=${#COMP_LINE}; COMP_TYPE=9; _python_argcomplete rvlook; echo ${COMPREPLY[@]}"
                 % (str(prefix / "bin"), str(prefix / "share" / "bash-completion" / "completions" / "rvlook"), typed))
        done = subprocess.run(["bash", "-c", asked], capture_output=True, text=True, timeout=HANG, check=False)
        assert done.stdout.strip() == completed, done.stderr


@pytest.mark.skipif(not shutil.which("make") or not (shutil.which("clang") and shutil.which("ld.lld")), reason="make or clang is not installed")
def test_new_enclave_is_built_run_and_checked_outside_the_clone(run, tmp_path):
    done = run("rvlook", "new", "mine")
    assert (done.returncode, done.stdout) == (0, "made mine; next: cd mine && make run\n")
    made = subprocess.run(["make", "-s", "-C", tmp_path / "mine", "run"], capture_output=True, text=True, timeout=HANG, check=False)
    assert made.returncode == 0 and made.stdout.splitlines()[-4:] == HELLO, made.stderr
    assert subprocess.run(["make", "-s", "-C", tmp_path / "mine", "map", "page"], capture_output=True, timeout=HANG, check=False).returncode == 0
    assert (tmp_path / "mine" / "page.html").read_text(encoding="utf-8").startswith("<!DOCTYPE html>")


@pytest.mark.skipif(not shutil.which("make") or not (shutil.which("clang") and shutil.which("ld.lld")), reason="make or clang is not installed")
def test_tests_of_a_new_enclave_pass_and_pytest_finds_the_plugin(run, prefix, tmp_path):
    assert run("rvlook", "new", "mine").returncode == 0
    environment = {"PATH": os.environ["PATH"], "HOME": str(tmp_path), "TERM": "dumb"}
    made = subprocess.run(["make", "-s", "-C", tmp_path / "mine", "test"], env=environment, capture_output=True, text=True, timeout=HANG, check=False)
    assert made.returncode == 0 and re.search(r" (10 passed|9 passed, 1 skipped) in ", made.stdout), made.stdout + made.stderr
    environment["PYTHONPATH"] = str(prefix / "lib" / "rvbench" / "python")
    found = subprocess.run([sys.executable, "-m", "pytest", "-p", "no:cacheprovider", "-k", "answers"], cwd=tmp_path / "mine", env=environment,
                           capture_output=True, text=True, timeout=HANG, check=False)
    assert found.returncode == 0 and " 1 passed" in found.stdout and "plugins: " in found.stdout, found.stdout + found.stderr
    (tmp_path / "mine" / "application.c").write_text("unsigned application(volatile unsigned *window) { return *window; }\n")
    failing = subprocess.run(["make", "-s", "-C", tmp_path / "mine", "test"], env=environment, capture_output=True, text=True, timeout=HANG,
                             check=False)
    assert failing.returncode == 2 and "assert exited with 0 == exited with 42" in failing.stdout, failing.stdout


def test_new_folder_must_be_empty(run, tmp_path):
    (tmp_path / "full").mkdir()
    (tmp_path / "full" / "file").touch()
    done = run("rvlook", "new", "full")
    assert (done.returncode, done.stderr) == (2, "rvlook: error: 'full' exists and is not empty; name a new folder\n")


def test_install_refuses_options_and_a_missing_program(bench, tmp_path):
    def done(*words, **environment):
        return subprocess.run([ROOT / "install", *words], env={**os.environ, **environment}, capture_output=True, text=True, timeout=HANG,
                              check=False)
    assert done("--fast").returncode == 2 and done("one", "two").returncode == 2 and done("--help").returncode == 0
    missing = done(tmp_path / "x", RVBENCH="/none")
    assert (missing.returncode, missing.stderr) == (1, "install: error: no program at '/none'\n")
    assert not (tmp_path / "x").exists()


def test_new_folder_has_a_name(run, tmp_path):
    (tmp_path / "host.c").write_text("kept\n")
    done = run("rvlook", "new", "")
    assert (done.returncode, done.stderr) == (2, "rvlook: error: the name of the folder is empty; name a new folder\n")
    assert [it.name for it in tmp_path.iterdir()] == ["host.c"] and (tmp_path / "host.c").read_text() == "kept\n"


@pytest.mark.parametrize("was_there", [False, True])
def test_new_that_cannot_be_written_leaves_nothing(tmp_path, was_there):
    """The limit of the size of a file is the full disk."""
    folder = tmp_path / "mine"
    if was_there:
        folder.mkdir()
    done = subprocess.run(["bash", "-c", 'ulimit -f 0; exec "$0" new "$1"', ROOT / "rvlook", folder], capture_output=True, text=True, check=False)
    assert (done.returncode, done.stderr) == (3, "rvlook: error: cannot write '%s': File too large\n" % folder)
    assert folder.exists() == was_there and not (was_there and list(folder.iterdir()))


@pytest.mark.parametrize("name", ["it's", "a$(id)", "a`id`", "a\\b", "a#b", 'a"b'])
def test_new_refuses_a_clone_whose_path_a_makefile_cannot_hold(tmp_path, name):
    clone = tmp_path / name
    for part in ("python", "examples"):
        shutil.copytree(ROOT / part, clone / part, ignore=shutil.ignore_patterns("__pycache__"))
    shutil.copy(ROOT / "rvlook", clone)
    done = subprocess.run([clone / "rvlook", "new", tmp_path / "mine"], capture_output=True, text=True, check=False)
    assert done.returncode == 3
    assert "in a Makefile, because of the character" in done.stderr
    assert not (tmp_path / "mine").exists()


@pytest.fixture
def again(bench, prefix, tmp_path):
    """Installs into a copy of the prefix; returns the copy and a function that installs into it again."""
    copy = tmp_path / "copy"
    shutil.copytree(prefix, copy, symlinks=True)
    return copy, lambda: subprocess.run([ROOT / "install", copy], env={**os.environ, "RVBENCH": bench}, capture_output=True, text=True,
                                        timeout=HANG, check=False)


@pytest.mark.parametrize("name", ["bin/rvlook", "bin/rvbench", "lib/rvbench/rvbench", "share/man/man1/rvlook.1", "share/bash-completion/completions/rvbench"])
def test_install_replaces_a_link_and_not_its_target(again, tmp_path, name):
    folder, install = again
    target = tmp_path / "target"
    target.write_text("kept\n")
    (folder / name).unlink(missing_ok=True)
    (folder / name).symlink_to(target)
    done = install()
    assert done.returncode == 0, done.stderr
    assert target.read_text() == "kept\n"
    assert not (folder / name).is_symlink() or not name.startswith("bin")


@pytest.mark.parametrize("obstacle", ["share/man/man1", "share/bash-completion", "bin"])
def test_install_that_fails_leaves_the_earlier_installation(again, obstacle):
    folder, install = again
    shutil.rmtree(folder / obstacle)
    (folder / obstacle).write_text("a file in the place of a folder\n")
    (folder / "lib" / "rvbench" / "version").write_text("the earlier one\n")
    before = contents_of(folder)
    assert install().returncode != 0
    assert contents_of(folder) == before


def contents_of(folder):
    """Returns each file and link of a folder with its contents."""
    return {str(it.relative_to(folder)): os.readlink(it) if it.is_symlink() else it.read_bytes() for it in sorted(folder.rglob("*")) if not it.is_dir()}


def test_install_leaves_no_stage(prefix):
    assert sorted(it.name for it in prefix.iterdir()) == ["bin", "lib", "share"]


def test_install_refuses_an_empty_name(bench, tmp_path):
    done = subprocess.run([ROOT / "install", ""], env={**os.environ, "RVBENCH": bench, "HOME": str(tmp_path)}, capture_output=True, text=True,
                          timeout=HANG, check=False)
    assert (done.returncode, done.stderr) == (1, "install: error: the name of the prefix is empty\n")
    assert not list(tmp_path.iterdir())


@pytest.mark.skipif(not shutil.which("clang") or not shutil.which("ld.lld"), reason="clang or lld is not installed")
def test_installed_build_builds(run, prefix, tmp_path):
    shutil.copytree(prefix / "share" / "rvbench" / "examples" / "enclaves" / "hello", tmp_path / "hello")
    done = run("rvbench-build", "hello", "hello.elf")
    assert (done.returncode, done.stderr) == (0, "")
    assert done.stdout.startswith("build: stack sizes in bytes: host ")
    assert (tmp_path / "hello.elf").read_bytes().startswith(b"\x7fELF")


def test_hello_of_new_is_the_example():
    assert {it.name for it in (EXAMPLES / "new").iterdir()} == {"Makefile", "ci", "pytest.ini", "tasks.json", "test_enclave.py"}
