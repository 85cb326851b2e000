"""`./release`: what its tarball contains, that it works with bash, coreutils and Python alone, that the bytes are the same in another clone, and what
`--verify` notices."""
import gzip
import io
import os
import re
import shutil
import subprocess
import tarfile
import zipfile

import pytest
from support.limits import HANG

from conftest import ROOT

COREUTILS = ("cat", "chmod", "cp", "cut", "dirname", "env", "head", "ln", "ls", "mkdir", "mktemp", "mv", "printf", "readlink", "rm", "sha256sum",
             "sort", "tail", "touch", "tr", "wc")
LEFT_OUT = "./release"
BLOCK = re.compile(r"(?:^    .*\n)+", re.M)
INSTALLED = ("bin/rvbench", "bin/rvlook", "bin/rvbench-build", "lib/rvbench/version", "share/rvbench/examples/shared/calls.h")


def release(bench, *words, root=ROOT, **environment):
    """Runs `./release` with the built program."""
    return subprocess.run([root / "release", *words], env={**os.environ, "RVBENCH": bench, **environment}, capture_output=True, text=True,
                          timeout=HANG, check=False)


def made_in(bench, folder, **options):
    """Makes a release; returns its tarball."""
    done = release(bench, folder, **options)
    assert done.returncode == 0, done.stderr
    return next(folder.glob("*.tar.gz"))


@pytest.fixture(scope="module")
def tarball(bench, tmp_path_factory):
    """Makes a release; returns its tarball."""
    return made_in(bench, tmp_path_factory.mktemp("release") / "made")


@pytest.fixture
def unpacked(tarball, tmp_path):
    """Returns the folder of an unpacked tarball, and a function that runs a line of bash there with nothing but bash, coreutils and Python."""
    with tarfile.open(tarball) as it:
        it.extractall(tmp_path / "empty")
    tools = tmp_path / "tools"
    tools.mkdir()
    for name in (*COREUTILS, "bash", "python3"):
        (tools / name).symlink_to("/usr/bin/python3" if name == "python3" else shutil.which(name))
    folder = next((tmp_path / "empty").iterdir())

    def run(line):
        environment = {"PATH": str(tools), "HOME": str(tmp_path / "home")}
        return subprocess.run([tools / "bash", "-e", "-o", "pipefail", "-c", line], cwd=folder, env=environment, capture_output=True, text=True,
                              timeout=HANG, check=False)
    (tmp_path / "home").mkdir()
    return folder, run


def test_commands_of_its_readme_work_with_bash_coreutils_and_python(unpacked, tmp_path):
    folder, run = unpacked
    blocks = [it for it in BLOCK.findall((folder / "README.md").read_text(encoding="utf-8")) if LEFT_OUT not in it]
    assert len(blocks) == 3
    outputs = []
    for block in blocks:
        done = run("\n".join(line[4:] for line in block.splitlines()))
        assert done.returncode == 0, (block, done.stderr)
        outputs.append(done.stdout)
    assert "ran 1 pc=80000004 mode=M world=bare why=done trap=-\n" in outputs[1] and "region of e0" in outputs[1] and "twin end" in outputs[1]
    home = tmp_path / "home" / ".local"
    assert all((home / name).is_file() for name in INSTALLED)
    assert "(commit " in run("%s/bin/rvlook --version" % home).stdout
    again = run("bash install.sh")
    assert again.returncode == 0, again.stderr


def test_contents_and_statement_have_the_digests(bench, unpacked):
    folder, run = unpacked
    listed = {line.split("  ")[1] for line in (folder / "CONTENTS").read_text(encoding="utf-8").splitlines()}
    assert listed == {it.relative_to(folder).as_posix() for it in folder.rglob("*") if it.is_file() and not it.is_symlink()} - {"CONTENTS"}
    proved = (folder / "PROVED").read_text(encoding="utf-8")
    assert "rattle-kit-" in proved and "  rv_monitor\n" in proved and "given by RVBENCH" in proved
    assert run("sha256sum %s" % bench).stdout.split()[0] in proved
    (folder / "LICENCE").write_text("another\n", encoding="utf-8")
    assert run("sha256sum --quiet --check CONTENTS").returncode == 1


def copied_clone(folder):
    """Clones the repository to a folder with its uncommitted changes."""
    subprocess.run(["git", "clone", "-q", "--shared", ROOT, folder], check=True, capture_output=True, timeout=HANG)
    listed = subprocess.run(["git", "ls-files", "-z", "--cached", "--others", "--exclude-standard"], cwd=ROOT, capture_output=True, check=True)
    for name in filter(None, listed.stdout.decode().split("\0")):
        if (ROOT / name).exists():
            (folder / name).parent.mkdir(parents=True, exist_ok=True)
            shutil.copy(ROOT / name, folder / name)
    return folder


def test_another_clone_makes_the_same_bytes_and_verify_notices_others(bench, tarball, tmp_path):
    first = tarball
    clone = copied_clone(tmp_path / "a clone of another name")
    os.umask(0o077)
    other = {"TZ": "Asia/Tokyo", "LC_ALL": "C", "LANG": "tr_TR.UTF-8", "COLUMNS": "40", "HOME": str(tmp_path), "PYTHONHASHSEED": "7"}
    second = made_in(bench, tmp_path / "second", root=clone, **other)
    names = sorted(it.name for it in first.parent.iterdir())
    assert names == sorted(it.name for it in second.parent.iterdir()) and len(names) == 4
    assert [name for name in names if (first.parent / name).read_bytes() != (second.parent / name).read_bytes()] == []
    verified = release(bench, "--verify", second)
    assert (verified.returncode, "has the bytes of this commit" in verified.stdout) == (0, True), verified.stderr
    changed = tmp_path / "changed.tar.gz"
    changed.write_bytes(with_another_program(second))
    noticed = release(bench, "--verify", changed)
    assert noticed.returncode == 1 and "files/lib/rvbench/rvbench" in noticed.stdout


def test_two_clones_build_the_same_program(tmp_path, request):
    if not request.config.getoption("--prove-twice"):
        pytest.skip("two proofs take half an hour; --prove-twice makes them")
    programs = []
    others = {"one": {"TZ": "UTC", "LC_ALL": "C"}, "a clone of another name": {"TZ": "Asia/Tokyo", "LC_ALL": "C.UTF-8", "USER": "other"}}
    for name, other in others.items():
        clone = copied_clone(tmp_path / name)
        proved = subprocess.run([clone / "prove"], env={**os.environ, **other}, capture_output=True, text=True, check=False)
        assert proved.returncode == 0, proved.stderr[-2000:]
        programs.append((clone / "crates" / "rvbench" / "out" / "rvbench").read_bytes())
    assert programs[0] == programs[1]


def with_another_program(path):
    """Returns the bytes of a tarball whose program differs in its last byte."""
    raw = io.BytesIO()
    with tarfile.open(path) as it, tarfile.open(fileobj=raw, mode="w", format=tarfile.USTAR_FORMAT) as out:
        for member in it:
            data = it.extractfile(member).read() if member.isreg() else b""
            if member.name.endswith("lib/rvbench/rvbench"):
                data = data[:-1] + bytes([data[-1] ^ 1])
            out.addfile(member, io.BytesIO(data) if member.isreg() else None)
    return gzip.compress(raw.getvalue(), mtime=0)


def test_package_and_wheel_have_the_program_and_rvlook(tarball, tmp_path):
    folder = tarball.parent
    if not shutil.which("dpkg-deb"):
        pytest.skip("dpkg-deb is not installed")
    subprocess.run(["dpkg-deb", "-x", next(folder.glob("*.deb")), tmp_path / "root"], check=True, capture_output=True, timeout=HANG)
    done = subprocess.run([tmp_path / "root" / "usr" / "bin" / "rvbench"], input="9300f0ff\n--\nstep 1\n", capture_output=True, text=True, check=True,
                          timeout=HANG)
    assert done.stdout.startswith("ran 1 ")
    fields = subprocess.run(["dpkg-deb", "-f", next(folder.glob("*.deb")), "Package", "Architecture"], capture_output=True, text=True, check=True)
    assert fields.stdout == "Package: rvbench\nArchitecture: amd64\n"
    with zipfile.ZipFile(next(folder.glob("*.whl"))) as it:
        assert {"rvlook/__main__.py", "rvlook/output/objects.schema.json", "rvlook-0.1.dist-info/entry_points.txt"} <= set(it.namelist())


@pytest.mark.parametrize("words", [(), ("--fast",), ("one", "two"), ("--verify",), ("--verify", "/none")])
def test_wrong_arguments_and_a_missing_file_have_status_2(bench, words):
    assert release(bench, *words).returncode == 2


def test_a_missing_program_makes_no_release(tmp_path):
    done = release("/none", tmp_path / "made")
    assert done.returncode == 2 and not list((tmp_path / "made").glob("*")) and "no program at '/none'" in done.stderr
