"""The page embeds only source files below the folder of the ELF file and below `--sources`."""
import base64
import hashlib
import html
import json
import os
import re
import struct
import tempfile
import zlib
from pathlib import Path

import pytest
from support.hostile import FEW, check, named, run

DATA = re.compile(rb'id="data">(.*?)</script>', re.S)
SECRET = "what nobody may read\n"


@pytest.fixture
def folder():
    """A folder with a short name, which fits in place of the name of the source file."""
    with tempfile.TemporaryDirectory(dir="/tmp", prefix="r") as path:
        (Path(path) / "built").mkdir()
        (Path(path) / "other").mkdir()
        yield Path(path)


def page_of(bench, folder, source, *words):
    """The texts of the sources in a page of the ELF file in `built`, whose line table names a source; and how the run ended."""
    elf = folder / "built" / "p.elf"
    elf.write_bytes(named(source=str(source)))
    done = run(bench, "page", elf, *FEW, *words)
    check(done)
    assert done.status == 0
    packed = zlib.decompress(base64.b64decode(DATA.search(done.output)[1]))
    return json.loads(packed[4:4 + struct.unpack_from("<I", packed)[0]])["sources"], done.errors.decode()


def test_source_below_the_folder_is_taken_in_and_named(bench, folder):
    path = folder / "built" / "a.c"
    path.write_text("int a;\n")
    sources, errors = page_of(bench, folder, path)
    assert sources == {"a.c": "int a;\n"}
    assert "rvlook: note: embedding source file '%s'\n" % path in errors


@pytest.mark.parametrize("source", ["/etc/passwd", "/proc/self/environ", "/dev/zero"])
def test_file_of_the_machine_is_not_taken_in(bench, folder, source):
    sources, errors = page_of(bench, folder, source)
    assert not sources
    assert "source file" not in errors


def test_file_outside_the_folder_needs_the_option(bench, folder):
    path = folder / "other" / "a.c"
    path.write_text(SECRET)
    assert page_of(bench, folder, path)[0] == {}
    assert page_of(bench, folder, path, "--sources", folder / "other")[0] == {"a.c": SECRET}


def test_link_that_leads_out_of_the_folder_is_refused(bench, folder):
    (folder / "other" / "a.c").write_text(SECRET)
    link = folder / "built" / "a.c"
    link.symlink_to(folder / "other" / "a.c")
    assert page_of(bench, folder, link)[0] == {}


def test_fifo_is_refused_and_not_waited_for(bench, folder):
    path = folder / "built" / "a.c"
    os.mkfifo(path)
    assert page_of(bench, folder, path)[0] == {}


@pytest.mark.parametrize("name", ["id_rsa", "notes.txt", ".a.c", ".c", "a.c~", "a.pem"])
def test_file_that_does_not_end_as_a_source_or_is_hidden_is_refused(bench, folder, name):
    (folder / "built" / name).write_text(SECRET)
    sources, errors = page_of(bench, folder, folder / "built" / name)
    assert not sources and "source file" not in errors
    assert page_of(bench, folder, folder / "built" / name, "--sources", folder)[0] == {}


def test_file_in_a_hidden_folder_is_refused(bench, folder):
    (folder / "built" / ".ssh").mkdir()
    path = folder / "built" / ".ssh" / "a.c"
    path.write_text(SECRET)
    assert page_of(bench, folder, path)[0] == {}
    assert page_of(bench, folder, path, "--sources", folder)[0] == {}
    assert page_of(bench, folder, path, "--sources", folder / "built" / ".ssh")[0] == {"a.c": SECRET}


@pytest.mark.parametrize("target", [".ssh/id_rsa", ".ssh/a.c", "notes"])
def test_link_to_a_hidden_file_or_to_no_source_is_refused(bench, folder, target):
    (folder / "built" / ".ssh").mkdir()
    (folder / "built" / target).write_text(SECRET)
    (folder / "built" / "a.c").symlink_to(folder / "built" / target)
    assert page_of(bench, folder, folder / "built" / "a.c")[0] == {}


@pytest.mark.parametrize("name", ["a.S", "a.h", "a.cpp", "a.rs"])
def test_other_sources_are_taken_in(bench, folder, name):
    (folder / "built" / name).write_text("text\n")
    assert page_of(bench, folder, folder / "built" / name)[0] == {name: "text\n"}


def test_page_has_no_path(bench, folder):
    """The folder of the ELF file is in no part of the page."""
    (folder / "built" / "a.c").write_text("int a;\n")
    elf = folder / "built" / "p.elf"
    elf.write_bytes(named(source=str(folder / "built" / "a.c")))
    done = run(bench, "page", elf, *FEW)
    packed = zlib.decompress(base64.b64decode(DATA.search(done.output)[1]))
    assert b'"a.c":"int a;' in packed
    assert str(folder).encode() not in packed + done.output


def test_page_has_a_policy_with_the_hash_of_its_script(bench, folder):
    elf = folder / "built" / "p.elf"
    elf.write_bytes(named())
    text = run(bench, "page", elf, *FEW).output.decode()
    policy = html.unescape(re.search('<meta http-equiv="Content-Security-Policy" content="(.*?)">', text)[1])
    assert policy.startswith("default-src 'none'; ")
    for element, directive in (("<script type=\"module\">(.*?)</script>", "script-src"), ("<style>(.*?)</style>", "style-src")):
        digest = hashlib.sha256(re.search(element, text, re.S)[1].encode()).digest()
        assert "%s 'sha256-%s';" % (directive, base64.b64encode(digest).decode()) in policy
    assert text.index("Content-Security-Policy") < text.index("<style>")


def test_proc_is_refused_also_with_its_folder(bench, folder):
    assert page_of(bench, folder, "/proc/self/mem", "--sources", "/proc")[0] == {}


def test_missing_folder_is_refused(bench, folder):
    elf = folder / "built" / "p.elf"
    elf.write_bytes(named())
    done = run(bench, "page", elf, *FEW, "--sources", folder / "none")
    check(done)
    assert done.status in (1, 2)
    assert b"--sources" in done.errors
