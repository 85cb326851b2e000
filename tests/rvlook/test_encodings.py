"""Names and lines of any bytes, under any locale, give no traceback."""
import os
import subprocess

import pytest
from support.hostile import ROOT, check, named, run
from support.limits import HANG

ASCII = {"LC_ALL": "C", "PYTHONUTF8": "0", "PYTHONCOERCECLOCALE": "0", "PYTHONIOENCODING": ""}
LOCALES = {"ascii": ASCII, "utf-8": {"LC_ALL": "C.UTF-8"}, "forced": {"PYTHONIOENCODING": "ascii"}}
NAME = b"sch\xc3\xb6n\xff.elf"


@pytest.fixture
def elf(tmp_path):
    """An ELF file whose own name is no UTF-8, with names that ASCII does not have."""
    path = os.path.join(os.fsencode(tmp_path), NAME)
    with open(path, "wb") as file:
        file.write(named(function="gr\u00f6\u00dfe", source="m\u00e4.c"))
    return path


def ended(bench, environment, *words, stdin=b""):
    """The status, the output and the errors under a locale."""
    done = subprocess.run([os.fsencode(ROOT / "rvlook"), *map(os.fsencode, words)], input=stdin, capture_output=True, check=False, timeout=HANG,
                          env={**os.environ, "RVBENCH": bench, "TERM": "dumb", **environment})
    assert b"Traceback" not in done.stderr, done.stderr.decode("latin-1")
    return done.returncode, done.stdout, done.stderr


@pytest.mark.parametrize("locale", LOCALES)
def test_trace_writes_names_that_the_locale_lacks(bench, elf, locale):
    status, output, _ = ended(bench, LOCALES[locale], "trace", elf, "--steps", "40")
    assert status == 0
    assert ("gr\u00f6\u00dfe".encode() if locale == "utf-8" else b"gr\\xf6\\xdfe") in output


@pytest.mark.parametrize("locale", ["ascii", "utf-8"])
def test_page_is_utf_8_under_any_locale(bench, elf, locale):
    status, output, _ = ended(bench, LOCALES[locale], "page", elf, "--steps", "5")
    assert status == 0
    assert "\u25b6" in output.decode("utf-8")


@pytest.mark.parametrize("locale", LOCALES)
def test_prompt_takes_bytes_that_are_no_text(bench, elf, locale):
    _, output, _ = ended(bench, LOCALES[locale], elf, stdin=b"reg \xff\xfe\nstep 1\nfl\xc3\xb6\n")
    assert output.count(b"error line") == 2


@pytest.mark.parametrize("locale", LOCALES)
def test_name_of_a_missing_file_is_printed(bench, locale):
    status, _, errors = ended(bench, LOCALES[locale], "map", b"/n\xff\xc3\xb6ne")
    assert status in (1, 2)
    assert errors.startswith(b"rvlook: error: cannot open '/n")


@pytest.mark.parametrize("mark, encoding", [("\ufeff", "utf-8"), ("\ufeff", "utf-16-le"), ("\ufeff", "utf-16-be")])
def test_image_text_with_byte_order_mark_is_refused(bench, tmp_path, mark, encoding):
    path = tmp_path / "image"
    path.write_bytes((mark + "6f000000\r\n--\r\nstep 1\r\n").encode(encoding))
    done = run(bench, "map", path)
    check(done)
    assert done.status in (1, 2)
    assert b"is a text file with a byte order mark" in done.errors
    assert run(bench, "map", path, "--kind", "raw", "--steps", "1").status == 0


def test_raw_image_that_begins_as_a_mark_is_no_text(bench, tmp_path):
    path = tmp_path / "image"
    path.write_bytes(b"\xff\xfe\x00\x00\x80\x01")
    assert run(bench, "map", path, "--steps", "1").status == 0
