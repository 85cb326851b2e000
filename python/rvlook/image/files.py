"""Reads an image in any form: an ELF file, raw bytes, or the text that the bench reads."""
from __future__ import annotations

import re
from typing import BinaryIO

from rvlook.protocol.bench_line import LONGEST_LINE, ended, is_separator, lines_of
from rvlook.errors import RvlookError
from rvlook.image.budget import budget_of
from rvlook.protocol.inputs import Image, ScriptLine

DIGITS_A_LINE = 120  # hexadecimal digits in a line of the text of an image
MOST_BYTES = 33554432  # the most bytes of an image, as the bench has it
MOST_READ = 3 * MOST_BYTES  # bytes of a file; two digits for each byte of an image, line ends and a script
CHUNK = 1 << 20  # bytes that are read at once
MOST_LINES = 1000000  # the most lines of a script
SEPARATOR = re.compile(rb"(?m)^([ \t]*--[ \t]*)(\r?\n|\Z)")
MARKS = {b"\xef\xbb\xbf": "utf-8", b"\xff\xfe": "utf-16-le", b"\xfe\xff": "utf-16-be"}  # byte order marks
TEXT = re.compile(rb"[0-9A-Fa-f \t\r\n]*\Z")
PRINTABLE = re.compile(rb"[\t\r\n\x20-\x7e]*\Z")


def read_file(path: str) -> bytes:
    """Returns the bytes of a file. Raises RvlookError if the file cannot be read, or has more than MOST_READ bytes."""
    try:
        with open(path, "rb") as file:
            return bounded(file, path)
    except OSError as error:
        raise RvlookError("cannot open '%s': %s" % (path, error.strerror)) from None
    except ValueError as error:  # a NUL in the name
        raise RvlookError("cannot open '%s': %s" % (path, error)) from None


def bounded(file: BinaryIO, path: str) -> bytes:
    """Returns all bytes of an open file; a RvlookError if there are more than MOST_READ. A device without end is such a file."""
    chunks: list[bytes] = []
    size = 0
    while size <= MOST_READ:
        chunk = file.read(CHUNK)
        if not chunk:
            return b"".join(chunks)
        chunks.append(chunk)
        size += len(chunk)
    raise RvlookError("'%s' is too large: it has more than %d bytes" % (path, MOST_READ))


def digits_of(data: bytes) -> bytes:
    """Returns bytes as the text of an image that the bench reads: lines of hexadecimal digits."""
    digits = data.hex()
    lines = [digits[i:i + DIGITS_A_LINE] for i in range(0, len(digits), DIGITS_A_LINE)]
    return "".join(line + "\n" for line in lines).encode("ascii")


def script_lines(data: bytes, path: str, before: int = 0) -> tuple[ScriptLine, ...]:
    """Returns the lines of a script that follows `before` lines of a file. Leaves out lines --, which are for two benches. Raises RvlookError if
    there are more than MOST_LINES."""
    if data.count(b"\n") > MOST_LINES:
        raise RvlookError("script '%s' is too long: it has more than %d lines" % (path, MOST_LINES))
    lines = enumerate(lines_of(data.decode("latin-1")), before + 1)
    return tuple(ScriptLine(line, "%s:%d" % (path, number), line) for number, line in lines
                 if line.strip(" \t") and not is_separator(line) or len(line) > LONGEST_LINE)


def decoded(text: bytes) -> bytes | None:
    """Returns the bytes of an image's text, or None if it is malformed."""
    try:
        return bytes.fromhex(text.decode("ascii"))
    except ValueError:
        return None


def image_of(path: str, kind: str = "auto") -> Image:
    """Reads an image. Hexadecimal digits, and any text before a line `--`, are passed on unchanged; rvbench reports their errors. The lines after
    `--` are a script. All other bytes are the image itself. The symbols of each opened file have a budget of their own. Raises RvlookError if the
    file cannot be read, is a text but no hex image, or is too large."""
    data = read_file(path)
    budget_of.cache_clear()
    separator = next((match for match in SEPARATOR.finditer(data) if len(match[1]) <= LONGEST_LINE), None)
    head, script_text = (data[:separator.start()], data[separator.end():]) if separator else (data, b"")
    printable = PRINTABLE.match(data) is not None
    if TEXT.match(head) or separator and PRINTABLE.match(head):
        text = head if head.endswith(b"\n") or not head else ended(head.decode("latin-1")).encode("latin-1")
        before = data.count(b"\n", 0, separator.end()) if separator else 0
        return Image(path, text, decoded(head), script_lines(script_text, path, before) if separator else ())
    if kind != "raw" and (printable or is_marked_text(data)):
        mark = "" if printable else " with a byte order mark"
        raise RvlookError("'%s' is a text file%s, not a hex image; use --kind raw to load its bytes" % (path, mark))
    if len(data) > MOST_BYTES:
        raise RvlookError("cannot load '%s': rvbench: too long: the image has more than %d bytes" % (path, MOST_BYTES))
    return Image(path, digits_of(data), data)


def is_marked_text(data: bytes) -> bool:
    """Returns whether the bytes are a text after a byte order mark, which no image begins with."""
    mark = next((mark for mark in MARKS if data.startswith(mark)), None)
    if mark is None:
        return False
    try:
        return PRINTABLE.match(data[len(mark):].decode(MARKS[mark]).encode("ascii")) is not None
    except UnicodeError:
        return False


def script_of(path: str | None) -> tuple[ScriptLine, ...]:
    """Reads the lines of a script; empty without a path."""
    return script_lines(read_file(path), path) if path else ()
