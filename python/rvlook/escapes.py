"""Makes names and texts from input files visible: no control character of a file reaches a terminal, a script or a line format."""
from __future__ import annotations

import re

CONTROL = re.compile(r"[\x00-\x1f\x7f]")
FLIP = 0x40  # the bit that differs between a control character and its letter


def visible(text: str) -> str:
    """Returns a text without control characters. Control characters of ASCII become ^X, as readelf and objdump show them. Any other character that
    cannot be printed becomes <U+XXXX>: the controls of ISO 8859-1, bidirectional controls, lone surrogates and the like."""
    if text.isprintable():
        return text
    text = CONTROL.sub(lambda match: "^" + chr(ord(match[0]) ^ FLIP), text)
    return text if text.isprintable() else "".join(character if character.isprintable() else "<U+%04X>" % ord(character) for character in text)


def visible_line(line: str) -> str:
    """Returns a line of a script as it is shown: a tab, which the bench takes, is a space."""
    return visible(line.replace("\t", " "))


def text_of(data: bytes) -> str:
    """Returns the text that these bytes of a file are: UTF-8 if they are that, else ISO 8859-1."""
    try:
        return data.decode("utf-8")
    except UnicodeDecodeError:
        return data.decode("latin-1")


def name_of(data: bytes) -> str:
    """Returns the name that these bytes of a file are, made visible."""
    return visible(text_of(data))
