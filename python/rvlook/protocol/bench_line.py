"""How the bench reads a line (docs/COMMANDS.md, Lines and numbers). A line is a text of ISO 8859-1, a character for each byte, without the
line feed that ends it and without a carriage return right before that."""
from __future__ import annotations

import re

LONGEST_LINE = 120  # the most bytes of a line
BLANKS = re.compile(r"[ \t]+")
PLAIN = re.compile(r"[\t\x20-\x7e]{0,%d}\Z" % LONGEST_LINE)


def is_malformed(line: str) -> bool:
    """Returns whether the bench replies `error line`: the line is too long, or has a byte that is no tab and not one of 20 to 7E."""
    return not PLAIN.match(line)


def tokens_of(line: str) -> list[str]:
    """Returns the words between spaces and tabs. No other character separates words, as some do for `str.split`."""
    return [word for word in BLANKS.split(line) if word]


def has_reply(line: str) -> bool:
    """Returns whether the bench replies to a line: it does not to a well-formed comment or blank line."""
    tokens = tokens_of(line)
    return is_malformed(line) or bool(tokens) and not tokens[0].startswith("#")


def is_separator(line: str) -> bool:
    """Returns whether the line ends an image or a script: its only word is `--`."""
    return tokens_of(line) == ["--"] and not is_malformed(line)


def ended(line: str) -> str:
    """Returns the line with a line end. The bench removes one carriage return before a line feed; a line that ends in one gets another one."""
    return line + ("\r\n" if line.endswith("\r") else "\n")


def lines_of(text: str) -> list[str]:
    """Returns the lines of a text. Text after the last line feed is a line if it is not empty; it keeps a carriage return."""
    *complete, unfinished = text.split("\n")
    return [line[:-1] if line.endswith("\r") else line for line in complete] + ([unfinished] if unfinished else [])
