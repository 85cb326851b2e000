"""The subcommand `explain`: shows the errors of an input of the bench, what they mean, and what to write instead."""
from __future__ import annotations

import re
import subprocess
import sys
from argparse import Namespace
from difflib import get_close_matches
from typing import Iterable, NamedTuple, Optional, Sequence

from rvlook.errors import RvlookError, Unfinished
from rvlook.image.files import MOST_LINES, bounded, read_file
from rvlook.output.printer import Printer
from rvlook.protocol.bench import COUNTS, program_path
from rvlook.protocol.bench_line import LONGEST_LINE, has_reply, is_separator, lines_of, tokens_of
from rvlook.protocol.commands import COMMANDS, input_error, line_error

MOST_ERRORS = 10000  # errors of an input that are explained


class Explained(NamedTuple):
    """An error of an input."""
    line: int  # the number of the line; 0 for the whole input
    text: str  # the text of the line
    reply: str  # the reply of the bench
    meaning: str  # the meaning of the reply
    suggestion: Optional[str]  # what to write instead; None if nothing is known


def replies_to(arguments: Sequence[str], data: bytes) -> list[str]:
    """Returns the lines that the bench writes for an input. Raises Unfinished if the bench cannot be run."""
    try:
        process = subprocess.run([program_path(), *arguments], input=data, capture_output=True, check=False)
    except OSError as error:
        raise Unfinished("cannot run '%s': %s" % (program_path(), error.strerror)) from None
    return process.stdout.decode("latin-1").splitlines()


def explained(arguments: Sequence[str], data: bytes) -> list[Explained]:
    """Returns all errors of an input, in order. `arguments` are those of rvbench; `data` is the input: an image, `--` and a script."""
    replies = replies_to(arguments, data)
    lines = lines_of(data.decode("latin-1"))
    last = replies[-1] if replies and replies[-1].startswith("rvbench: ") else None
    if last == "rvbench: command line":
        return command_line_errors(arguments)
    if last == "rvbench: hex":
        return image_errors(lines)
    if last:
        return [Explained(0, "", last, *input_error(last))]
    cut = next((index for index, line in enumerate(lines) if is_separator(line)), None)
    if cut is None:
        meaning = "the input has no line --, so all of it is read as the image"
        return [Explained(line=0, text="", reply="", meaning=meaning, suggestion="-- before the first command")]
    return script_errors(list(enumerate(lines[cut + 1:], cut + 2)), replies, arguments[:1] == ["twin"])


def image_errors(lines: Sequence[str]) -> list[Explained]:
    """Returns the first malformed line of the image's text."""
    for number, line in enumerate(lines, 1):
        if is_separator(line):
            break
        reply_and_remedy = image_line_error(line)
        if reply_and_remedy:
            return [Explained(number, shown(line), "rvbench: hex", *reply_and_remedy)]
    return [Explained(line=0, text="", reply="rvbench: hex", meaning="a line of the image is malformed", suggestion=None)]


def image_line_error(line: str) -> tuple[str, str | None] | None:
    """Returns what is wrong with a line of an image, and what to write; None if it is well-formed."""
    if re.search(r"[^\t\x20-\x7e]", line):
        return "the image contains raw bytes, not hexadecimal digits", "od -An -v -tx1 -w60 FILE | tr -d ' ' (rvlook reads the file as it is)"
    if len(line) > LONGEST_LINE:
        return "the line has %d bytes; the limit is %d" % (len(line), LONGEST_LINE), "shorter lines"
    tokens = tokens_of(line)
    joined = "".join(tokens)
    if tokens and (tokens[0] in COMMANDS or tokens[0].startswith("#")):
        return "this is a script command, but the image is not terminated", "a line -- before it"
    if "0x" in line.lower():
        return "hexadecimal digits must not have the prefix 0x", re.sub(r"0[xX]|[, ]", "", line)
    other = re.search(r"[^0-9a-fA-F]", joined)
    if other:
        return "'%s' is not a hexadecimal digit" % other[0], None
    if len(tokens) > 1:
        return "the digits of a line must not be separated by spaces", joined
    if len(joined) % 2:
        return "the line has an odd number of digits (%d); each byte has two" % len(joined), None
    return None


def shown(text: str) -> str:
    """Returns a line of the input in printable characters."""
    return re.sub(r"[^\x20-\x7e]", "?", text[:LONGEST_LINE])


def script_errors(lines: Iterable[tuple[int, str]], replies: Sequence[str], is_twin: bool) -> list[Explained]:
    """Returns the lines of a script, each with its number, that have an error reply. `is_twin`: the replies are those of two benches."""
    errors: list[Explained] = []
    index = 0
    for number, line in lines:
        if not has_reply(line):
            continue
        if len(errors) > MOST_ERRORS:
            break
        tokens = tokens_of(line)
        reply = replies[index] if index < len(replies) else ""
        if tokens == ["--"] and is_twin:
            continue
        if reply.startswith("error ") and tokens != ["enclaves"]:  # `enclaves` has no error; without enclaves, the reply is that of the next line
            index += 1
            errors.append(Explained(number, shown(line), reply, *line_error(reply, tokens)))
        else:
            index = marked_end(replies, index) or end_of(tokens, replies, index)
    return errors


def end_of_run(replies: Sequence[str], index: int, start: str) -> int:
    """Returns the index after the lines from `index` on that begin with `start`."""
    while index < len(replies) and replies[index].startswith(start):
        index += 1
    return index


def marked_end(replies: Sequence[str], index: int) -> int:
    """Returns the index after the replies of two benches to one command; 0 if no such replies are at `index`."""
    end = end_of_run(replies, end_of_run(replies, index, "a: "), "b: ")
    return end if end > index else 0


def end_of(tokens: Sequence[str], replies: Sequence[str], index: int) -> int:
    """Returns the index after the reply to a command with these words, which begins at `index`."""
    if tokens[0] == "enclaves":
        return end_of_run(replies, index, "enclave ")
    if tokens[0] == "sched":
        return index + (2 if [reply[:6] for reply in replies[index:index + 2]] == ["hart 0", "hart 1"] else 1)
    return index + COUNTS.get(tokens[0], 1)


def command_line_errors(arguments: Sequence[str]) -> list[Explained]:
    """Returns the first argument that the bench refuses: it accepts the arguments before it, with a value after an option that has one."""
    for count in range(1, len(arguments) + 1):
        tried = [arguments[:count], [*arguments[:count], "1"], [*arguments[:count], "raw"], [*arguments[:count], "65536"],
                 [*arguments[:count], "--monitor"], [*arguments[:count], "1", "--monitor"]]
        if all(replies_to(path, b"--\n")[-1:] == ["rvbench: command line"] for path in tried):
            return [Explained(0, " ".join(arguments), "rvbench: command line", *argument_error(arguments, count - 1))]
    return [Explained(0, " ".join(arguments), "rvbench: command line", "a value or --monitor is missing", "./rvbench run --help")]


def argument_error(arguments: Sequence[str], index: int) -> tuple[str, str]:
    """Returns which argument is refused, and what might be meant."""
    known = ("run", "twin", "asm", "dis", "help", "--kind", "--monitor", "--ram", "--harts", "--slot", "--help", "auto", "raw", "elf")
    near = get_close_matches(arguments[index].lower(), known, 1, 0.6)
    return "argument %d ('%s') is invalid" % (index + 1, arguments[index]), near[0] if near and near[0] != arguments[index] else \
        "./rvbench run --help"


def perform(arguments: Namespace) -> None:
    """Prints the errors of an input, and what to write; each is a finding."""
    path, findings, printer = arguments.input, arguments.findings, Printer(arguments.json)
    data = bounded(sys.stdin.buffer, "standard input") if path == "-" else read_file(path)
    if data.count(b"\n") > MOST_LINES:
        raise RvlookError("script '%s' is too long: it has more than %d lines" % (path, MOST_LINES))
    errors = explained(arguments.arguments or ["run"], data)
    for error in errors[:MOST_ERRORS]:
        findings.add("line %d" % error.line if error.line else "input", "%s: %s: %s" % (error.text, error.reply, error.meaning))
        if printer.as_json:
            printer.object("error", line=error.line, text=error.text, reply=error.reply, meaning=error.meaning, suggestion=error.suggestion)
            continue
        place = "line %d: %s" % (error.line, error.text) if error.line else "arguments: " + error.text if error.text else "input"
        printer.line("%s   %s" % (place, error.reply))
        printer.line("  " + error.meaning)
        if error.suggestion:
            printer.line("  try: " + error.suggestion)
    if len(errors) > MOST_ERRORS:
        findings.cut_short("explain stopped after %d errors; correct them, and run it again" % MOST_ERRORS)
    if not errors:
        findings.add("input")
    if not errors and not printer.as_json:
        printer.line("no errors")
