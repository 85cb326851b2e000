"""Each message that rvlook prints in one line has a row in the table of docs/MESSAGES.md. Each row has a case in test_message_cases.py. The errors of
the Python API have rows in docs/TESTS.md."""
import ast
import re

import pytest

from conftest import ROOT

PACKAGE = ROOT / "python" / "rvlook"
CALLS = ("RvlookError", "Unfinished", "UsageError", "SymbolError", "error", "warn", "warn_once", "note", "fail", "refuse", "cut_short")
ROW = re.compile(r"^\| (\d+) \| `(?:error|warning|note): (.*)` \| .*\|$", re.M)
PLACEHOLDER = re.compile(r"%(?:0?\d*[sdx])")
CAPITALS = re.compile(r"\b[A-Z]{3,}\b")
KEPT = ("RVBENCH",)  # in capitals, but no placeholder
PREFIX = "FILE:LINE: COMMAND: "  # in the message for a script line, before the error of a name
SHORT = 8  # the fewest letters of a pattern that identifies a message
ELSEWHERE = {  # files whose texts have no prefix `rvlook: `: they are printed by the prompt or sent to a debugger
    "prompt/prompt.py", "gdb/server.py", "gdb/reverse.py", "gdb/moves.py", "gdb/monitor.py", "gdb/link.py"}


OF_API = ("api/", "image/types.py")
ERROR_ROW = re.compile(r"^\| `(.*)` \| .*\|$", re.M)


def api_rows():
    """Returns the errors in docs/TESTS.md."""
    text = (ROOT / "docs" / "TESTS.md").read_text(encoding="utf-8").split("## Errors")[1].split("\n## ")[0]
    return [it.replace("\\|", "|") for it in ERROR_ROW.findall(text)]


def rows():
    text = (ROOT / "docs" / "MESSAGES.md").read_text(encoding="utf-8")
    found = [row.replace("\\|", "|") for _, row in ROW.findall(text)]
    return found + [row.split(PREFIX)[1] for row in found if PREFIX in row]


def trees():
    return {str(path.relative_to(PACKAGE)): ast.parse(path.read_text(encoding="utf-8")) for path in sorted(PACKAGE.glob("**/*.py"))}


def texts_of(node, functions):
    """Returns the texts that an expression may have: a literal, a format, a choice, or the result of a function of rvlook."""
    if isinstance(node, ast.Constant) and isinstance(node.value, str):
        return [node.value]
    if isinstance(node, ast.BinOp) and isinstance(node.op, ast.Mod):
        return texts_of(node.left, functions)
    if isinstance(node, ast.BinOp):
        return [a + b for a in texts_of(node.left, functions) or ["%s"] for b in texts_of(node.right, functions) or ["%s"]]
    if isinstance(node, ast.IfExp):
        return texts_of(node.body, functions) + texts_of(node.orelse, functions)
    if isinstance(node, ast.Name) and node.id in CONSTANTS:
        return [CONSTANTS[node.id]]
    if isinstance(node, ast.Call) and isinstance(node.func, ast.Name):
        return [text for it in functions.get(node.func.id, ()) for text in texts_of(it, functions)]
    return []


CONSTANTS = {}
INTERNAL = ("a command must be a single line",)  # a check of rvlook's own callers
OF_THE_SERVER = ("listening on localhost:%d", "rejected a second connection to the port", "the debugger disconnected")  # in docs/DEBUGGER.md
IN_A_DEBUGGER = ("gdb/monitor.py", "gdb/moves.py")  # its messages are printed in the debugger


def messages():
    """Yields each text that one of CALLS gets, with its file and line."""
    every = trees()
    functions = {}
    for tree in every.values():
        for node in ast.walk(tree):
            if isinstance(node, ast.FunctionDef):
                functions.setdefault(node.name, []).extend(it.value for it in ast.walk(node) if isinstance(it, ast.Return) and it.value)
            if isinstance(node, ast.Assign) and isinstance(node.targets[0], ast.Name) and isinstance(node.value, ast.Constant):
                if isinstance(node.value.value, str) and node.targets[0].id.isupper():
                    CONSTANTS[node.targets[0].id] = node.value.value
    for name, tree in every.items():
        for node in ast.walk(tree):
            if isinstance(node, ast.Call) and node.args and name_of(node.func, name) in CALLS:
                for text in texts_of(node.args[0], functions) if name not in IN_A_DEBUGGER else ():
                    if text in (*INTERNAL, *OF_THE_SERVER):
                        continue
                    yield "%s:%d" % (name, node.lineno), text


def name_of(function, file):
    """Returns the name of the called function, or '' for a method that does not report a message."""
    if isinstance(function, ast.Name):
        return function.id
    is_own = isinstance(function, ast.Attribute) and function.attr in ("cut_short", "refuse")
    return function.attr if is_own and file not in ELSEWHERE else ""


def pattern_of(row):
    """Returns a row as a regular expression: words in capitals are placeholders."""
    parts = re.split(r"(\b[A-Z]{3,}\b)", row)
    return "".join(".+" if CAPITALS.fullmatch(it) and it not in KEPT else re.escape(it) for it in parts)


def is_row_of(row, text):
    """Returns whether a row is that of a message: one of the two matches the pattern of the other."""
    form = ".+".join(re.escape(it) for it in PLACEHOLDER.split(text))
    if re.fullmatch(form, row) and len(form.replace(".+", "")) >= 1:
        return True
    letters = re.sub(r"[^a-z]", "", CAPITALS.sub("", row))
    return len(letters) >= SHORT and bool(re.fullmatch(pattern_of(row), PLACEHOLDER.sub("x", text)))


@pytest.mark.parametrize("place, text", sorted(set(messages()), key=lambda it: it[::-1]))
def test_message_has_a_row(place, text):
    known, page = (api_rows(), "TESTS.md") if place.startswith(OF_API) else (rows(), "MESSAGES.md")
    assert any(is_row_of(row, text) for row in known), "%s prints %r, which is not in the table of docs/%s" % (place, text, page)


def test_messages_are_found():
    assert len({text for _, text in messages()}) > 45
