"""The commands of the bench and the forms of their operands (docs/COMMANDS.md), in which symbols and names of registers become numbers. Also the
meaning of each error reply, and what to write instead."""
from __future__ import annotations

import re
from difflib import get_close_matches
from enum import Enum
from typing import Iterable, NamedTuple, Sequence

from rvlook.errors import SymbolError
from rvlook.escapes import visible_line
from rvlook.protocol import names
from rvlook.protocol.bench_line import is_malformed, tokens_of
from rvlook.protocol.inputs import ScriptLine
from rvlook.protocol.nearest import meant
from rvlook.protocol.symbols import Symbols

IMAGE_ERRORS = {  # by the number of the error of the bench: the meaning, and what to use instead
    1: ("the ELF file has fewer than 52 bytes", "the complete file, or --kind raw"),
    2: ("not an ELF file", "--kind raw, or no --kind"),
    3: ("the ELF file is 64-bit or big-endian", "a build with -march=rv32im -mabi=ilp32"),
    4: ("the ELF file is an object file or position-independent", "a link without -c, -r, -shared and -pie"),
    5: ("the ELF file is not for RISC-V", "a build for the target riscv32"),
    6: ("the program header table is truncated, damaged, or has more than 64 entries", "a link with PHDRS in the linker script"),
    7: ("a segment extends past the end of the file", "the complete file"),
    8: ("a segment is larger in the file than in memory", "a new copy of the file, which is damaged"),
    9: ("a part of the image is outside RAM, or below 80010000 under the monitor",
        "a link address of 80000000 or above (80010000 under the monitor), or a larger --ram"),
    10: ("two segments overlap", "disjoint load addresses"),
    11: ("the entry point is misaligned, outside RAM, or in the monitor's range", "ENTRY(_start) with _start in the image")}
COMMANDS_OF_OTHERS = {  # commands of other debuggers, and the similar command of the bench
    "x": "mem", "print": "reg", "p": "reg", "info": "regs", "registers": "regs", "c": "run", "continue": "run", "s": "step",
    "si": "step", "stepi": "step", "n": "step", "next": "step", "b": "break", "breakpoint": "break", "delete": "clear", "set": "setreg",
    "write": "poke", "disas": "dis", "disassemble": "dis", "memory": "mem", "watchpoint": "watch", "read": "mem"}
INPUT_ERRORS = {"too long": ("the image has more than 33554432 bytes", "a smaller image"),
                "hex": ("a line is malformed; see 'rvlook explain'", None),
                "memory": ("out of memory", "a smaller input"), "read": ("the input cannot be read", "a readable input"),
                "ram 1": ("--ram must be a multiple of 65536 from 65536 to 16777216", "--ram 1048576"),
                "ram 2": ("out of memory for the RAM", "a smaller --ram")}
INPUT_REPLIES = frozenset("rvbench: " + error for error in [*INPUT_ERRORS, *("image %d" % number for number in IMAGE_ERRORS)])
LONGEST_SHOWN = 160  # characters of a line in a message


class Form(Enum):
    """The form of an operand, with its description for messages."""
    count = "a decimal number from 1 to 1000000"
    register = "a register number (decimal, 0 to 31)"
    address = "an address (1 to 8 hexadecimal digits, optionally after 0x)"
    value = "a value (1 to 8 hexadecimal digits, optionally after 0x)"
    length = "a decimal number from 1 to 64"
    byte = "a byte (1 or 2 hexadecimal digits, without 0x)"
    csr = "a CSR number (1 to 3 hexadecimal digits, without 0x)"
    mode = "M, S or U"
    kind = "r, w or x"  # the kind of an access
    width = "1, 2 or 4"  # bytes of an access
    line = "on or off"
    hart = "0 or 1"
    schedule = "a schedule (1 to 64 digits 0 and 1)"


class Command(NamedTuple):
    """The operands of a command."""
    letters: str  # the letters that docs/COMMANDS.md has for it
    forms: tuple[Form, ...]  # the forms of the operands, in order


COMMANDS = {"step": Command("N", (Form.count,)), "run": Command("N", (Form.count,)),
            "break": Command("A", (Form.address,)), "clear": Command("A", (Form.address,)),
            "watch": Command("A", (Form.address,)), "unwatch": Command("A", (Form.address,)),
            "reg": Command("N", (Form.register,)), "regs": Command("", ()), "setreg": Command("N V", (Form.register, Form.value)),
            "csr": Command("C", (Form.csr,)), "mem": Command("A N", (Form.address, Form.length)),
            "poke": Command("A V", (Form.address, Form.byte)), "dis": Command("A", (Form.address,)), "pmp": Command("", ()),
            "enclaves": Command("", ()), "access": Command("M K A L", (Form.mode, Form.kind, Form.address, Form.width)),
            "timer": Command("on|off", (Form.line,)), "hart": Command("H", (Form.hart,)), "sched": Command("W", (Form.schedule,))}
HEXADECIMAL = re.compile(r"(0x)?[0-9a-fA-F]{1,8}\Z")
DECIMAL = re.compile(r"[0-9]{1,7}\Z")
LIMITS = {Form.count: (1, 1000000), Form.register: (0, 31), Form.length: (1, 64)}  # the least and the greatest decimal number of a form
PATTERNS = {Form.address: HEXADECIMAL, Form.value: HEXADECIMAL, Form.byte: re.compile(r"[0-9a-fA-F]{1,2}\Z"),
            Form.csr: re.compile(r"[0-9a-fA-F]{1,3}\Z"), Form.mode: re.compile(r"[MSU]\Z"), Form.kind: re.compile(r"[rwx]\Z"),
            Form.width: re.compile(r"[124]\Z"), Form.line: re.compile(r"(on|off)\Z"), Form.hart: re.compile(r"[01]\Z"),
            Form.schedule: re.compile(r"[01]{1,64}\Z")}


def is_form(token: str, form: Form) -> bool:
    """Returns whether a word is a valid operand of a form, including its range."""
    if form in LIMITS:
        low, high = LIMITS[form]
        return bool(DECIMAL.match(token)) and low <= int(token) <= high
    return bool(PATTERNS[form].match(token))


def rewritten(token: str, form: Form, symbols: Symbols | None = None) -> str | None:
    """Returns a word in the syntax of a form: an ABI name, CSR, symbol or number in the other base as the number; None if its meaning is unclear."""
    if form is Form.address and symbols and token.split("+")[0].split("@")[0] in symbols.addresses_by_name:
        at = symbols.address(token)
        return None if at is None else "%x" % at
    if is_form(token, form):
        return token
    if form is Form.register and token.lower() in names.NUMBER_OF:
        return str(names.NUMBER_OF[token.lower()])
    if form is Form.csr and (token.lower() in names.CSRS or re.match(r"0x[0-9a-fA-F]{1,3}\Z", token)):
        return "%x" % names.CSRS.get(token.lower(), int(token, 16) if token.startswith("0x") else 0)
    at = symbols.address(token) if form is Form.value and symbols else None
    if at is not None:
        return "%x" % at
    return rewritten_number(token, form)


def rewritten_number(token: str, form: Form) -> str | None:
    """Returns a number in the base of a form (decimal or hexadecimal), or a word in its case (M, on); None if the result is not valid."""
    if form in LIMITS and re.match(r"0[xX][0-9a-fA-F]+\Z", token):
        number = str(int(token, 16))
    elif form is Form.byte and re.match(r"0[xX][0-9a-fA-F]{1,2}\Z", token) or form in (Form.address, Form.value):
        number = re.sub(r"^0[xX]|_", "", token)
    else:
        number = token.upper() if form is Form.mode else token.lower()
    return number if is_form(number, form) else None


def written(name: str, operands: Sequence[str], symbols: Symbols | None = None) -> str | None:
    """Returns a command in the syntax of the bench, or None if an operand is not valid."""
    forms = COMMANDS[name].forms
    rewritten_or_none = [rewritten(token, form, symbols) for token, form in zip(operands, forms)]
    texts = [text for text in rewritten_or_none if text is not None]
    return " ".join([name, *texts]) if len(operands) == len(forms) == len(texts) else None


def input_error(reply: str) -> tuple[str, str | None]:
    """Returns the meaning of an error of the whole input, and what to write instead, or None; `reply` begins with `rvbench: `."""
    error = reply[len("rvbench: "):]
    if error.startswith("image "):
        return IMAGE_ERRORS[int(error.split()[1])]
    return INPUT_ERRORS.get(error, ("rvbench has exited", None))


def line_error(reply: str, tokens: Sequence[str]) -> tuple[str, str | None]:
    """Returns the meaning of an error of a line, and what to write instead, or None."""
    if reply == "error command":
        return command_error(tokens)
    if reply == "error operand":
        return operand_error(tokens)
    contrary = "unwatch" if tokens and tokens[0] == "watch" else "clear"
    meanings = {
        "error line": ("a line must have at most 120 bytes, each a tab or printable ASCII", "a shorter line in ASCII"),
        "error full": ("32 addresses are set, which is the limit", "'%s' to remove one first" % contrary),
        "error csr": ("no such control and status register", None),
        "error outside": ("the access is outside RAM", "an address from 80000000, or a larger --ram"),
        "error hart": ("no such hart", "--harts 2 with --monitor"),
        "error blind": ("the bytes belong to the enclave whose secret is compared", None)}
    return meanings.get(reply, ("rvbench rejects it", None))


def command_error(tokens: Sequence[str]) -> tuple[str, str | None]:
    """Returns the error of an unknown command, and what to write instead, or None."""
    token = tokens[0]
    if token == "--":
        return "a second -- is valid only for `rvbench twin`", None
    if token.startswith("--"):
        return "this is a command-line option, not a command", "./rvbench run %s" % " ".join(tokens)
    similar = [token.lower()] if token.lower() in COMMANDS else get_close_matches(token.lower(), COMMANDS, 1, 0.7)
    remedy = COMMANDS_OF_OTHERS.get(token.lower()) or (similar[0] if similar else None)
    if remedy is None:
        return "unknown command '%s'; the commands are %s" % (token, " ".join(COMMANDS)), None
    return "unknown command '%s'; did you mean '%s'?" % (token, remedy), "%s %s" % (remedy, COMMANDS[remedy].letters)


def operand_error(tokens: Sequence[str]) -> tuple[str, str | None]:
    """Returns the error of the operands of a command, and what to write instead, or None."""
    name, operands = tokens[0], tokens[1:]
    command = COMMANDS[name]
    comment = next((index for index, token in enumerate(operands) if token.startswith("#")), None)
    if comment is not None:
        return "a comment must be on a line of its own", " ".join(tokens[:comment + 1])
    if len(operands) != len(command.forms):
        return count_text(name, len(command.forms), len(operands)), (name + " " + command.letters).strip()
    for index, (token, form) in enumerate(zip(operands, command.forms)):
        if not is_form(token, form):
            valid_form = rewritten(token, form)
            valid_operands = [*operands[:index], valid_form, *operands[index + 1:]] if valid_form else None
            return "'%s' is not %s" % (token, form.value), " ".join([name, *valid_operands]) if valid_operands else None
    return "invalid operands of %s" % name, name + " " + command.letters


def count_text(name: str, expected: int, given: int) -> str:
    """Returns the message for a wrong number of operands."""
    operands = {0: "no operands", 1: "1 operand"}.get(expected, "%d operands" % expected)
    return "%s takes %s, but %d %s given" % (name, operands, given, "was" if given == 1 else "were")


def resolved(line: str, symbols: Symbols) -> str:
    """Returns a line in the syntax of the bench, an invalid line unchanged. Raises SymbolError for an ambiguous name."""
    tokens = tokens_of(line)
    if is_malformed(line) or not tokens or tokens[0] not in COMMANDS:
        return line
    return written(tokens[0], tokens[1:], symbols) or line


def resolved_script(lines: Iterable[ScriptLine], symbols: Symbols) -> tuple[ScriptLine, ...]:
    """Returns the lines of a script in the syntax of the bench."""
    return tuple(resolved_line(line, symbols) for line in lines)


def resolved_line(line: ScriptLine, symbols: Symbols) -> ScriptLine:
    """Returns a line of a script in the syntax of the bench. Leaves a line with an ambiguous name unchanged, so that the bench refuses it."""
    try:
        return ScriptLine(line.given, line.location, resolved(line.given, symbols))
    except SymbolError as fault:
        return ScriptLine(line.given, line.location, line.given, str(fault))


def error_text(line: ScriptLine, reply: str, symbols: Symbols) -> str:
    """Returns the message for a line of a script that the bench refuses: location, line, and meaning. `reply` is the reply of the bench."""
    message = line.refused or meaning(reply, tokens_of(line.given), symbols)
    return visible_line("%s: %s: %s" % (line.location, line.given[:LONGEST_SHOWN], message))


def meaning(reply: str, tokens: Sequence[str], symbols: Symbols) -> str:
    """Returns the meaning of the error reply to a line with these words; names a symbol that does not exist."""
    unknown = reply == "error operand" and unknown_name(tokens, symbols)
    return unknown or line_error(reply, tokens)[0]


def unknown_name(tokens: Sequence[str], symbols: Symbols) -> str | None:
    """Returns the message for the first operand that should be an address or a value and looks like a name, or None."""
    for token, form in zip(tokens[1:], COMMANDS[tokens[0]].forms):
        if form in (Form.address, Form.value) and not is_form(token, form) and not token[:1].isdigit():
            return no_symbol(token, symbols)
    return None


def no_symbol(name: str, symbols: Symbols) -> str:
    """Returns the message for an unknown name."""
    if not symbols:
        return "no symbol '%s': no symbols are loaded; use an ELF file or --symbols FILE" % name
    return "no symbol '%s'%s" % (name, meant(name, symbols.by_name))
