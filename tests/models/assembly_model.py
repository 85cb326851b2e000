"""A reference assembler and disassembler by docs/ASSEMBLER.md. instruction_words.py has the encodings, and privileged_hart.py the CSR numbers.
Independent of the code under test.
"""
import re

from models.instruction_words import FORMATS, ROWS, WHOLE, assemble as encoded
from models.privileged_hart import TABLE

BAD_TEXT, UNKNOWN_NAME, BAD_OPERAND, OUT_OF_RANGE, UNKNOWN_LABEL, LABEL_TWICE, TOO_LONG = range(1, 8)
MOST_WORDS = 65536
X_NAMES = ["x%d" % i for i in range(32)]
ABI_NAMES = ("zero ra sp gp tp t0 t1 t2 s0 s1 a0 a1 a2 a3 a4 a5 a6 a7 s2 s3 s4 s5 s6 s7 s8 s9 s10 s11 t3 t4 t5 t6").split()
REGISTERS = {**{name: i for names in (X_NAMES, ABI_NAMES) for i, name in enumerate(names)}, "fp": 8}
CSRS = {name: first + i for first, _, names, _ in TABLE if not names.startswith("mhpm")
        for i, name in enumerate(names.split(", "))}
PLAIN = [name for name in WHOLE if re.fullmatch("[a-z]+", name)]  # instructions without operands
NAME = re.compile(r"[A-Za-z_.][A-Za-z0-9_.]{0,31}")
NUMBER = re.compile(r"-?[0-9]+|0x[0-9A-Fa-f]{1,8}")
SET = re.compile(r"0|(?=.)i?o?r?w?")


class Fault(Exception):
    def __init__(self, kind):
        self.kind = kind


# ---- operands: their values, or the error BadOperand

def register(text):
    if text not in REGISTERS:
        raise Fault(BAD_OPERAND)
    return REGISTERS[text]


def number(text):
    if not NUMBER.fullmatch(text):
        raise Fault(BAD_OPERAND)
    return int(text, 16 if text.startswith("0x") else 10)


def csr(text):
    return CSRS[text] if text in CSRS else number(text)


def target(text):
    return text if NAME.fullmatch(text) else number(text)


def based(text):
    found = re.fullmatch(r"([^()]*)\(([^()]*)\)", text)
    if not found:
        raise Fault(BAD_OPERAND)
    return number(found[1]), register(found[2])


def fence_set(text):
    if not SET.fullmatch(text):
        raise Fault(BAD_OPERAND)
    return sum(8 >> "iorw".index(letter) for letter in text if letter in "iorw")


# ---- statements: the forms of the operands, and the smallest and the largest number

SIGNED_12 = (-2048, 2047)
ANY_WORD = (-0x80000000, 0xFFFFFFFF)
FORMS = {"lui": ((register, number), (0, 0xFFFFF)), "auipc": ((register, number), (0, 0xFFFFF)),
         "jal": ((register, target), (-0x100000, 0xFFFFE)), "jalr": ((register, based), SIGNED_12),
         "branch": ((register, register, target), (-0x1000, 0xFFE)), "load": ((register, based), SIGNED_12),
         "store": ((register, based), SIGNED_12), "immediate": ((register, register, number), SIGNED_12),
         "shift": ((register, register, number), (0, 31)), "register": ((register, register, register), None),
         "csr": ((register, csr, register), None), "csr_number": ((register, csr, number), (0, 31)),
         "vma": ((register, register), None)}
STATEMENTS = {**{name: FORMS[row[0]] for name, row in ROWS.items()}, **{name: ((), None) for name in PLAIN},
              "fence": ((fence_set, fence_set), None), ".word": ((number,), ANY_WORD), "nop": ((), None), "ret": ((), None),
              "li": ((register, number), ANY_WORD)}


def in_range(name, read):
    """Returns whether each number is in its range; the value of a label is not known yet."""
    forms, limits = STATEMENTS[name]
    for form, value in zip(forms, read):
        value = value[0] if form is based else value
        if form is csr and not 0 <= value <= 4095:
            return False
        if form in (number, based, target) and not isinstance(value, str) and not limits[0] <= value <= limits[1]:
            return False
        if form is target and not isinstance(value, str) and value % 2:
            return False
    return True


def words_of(name, read):
    """Returns the words of a statement whose labels are offsets."""
    flat = [part for value in read for part in (value if isinstance(value, tuple) else (value,))]
    if name in WHOLE:
        return [WHOLE[name]]
    if name == "fence":
        return [flat[0] << 24 | flat[1] << 20 | 0x0F]
    if name == ".word":
        return [flat[0] % 2 ** 32]
    if name == "nop":
        return words_of("addi", (0, 0, 0))
    if name == "ret":
        return words_of("jalr", (0, (0, 1)))
    if name == "li":
        rd, value = flat[0], (flat[1] + 2 ** 31) % 2 ** 32 - 2 ** 31
        low = (value + 2048) % 4096 - 2048
        if low == value:
            return words_of("addi", (rd, 0, value))
        return words_of("lui", (rd, (value - low) % 2 ** 32 >> 12)) + (words_of("addi", (rd, rd, low)) if low else [])
    return [encoded(name, *flat)[1]]


# ---- lines

def read_line(line):
    """Parses a line into its label or None, the name of its statement or None, and its operands."""
    if len(line) > 120 or re.search(r"[^\t\x20-\x7e]", line):
        raise Fault(BAD_TEXT)
    label, rest = None, line.split("#")[0]
    if ":" in rest:
        label, rest = rest.split(":", 1)
        label = label.lstrip(" \t")
        if not NAME.fullmatch(label):
            raise Fault(BAD_TEXT)
    rest = rest.strip(" \t")
    if not rest:
        return label, None, ()
    name = re.match(r"[^ \t]*", rest)[0]
    if not NAME.fullmatch(name):
        raise Fault(BAD_TEXT)
    if name not in STATEMENTS:
        raise Fault(UNKNOWN_NAME)
    operands = rest[len(name):].strip(" \t")
    operands = [operand.strip(" \t") for operand in operands.split(",")] if operands else []
    forms = STATEMENTS[name][0]
    if len(operands) != len(forms):
        raise Fault(BAD_OPERAND)
    read = tuple(form(operand) for form, operand in zip(forms, operands))
    if not in_range(name, read):
        raise Fault(OUT_OF_RANGE)
    return label, name, read


def lines_of(text):
    lines = text.split("\n")
    return [line[:-1] if line.endswith("\r") else line for line in lines[:-1]] + lines[-1:] * (lines[-1] != "")


def assembled(text):
    """Returns the words of a text, or the line number and the kind of its error."""
    statements, labels, twice, at = [], {}, None, 0
    for line_number, line in enumerate(lines_of(text), 1):
        try:
            label, name, read = read_line(line)
            if label is not None:
                twice = twice or (line_number if label in labels else None)
                labels.setdefault(label, at)
            if name:
                count = len(words_of(name, [0 if isinstance(value, str) else value for value in read]))
                if at + count > MOST_WORDS:
                    raise Fault(TOO_LONG)
                statements.append((line_number, at, name, read))
                at += count
        except Fault as fault:
            return line_number, fault.kind
    if twice:
        return twice, LABEL_TWICE
    words = []
    for line_number, at, name, read in statements:
        if any(isinstance(value, str) and value not in labels for value in read):
            return line_number, UNKNOWN_LABEL
        read = [4 * (labels[value] - at) if isinstance(value, str) else value for value in read]
        if not in_range(name, read):
            return line_number, OUT_OF_RANGE
        words += words_of(name, read)
    return words


# ---- the text of a word

def signed(value, width):
    return value - (value >> width - 1 << width)


def field(word, high, low):
    return word >> low & (1 << high - low + 1) - 1


# for each form of operands: the mask, and the operands as numbers in the order of the text
I_MASK, R_MASK = 0x0000707F, 0xFE00707F
CUTS = {"lui": (0x7F, lambda w, d, a, b: (d, w >> 12)), "auipc": (0x7F, lambda w, d, a, b: (d, w >> 12)),
        "jal": (0x7F, lambda w, d, a, b: (d, signed(field(w, 31, 31) << 20 | field(w, 19, 12) << 12 | field(w, 20, 20) << 11
                                                    | field(w, 30, 21) << 1, 21))),
        "jalr": (I_MASK, lambda w, d, a, b: (d, signed(w >> 20, 12), a)),
        "branch": (I_MASK, lambda w, d, a, b: (a, b, signed(field(w, 31, 31) << 12 | field(w, 7, 7) << 11
                                                            | field(w, 30, 25) << 5 | field(w, 11, 8) << 1, 13))),
        "load": (I_MASK, lambda w, d, a, b: (d, signed(w >> 20, 12), a)),
        "store": (I_MASK, lambda w, d, a, b: (b, signed(w >> 25 << 5 | d, 12), a)),
        "immediate": (I_MASK, lambda w, d, a, b: (d, a, signed(w >> 20, 12))),
        "shift": (R_MASK, lambda w, d, a, b: (d, a, b)), "register": (R_MASK, lambda w, d, a, b: (d, a, b)),
        "csr": (I_MASK, lambda w, d, a, b: (d, w >> 20, a)), "csr_number": (I_MASK, lambda w, d, a, b: (d, w >> 20, a)),
        "vma": (0xFE007FFF, lambda w, d, a, b: (a, b))}
TEXTS = {kind: FORMATS[kind][1] for kind in CUTS}
TEXTS.update({"lui": "x%d, 0x%x", "auipc": "x%d, 0x%x", "csr": "x%d, 0x%03x, x%d", "csr_number": "x%d, 0x%03x, %d"})
MATCHES = {name: funct7 << 25 | funct3 << 12 | FORMATS[kind][0] for name, (kind, funct3, funct7) in ROWS.items()}


def set_text(letters):
    return "".join(letter for i, letter in enumerate("iorw") if letters & 8 >> i) or "0"


def disassembled(word):
    for name in PLAIN:
        if word == WHOLE[name]:
            return name
    if word & 0xF00FFFFF == 0x0F:
        return "fence %s, %s" % (set_text(field(word, 27, 24)), set_text(field(word, 23, 20)))
    for name, (kind, _, _) in ROWS.items():
        mask, cut = CUTS[kind]
        if word & mask == MATCHES[name]:
            return name + " " + TEXTS[kind] % cut(word, field(word, 11, 7), field(word, 19, 15), field(word, 24, 20))
    return ".word 0x%08x" % word
