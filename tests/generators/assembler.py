#!/usr/bin/env python3
"""Generates the cases of asm and dis: every statement, operand and boundary value, labels and lines, and the text of every kind of word.

    python3 -m generators.assembler                      writes their digests and samples
    python3 -m generators.assembler --check              checks that they are up to date, and refused_texts against the model
    python3 -m generators.assembler --check-with-llvm    checks the word of each statement against llvm-mc

Independent of the code under test: the reference assembler and disassembler are in assembly_model.py.
"""
import os
import random
import re
import sys

from generators import case_files
from models.assembly_model import (ABI_NAMES, CSRS, CUTS, MATCHES, PLAIN, REGISTERS, ROWS, STATEMENTS, WHOLE, X_NAMES, assembled,
                            disassembled, signed)
from models.instruction_words import named

REFUSED = os.path.join(os.path.dirname(os.path.dirname(os.path.abspath(__file__))), "cli", "refused_texts")
BRANCHES, LOADS, STORES, IMMEDIATES, SHIFTS, PRODUCTS, CSR_ROWS, CSR_NUMBERS = (
    named(kind) for kind in ("branch", "load", "store", "immediate", "shift", "register", "csr", "csr_number"))
SETS = ["".join(letter for i, letter in enumerate("iorw") if letters & 8 >> i) or "0" for letters in range(16)]
CORNERS = [0, 1, 2, 5, 0x7FE, 0x7FF, 0x800, 0x801, 0xFFE, 0xFFF, 0x1000, 0x1001, 0x17FF, 0x1800, 0x1FFF, 0x2000, 0x7FFFF,
           0x80000, 0xFFFFF, 0x100000, 0x12345678, 0x55555555, 0x7FFFEFFF, 0x7FFFF000, 0x7FFFF7FE, 0x7FFFF7FF, 0x7FFFF800,
           0x7FFFF801, 0x7FFFFFFE, 0x7FFFFFFF, 0x80000000, 0x80000001, 0x800007FF, 0x80000800, 0x80000FFF, 0xAAAAAAAA, 0xFFFFEFFF,
           0xFFFFF000, 0xFFFFF001, 0xFFFFF7FE, 0xFFFFF7FF, 0xFFFFF800, 0xFFFFF801, 0xFFFFFFFE, 0xFFFFFFFF]


def bytes_in_memory(words):
    return "".join(word.to_bytes(4, "little").hex() + "\n" for word in words)


class Case:
    all = []

    def __init__(self, topic, name, given, wanted, status=0):
        self.topic, self.name, self.given, self.wanted, self.status = topic, name, given, wanted, status
        Case.all.append(self)

    def files(self):
        files = {"args": self.topic + "\n", "stdin": self.given, "stdout": self.wanted}
        return {**files, "status": "%d\n" % self.status} if self.status else files


def asm(name, text):
    """Adds a case: a text and its words, or its error."""
    answer = assembled(text)
    if isinstance(answer, tuple):
        Case("asm", name, text, "rvbench: line %d fault %d\n" % answer, 1)
    else:
        Case("asm", name, text, bytes_in_memory(answer))


def asm_lines(name, statements):
    asm(name, "".join(statement + "\n" for statement in statements))


def dis(name, words, image=None):
    """Returns a case: words, or another form of their image, and their texts."""
    Case("dis", name, bytes_in_memory(words) if image is None else image,
         "".join("%08x %s\n" % (word, disassembled(word)) for word in words))


def dis_refused(name, image):
    Case("dis", name, image, "rvbench: hex\n", 1)


# ---- asm

def every_statement():
    """Each mnemonic with several operands; register numbers that differ in every bit are used in every position."""
    statements = []
    for d, a, b, n in ((1, 2, 3, 4), (31, 0, 21, -4), (10, 21, 31, 30), (0, 31, 10, 0)):
        statements += ["%s x%d, %d" % (name, d, abs(n)) for name in ("lui", "auipc")]
        statements += ["jal x%d, %d" % (d, n), "jalr x%d, %d(x%d)" % (d, n, a)]
        statements += ["%s x%d, x%d, %d" % (name, a, b, n) for name in BRANCHES]
        statements += ["%s x%d, %d(x%d)" % (name, d, n, a) for name in LOADS + STORES]
        statements += ["%s x%d, x%d, %d" % (name, d, a, n) for name in IMMEDIATES]
        statements += ["%s x%d, x%d, %d" % (name, d, a, abs(n)) for name in SHIFTS]
        statements += ["%s x%d, x%d, x%d" % (name, d, a, b) for name in PRODUCTS]
        statements += ["%s x%d, mscratch, x%d" % (name, d, a) for name in CSR_ROWS]
        statements += ["%s x%d, mscratch, %d" % (name, d, a) for name in CSR_NUMBERS]
        statements += ["sfence.vma x%d, x%d" % (a, b), "nop", "ret", "li x%d, %d" % (d, n), ".word %d" % n]
    statements += [*PLAIN, "fence iorw, iorw", "fence r, w", "fence 0, 0"]
    assert {statement.split(" ")[0] for statement in statements} == STATEMENTS.keys()
    asm_lines("every_statement", statements)


def register_names():
    names = X_NAMES + ABI_NAMES + ["fp"]
    assert len(names) == len(REGISTERS) == 65
    asm_lines("register_names", [text % ((name,) * text.count("%s")) for name in names for text in (
        "add %s, %s, %s", "lw %s, 0(%s)", "sw %s, 0(%s)", "jalr %s, 0(%s)", "beq %s, %s, 0", "jal %s, 0", "lui %s, 0",
        "li %s, 2048",
        "csrrw %s, 0, %s", "csrrwi %s, 0, 0", "slli %s, %s, 0", "sfence.vma %s, %s")])


def csr_names():
    asm_lines("csr_names", [text % name for name in CSRS for text in ("csrrs x1, %s, x0", "csrrwi x0, %s, 31")])
    numbers = [0, 1, 9, 10, 255, 256, 768, 833, 2047, 2048, 3857, 4094, 4095]
    asm_lines("csr_numbers", ["%s x1, %s, %s" % (name, form % number, "x2" if name in CSR_ROWS else "2")
                              for name in CSR_ROWS + CSR_NUMBERS for number in numbers for form in ("%d", "0x%x", "0x%08X")])
    asm_lines("csr_numbers_of_what_has_no_name", ["csrrs x1, %s, x0" % number for number in (
        "0xc00", "0xb03", "0xb9f", "0x323", "0x33f", "0x7a0", "-0", "00768", "0x0")])


def boundaries():
    """The smallest and the largest number of each statement, and some between them."""
    lines = []
    for name, (forms, limits) in STATEMENTS.items():
        if limits is None or name in ("li", ".word"):
            continue
        least, greatest = limits
        least_step = 2 if ROWS[name][0] in ("jal", "branch") else 1
        numbers = [least, least + least_step, greatest - least_step, greatest, 0, *(1 << i for i in range(least_step - 1, 20)),
                   *(-(1 << i) for i in range(least_step - 1, 21))]
        numbers = [number for number in numbers if least <= number <= greatest]
        for text in [str(number) for number in numbers] + ["0x%x" % number for number in numbers if number >= 0]:
            given = {"based": text + "(x2)", "csr": "mstatus", "register": "x1"}
            lines.append(name + " " + ", ".join(given.get(form.__name__, text) for form in forms))
    asm_lines("boundaries", lines)


def numbers():
    asm_lines("numbers", ["%s%s" % (statement, text) for statement in (".word ", "li x1, ", "addi x1, x0, ") for text in (
        "0", "-0", "00", "-00", "0x0", "0x00000000", "7", "-7", "007", "-007", "0000000000000000000000000000000000000000000007",
        "-00000000000000000000000000000000000002048", "0x7", "0x07", "0x00000007", "0xa", "0xA", "0x7fF", "0x7Ff", "2047",
        "-2048")])
    asm_lines("values_of_word", [".word " + text for value in CORNERS for text in (
        str(value), "0x%x" % value, "0x%08X" % value, str(signed(value, 32)))])


def values_of_li():
    """Each boundary of the two forms, without a sign, with a sign, and in hexadecimal."""
    asm_lines("values_of_li", ["li x5, " + text for value in CORNERS for text in (
        str(value), "0x%x" % value, "0x%08X" % value, str(signed(value, 32)))])
    asm_lines("values_of_li_below_zero", ["li x5, %d" % value for value in (
        -1, -2, -2047, -2048, -2049, -2050, -4095, -4096, -4097, -6144, -6145, -2147481600, -2147481601, -2147483647,
        -2147483648)])
    asm_lines("registers_of_li", ["li x%d, %d" % (d, value) for d in range(32) for value in (-1, 4096, 4097)])


def sets_of_fence():
    asm_lines("sets_of_fence", ["fence %s, %s" % (first, second) for first in SETS for second in SETS])


def labels():
    asm_lines("labels", [
        "start: jal x0, end", "back: beq x1, x2, start", "  bne x1, x2, back", "\tblt x1, x2, self", "self: bge x1, x2, self",
        "one:", "two:", " three: # and a comment", "", "four:", "jal x1, one", "jal x1, two", "jal x1, three", "jal x1, four",
        "bltu x1, x2, end", "li x1, 2048", "bgeu x1, x2, over", "li x1, 5", "li x1, 0xfffff7ff", ".word 0", "over:jal ra,start",
        "jal x0, last", "end:", "last:"])
    asm("label_at_the_end_without_a_line_feed", "jal x0, end\nend:")
    asm_lines("label_alone", ["only:"])
    asm_lines("names_of_labels", ["%s: jal x0, %s" % (name, name) for name in (
        "a", "Z", "_", ".", "._", "a0", "A_b.c", "x1", "ra", "nop", "addi", "mstatus", ".word", "iorw", "xyz0x1", "_0",
        "a" * 32, "a" * 31 + "b", "a" * 31, "." * 32, "_" * 32)])
    asm_lines("labels_of_either_case", ["a: nop", "A: jal x0, a", "jal x0, A", "aA:", "Aa: jal x0, aA", "jal x0, Aa"])
    asm_lines("blanks_around_labels", [
        "a:nop", " b: nop", "\tc:\tnop", " \t d: \t nop \t ", "e:   ", "f:#", "g:# h: nop", "jal x0,a", "jal x0,b",
        "jal x0 , c", "jal\tx0\t,\td", "jal x0,  e  ", "jal x0, f# g", "jal x0, g"])
    for name in BRANCHES:
        statement = name + " x1, x2, there"
        filling = lambda count: ["# filling"] + [".word 0"] * count
        asm_lines(name + "_to_a_label_4092_ahead", [statement] + filling(1022) + ["there:"])
        asm_lines(name + "_to_a_label_4096_back", ["there:"] + filling(1024) + [statement])
    asm_lines("branch_to_a_label_4096_ahead", ["beq x1, x2, there"] + filling(1023) + ["there:"])
    asm_lines("branch_to_a_label_4100_back", ["there:"] + filling(1025) + ["beq x1, x2, there"])
    asm_lines("branch_over_statements_of_two_words", ["beq x1, x2, there"] + ["li x1, 2048"] * 512 + ["there:"])
    asm_lines("jal_to_labels_4100_away", ["back: jal x0, ahead"] + filling(1024) + ["jal x0, back", "ahead:"])
    asm_lines("far_branch_before_an_unknown_label", ["beq x1, x2, there"] + filling(1023) + ["there: jal x0, nowhere"])
    asm_lines("unknown_label_before_a_far_branch", ["jal x0, nowhere", "beq x1, x2, there"] + filling(1023) + ["there:"])
    asm_lines("label_twice_before_a_far_branch", ["beq x1, x2, there"] + filling(1023) + ["there:", "there:"])


def lines():
    asm("no_line", "")
    asm("lines_without_statements", "\n \n\t\n# a comment\n  # one more: with a colon\n#\n\r\n \t \r\n##")
    asm("carriage_returns", "nop\r\na:\r\n\r\n# b\r\njal x0, a\r\nli x1, -1 \r\n")
    asm("no_line_feed_at_the_end", "nop\nret")
    asm("blanks",
        "  nop  \n\tnop\t\n \t addi \t x1 \t , \t x2 \t , \t 3 \t \naddi x1,x2,3\nlw x1,4(x2)\n"
        "lw\tx1 ,\t4(x2) # x\nfence rw,rw\nfence\t0 ,\t0\n.word\t7\nsfence.vma\tx0,x0\n")
    asm("comments",
        "nop # comment\nnop# comment\n#nop\nnop ## #\nli x1, 5# five\nlw x1, 4(x2)#\nnop # a: b: c\n"
        "a: # : :\njal x0, a#:\necall#,\n")
    asm("line_of_120_bytes",
        "nop #" + "x" * 115 + "\n" + " " * 117 + "nop\n" + "nop" + " " * 117 + "\r\n" + "#" * 120 + "\n\t" + "\t" * 119
        + "\nli x1, " + "0" * 112 + "7\n" + "a" * 32 + ":" + " " * 84 + "ret")
    for name, fault in (("line_of_121_bytes", "nop\nnop #" + "x" * 116 + "\n"), ("line_with_a_byte_over_7e", "nop\n# \xe9\n"),
                        ("carriage_return_alone_at_the_end", "nop\n\r"), ("carriage_return_within_a_line", "nop\r \n")):
        asm(name, fault)


def faults():
    """One text for each error; refused_texts has all others."""
    for name, text in (("fault_1", "a : nop\n"), ("fault_2", "j a\n"), ("fault_3", "addi x1, x2\n"),
                       ("fault_4", "beq x1, x2, 3\n"), ("fault_5", "jal x0, far\n"), ("fault_6", "a: nop\na: nop\n"),
                       ("fault_2_before_6", "a: nop\na: nop\nj a\n")):
        asm(name, text)


# ---- dis

def spelled(name, rng):
    """Returns a word of a row with arbitrary other bits."""
    if name in WHOLE:
        return WHOLE[name]
    mask, match = (0x707F, 0x0F) if name == "fence" else (CUTS[ROWS[name][0]][0], MATCHES[name])
    return rng.getrandbits(32) & ~mask | match


def each_row():
    rng = random.Random(7)
    rows = [*ROWS, *PLAIN, "fence"]
    assert len(rows) == 58
    for name, fields in (("every_row", [0]), ("every_row_with_all_other_bits_set", [0xFFFFFFFF]),
                         ("every_row_with_each_other_bit_set", [1 << i for i in range(7, 32)])):
        masks = {row: 0xFFFFFFFF if row in WHOLE else 0x707F if row == "fence" else CUTS[ROWS[row][0]][0] for row in rows}
        dis(name, [spelled(row, rng) & masks[row] | bits & ~masks[row] for bits in fields for row in rows])
    words = [spelled(row, rng) for _ in range(32) for row in rows] + [rng.getrandbits(32) for _ in range(1024)]
    words += [rng.getrandbits(32) & 0xFE00707F | opcode for opcode in (0x13, 0x33, 0x73, 0x0F, 0x67, 0x63, 0x03, 0x23)
              for _ in range(40)]
    dis("words_of_a_fixed_seed", words)


def fences():
    dis("sets_of_fence", [first << 24 | second << 20 | 0x0F for first in range(16) for second in range(16)])
    dis("fences_with_other_fields", [0x8330000F] + [0x0FF0000F | field for field in (
        1 << 28, 8 << 28, 15 << 28, *(1 << i for i in range(7, 12)), *(1 << i for i in range(15, 20)), 31 << 7, 31 << 15)])


def what_is_no_instruction():
    words = [
        0, 1, 2, 0xFFFFFFFF, 0xFFFFFFFE, 0x12345678, 0x0000100F, 0x0000200F, 0x0000700F, 0x02009093, 0x4000D092, 0x42105093,
        0x02105093, 0x40209093, 0xC0105093, 0x00001067, 0x00007067, 0x00002063, 0x00003063, 0x00003003, 0x00006003, 0x00007003,
        0x00003023, 0x00004023, 0x00007023, 0x40001033, 0x40002033, 0x40004033, 0x40006033, 0x40007033, 0x04000033, 0x08000033,
        0x42000033, 0x80000033, 0xFE000033, 0x00004073]
    assert all(disassembled(word).startswith(".word ") for word in words)
    dis("words_of_no_instruction", words)
    dis("neighbours_of_whole_words", [
        word ^ 1 << bit for word in WHOLE.values() if word & 0x7F == 0x73 for bit in range(32)] + [
        0x00200073, 0x10000073, 0x7B200073, 0x12000073, 0x12000073 | 31 << 15, 0x12000073 | 31 << 20, 0x12000073 | 1 << 7,
        0x120000F3, 0x16000073, 0x12001073, 0x22000073, 0x62000073])


def csr_words():
    dis("control_and_status_registers", [number << 20 | funct3 << 12 | 5 << 7 | 10 << 15 | 0x73 for funct3 in (1, 2, 3, 5, 6, 7)
                                         for number in (0, 1, 15, 16, 0x0FF, 0x100, 0x300, 0x7FF, 0x800, 0xABC, 0xFFF)]
        + [0x34000073 | funct3 << 12 | n << 15 for funct3 in (1, 5, 6, 7) for n in range(32)])


def never_shortened():
    """Instructions that other disassemblers abbreviate: pseudoinstructions, link registers, immediates of 0."""
    dis("nothing_is_shortened", assembled("\n".join((
        "addi x0, x0, 0", "jalr x0, 0(x1)", "jalr x0, 0(x5)", "jalr x1, 0(x5)", "jal x0, 0", "jal x1, 8", "lui x1, 0",
        "lui x1, 1048575", "auipc x0, 0", "auipc x1, 4096", "addi x1, x2, 0", "addi x1, x0, 5", "xori x1, x2, -1",
        "sub x1, x0, x2", "sltiu x1, x2, 1", "sltu x1, x0, x2", "beq x1, x0, 8", "bne x0, x1, 8", "csrrs x1, mstatus, x0",
        "csrrw x0, mstatus, x1", "csrrwi x0, mstatus, 1", "fence 0, 0", "fence iorw, iorw", "sfence.vma x0, x0",
        "lw x1, 0(x0)", "sw x0, 0(x1)", "slli x0, x0, 0", "srai x1, x1, 31", "mul x0, x0, x0", "ecall"))))


def images():
    words = [0xFFF00093, 0x00000073]
    dis("no_byte", [], "")
    dis("no_byte_before_dashes", [], "--\n9300f0ff\n")
    dis("bytes_over_lines", words, "93\n\n00f0\n \t\nff7300\n0000")
    dis("words_in_a_line", words, "9300f0ff73000000\n")
    dis("digits_of_either_case", words, "9300F0fF\n73000000\n")
    dis("carriage_returns_and_blanks", words, " 9300f0ff\t\r\n\t73000000 \r\n")
    dis("what_follows_dashes", words, "9300f0ff73000000\n--\nabc\n# \xff\nstep 1\n--\n93\n")
    dis("dashes_between_blanks", words, "9300f0ff73000000\n \t--\t \r\nxyz")
    dis("dashes_as_the_last_line", words, "9300f0ff73000000\n--")
    dis("line_of_120_digits", words * 7 + words[:1], ("9300f0ff73000000" * 7 + "9300f0ff")[:120])
    for name, image in (
            ("two_bytes", "9300\n"), ("one_byte", "93\n"), ("three_bytes", "9300f0\n"), ("five_bytes", "9300f0ff\n93\n"),
            ("six_bytes_before_dashes", "9300f0ff\n9300\n--\nf0ff\n"), ("three_digits", "abc\n"),
            ("digits_that_are_even_over_two_lines", "930\n0f0ff\n"), ("blank_within_a_line", "9300 f0ff\n"),
            ("prefix", "0x9300f0ff\n"), ("comment", "9300f0ff\n# x\n"), ("three_dashes", "9300f0ff\n---\n"),
            ("dashes_and_a_word", "9300f0ff\n-- x\n"), ("line_of_121_bytes", "9300f0ff\n" + " " * 113 + "9300f0ff\n"),
            ("dashes_past_120_bytes", "9300f0ff\n--" + " " * 119 + "\n"), ("byte_that_is_no_text", "9300f0ff\n\x7f\n"),
            ("assembly", "addi x1, x0, -1\n")):
        dis_refused(name, image)


# ---- handwritten texts

ESCAPE = re.compile(r"\\(0[0-7]{1,3}|x[0-9a-f]{2}|.)")
LETTERS = {"n": "\n", "t": "\t", "r": "\r", "v": "\v", "f": "\f"}


def unescaped(text):
    """Returns a text as printf's %b writes it."""
    return ESCAPE.sub(lambda found: LETTERS.get(found[1]) or chr(int(found[1].lstrip("x"), 8 if found[1][0] == "0" else 16)),
                      text)


def wrongly_refused():
    """Returns the lines of refused_texts on which the model differs, and the number of all lines."""
    with open(REFUSED) as file:
        rows = [line.rstrip("\n").split(" ", 2) for line in file if not line.startswith("# ")]
    return [text for line, fault, text in rows if assembled(unescaped(text)) != (int(line), int(fault))], len(rows)


def worked_out_by_hand():
    for text, words in (
            ("loop: addi x1, x1, -1\nbne x1, x0, loop", "9380f0ff e39e00fe"), ("nop", "13000000"), (".word -2", "feffffff"),
            ("li x5, 2048\nret", "b7120000 93820280 67800000"), ("li x5, 4294967295\nli x5, 4096", "9302f0ff b7120000")):
        assert bytes_in_memory(assembled(text)).split() == words.split(), text
    for word, text in (
            (0x0FF0000F, "fence iorw, iorw"), (0x8330000F, ".word 0x8330000f"), (0x02009093, ".word 0x02009093"),
            (0x12000073, "sfence.vma x0, x0"), (0xFFF08093, "addi x1, x1, -1"), (0xFE009EE3, "bne x1, x0, -4"),
            (0x00008067, "jalr x0, 0(x1)"), (0x000000B7, "lui x1, 0x0"), (0x0000000F, "fence 0, 0"),
            (0x0220A1B3, "mulhsu x3, x1, x2")):
        assert disassembled(word) == text, text
    asm_lines("loop", ["loop: addi x1, x1, -1", "bne x1, x0, loop"])
    asm_lines("li_and_ret", ["li x5, 2048", "ret"])
    asm_lines("li_of_one_word", ["li x5, 4294967295", "li x5, 4096"])
    dis("loop", [0xFFF08093, 0xFE009EE3])
    dis("fences_and_a_word_of_no_instruction", [0x0FF0000F, 0x8330000F, 0x02009093, 0x12000073],
        "0f00f00f0f0030839390000273000012\n")


def texts_for_llvm():
    """Returns each statement of the cases that LLVM's assembler accepts, by its canonical text."""
    words = {word for case in Case.all if case.topic == "dis" and not case.status
             for word in (int(line.split(" ")[0], 16) for line in case.wanted.splitlines())}
    words |= {int.from_bytes(bytes.fromhex(line), "little") for case in Case.all if case.topic == "asm" and not case.status
              for line in case.wanted.splitlines()}
    texts = {disassembled(word): word for word in words}
    return {text: word for text, word in texts.items() if not text.startswith("fence") or "0" not in text}


def main(arguments):
    for part in (worked_out_by_hand, every_statement, register_names, csr_names, boundaries, numbers, values_of_li, sets_of_fence,
                 labels, lines,
                 faults, each_row, fences, what_is_no_instruction, csr_words, never_shortened, images):
        part()
    wrong, count = wrongly_refused()
    if arguments == ["--check"] and wrong:
        print("\n".join("answered otherwise: " + text for text in wrong))
        return 1
    return case_files.main(arguments, Case.all, texts_for_llvm(), __doc__)


if __name__ == "__main__":
    sys.exit(main(sys.argv[1:]))
