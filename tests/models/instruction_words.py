"""Encodes the instructions that corner_values.py, csr_table.py, traps.py, pmp.py and debugger.py use. The tables of opcode, funct3 and funct7
are those of the RISC-V Unprivileged ISA 20191213 (sections 2.2, 2.3 and chapter 24) and of the Privileged Architecture 20211203.
Independent of the code under test. The function differing_from_llvm compares them with LLVM's assembler.
"""
import re
import subprocess


def cut(n, high, low):
    return n >> low & (1 << high - low + 1) - 1


def i_places(d, a, n):
    return d << 7 | a << 15 | cut(n, 11, 0) << 20


# the opcode, the form of the operands, their fields in the word, and name:funct3:funct7 in hexadecimal
FORMATS = {
    "lui": (0x37, "x%d, %d", lambda d, n: d << 7 | n << 12, "lui"),
    "auipc": (0x17, "x%d, %d", lambda d, n: d << 7 | n << 12, "auipc"),
    "jal": (0x6F, "x%d, %d", lambda d, n: (d << 7 | cut(n, 20, 20) << 31 | cut(n, 10, 1) << 21 | cut(n, 11, 11) << 20
                                           | cut(n, 19, 12) << 12), "jal"),
    "jalr": (0x67, "x%d, %d(x%d)", lambda d, n, a: i_places(d, a, n), "jalr:0"),
    "branch": (0x63, "x%d, x%d, %d", lambda a, b, n: (a << 15 | b << 20 | cut(n, 12, 12) << 31 | cut(n, 10, 5) << 25
                                                      | cut(n, 4, 1) << 8 | cut(n, 11, 11) << 7),
               "beq:0 bne:1 blt:4 bge:5 bltu:6 bgeu:7"),
    "load": (0x03, "x%d, %d(x%d)", lambda d, n, a: i_places(d, a, n), "lb:0 lh:1 lw:2 lbu:4 lhu:5"),
    "store": (0x23, "x%d, %d(x%d)", lambda b, n, a: a << 15 | b << 20 | cut(n, 11, 5) << 25 | cut(n, 4, 0) << 7,
              "sb:0 sh:1 sw:2"),
    "immediate": (0x13, "x%d, x%d, %d", i_places, "addi:0 slti:2 sltiu:3 xori:4 ori:6 andi:7"),
    "shift": (0x13, "x%d, x%d, %d", i_places, "slli:1:0 srli:5:0 srai:5:20"),
    "register": (0x33, "x%d, x%d, x%d", lambda d, a, b: d << 7 | a << 15 | b << 20,
                 "add:0:0 sub:0:20 sll:1:0 slt:2:0 sltu:3:0 xor:4:0 srl:5:0 sra:5:20 or:6:0 and:7:0 "
                 "mul:0:1 mulh:1:1 mulhsu:2:1 mulhu:3:1 div:4:1 divu:5:1 rem:6:1 remu:7:1"),
    "csr": (0x73, "x%d, 0x%x, x%d", lambda d, c, a: d << 7 | a << 15 | c << 20, "csrrw:1 csrrs:2 csrrc:3"),
    "csr_number": (0x73, "x%d, 0x%x, %d", lambda d, c, n: d << 7 | n << 15 | c << 20, "csrrwi:5 csrrsi:6 csrrci:7"),
    "vma": (0x73, "x%d, x%d", lambda a, b: a << 15 | b << 20, "sfence.vma:0:9")}
ROWS = {name.split(":")[0]: (kind, *(int(f, 16) for f in (name + ":0:0").split(":")[1:3]))
        for kind, row in FORMATS.items() for name in row[3].split()}
WHOLE = {"ecall": 0x00000073, "ebreak": 0x00100073, "sret": 0x10200073, "mret": 0x30200073, "wfi": 0x10500073,
         "fence iorw, iorw": 0x0FF0000F, "fence r, w": 0x0210000F, "fence.tso": 0x8330000F,
         ".word 0x1233028f": 0x1233028F}  # the last one is a fence with mode 1, rd x5 and rs1 x6


def named(kind):
    """Returns the instructions of a format, in the order of the manual."""
    return [name for name, row in ROWS.items() if row[0] == kind]


def assemble(name, *operands):
    """Returns the assembly text and the word of an instruction; operands are in the order of the text, registers are numbers."""
    if name in WHOLE:
        return name, WHOLE[name]
    if name == ".word":
        return ".word 0x%08x" % operands, operands[0]
    kind, funct3, funct7 = ROWS[name]
    opcode, form, places, _ = FORMATS[kind]
    return name + " " + form % operands, places(*operands) | funct7 << 25 | funct3 << 12 | opcode


def differing_from_llvm(words):
    """Compares the words of texts with llvm-mc; returns the texts that differ, and the number of compared ones. .word is skipped."""
    texts = [text for text in words if not text.startswith(".word")]
    answer = subprocess.run(["llvm-mc", "-triple=riscv32", "-mattr=+m", "--show-encoding"], input="\n".join(texts) + "\n",
                            capture_output=True, text=True, check=True).stdout
    found = re.findall(r"# encoding: \[0x(..),0x(..),0x(..),0x(..)\]", answer)
    if len(found) != len(texts):
        return ["llvm-mc answered %d of %d" % (len(found), len(texts))], len(texts)
    return [text for text, e in zip(texts, found) if words[text].to_bytes(4, "little").hex() != "".join(e)], len(texts)
