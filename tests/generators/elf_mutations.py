"""Mutates the fields of an ELF file with five program headers, with a fixed seed: the rows of mutated_images, and files for cases of elf.py."""
import random

from generators.elf_files import CODE, elf, place_of, segment, text, with_bytes
from models.elf_model import END, FIELDS, HEADER, LOAD, ONES, RAM, START, answer, program_headers

PARTS = [segment(START, CODE + bytes.fromhex("10203040"), 0x10), segment(START + 0x10, bytes.fromhex("5060708090a0"), 0x1C),
         segment(START + 8, b"", 0x40, type=4), segment(START + 0x40, bytes.fromhex("b0c0d0e0")), segment(START + 0x14, b"", 0)]
MUTATED = elf(*PARTS, tail=bytes.fromhex("eeeeeeee"))
VALUES = {
    "magic": (0x464C457E, 0x7F454C46), "class": (0, 2), "data": (2,), "ident_version": (0,), "type": (1, 3, 0x200),
    "machine": (0, 62, 0xF300), "entry": (START + 2, START + 4, START + 0x10, START + 0x3C, END - 4, END, START - 4, 0, ONES - 3),
    "phoff": (0, HEADER - 32, HEADER + 32, HEADER + 64, len(MUTATED) - 160, len(MUTATED) - 159, ONES, ONES - 159, 1 << 31),
    "phentsize": (0, 31, 33, 40), "phnum": (0, 1, 2, 3, 4, 6, 64, 65, 0x500)}
WORD_VALUES = {
    "type": (0, 1, 1, 2, 4, 6, 0x6474E551), "vaddr": (0, START, ONES), "flags": (0, 7), "align": (0, 3),
    "offset": (0, 1, 0x34, len(MUTATED) - 8, len(MUTATED) - 6, len(MUTATED) - 5, len(MUTATED), ONES, ONES - 3, 1 << 31),
    "paddr": (START - 1, START, START + 1, START + 0xF, START + 0x10, START + 0x2B, START + 0x2C, START + 0x30, START + 0x3F,
              START + 0x44, START + 0x100, END - 0x1C, END - 0x1B, END - 4, END - 1, END, 0, ONES, ONES - 7),
    "filesz": (0, 0, 1, 4, 5, 6, 8, 0x10, 0x11, 0x1C, 0x1D, len(MUTATED), len(MUTATED) + 1, ONES, 1 << 31),
    "memsz": (0, 1, 3, 4, 5, 7, 8, 0x10, 0x11, 0x30, 0x31, RAM - 0x40, RAM, RAM + 1, 1 << 31, ONES)}


def mutation(chosen):
    """Returns a change of MUTATED: an offset, and new bytes."""
    if chosen.random() < 0.3:
        name = chosen.choice(sorted(VALUES))
        place, size = FIELDS[name]
        return place, chosen.choice(VALUES[name]).to_bytes(size, "little")
    word = chosen.choice(sorted(WORD_VALUES))
    return place_of(chosen.randrange(len(PARTS)), word), chosen.choice(WORD_VALUES[word]).to_bytes(4, "little")


def mutated():
    """Yields pairs of a length and changes of MUTATED without duplicates, each with its lowest fault or its loaded bytes; with a fixed seed."""
    chosen, seen, counts, found = random.Random(32), {MUTATED}, {}, []
    while len(found) < 360:
        edits = [mutation(chosen) for _ in range(chosen.choice((1, 2, 2, 3, 4)))]
        length = chosen.randrange(len(MUTATED)) if chosen.random() < 0.05 else len(MUTATED)
        file = MUTATED
        for place, new in edits:
            file = with_bytes(file, place, new)
        file = file[:length]
        there = answer(file, "elf", RAM)
        number = there if isinstance(there, int) else 0
        if file in seen or counts.get(number, 0) >= (60 if number == 0 else 30):
            continue
        seen.add(file)
        counts[number] = counts.get(number, 0) + 1
        found.append((length, edits, file, there))
    return found


def looks(file):
    """Returns commands that show each segment with the bytes before and after it."""
    for words in program_headers(file):
        if words["type"] == LOAD and words["memsz"]:
            low, high = max(words["paddr"] - 8, START), min(words["paddr"] + words["memsz"] + 8, END)
            if high - low <= 64:
                yield "mem %x %d" % (low, high - low)
            else:
                yield from ("mem %x 64" % low, "mem %x 64" % (high - 64))


ROWS_HEAD = """\
# Mutations of an ELF file, one mutated file per row. Rows that start with = are the original file in hexadecimal. Each other row is
# the number of the expected error (0: the file loads), then the changes: OFFSET=BYTES replaces bytes, in hexadecimal, and
# cut=LENGTH truncates the file to that many bytes. Written by tests/generators/elf.py.
"""


def rows(found):
    lines = ["= " + line for line in text(MUTATED).split()]
    for length, edits, _, there in found:
        row = ["%d" % (there if isinstance(there, int) else 0)] + ["%d=%s" % (place, new.hex()) for place, new in edits]
        lines.append(" ".join(row + (["cut=%d" % length] if length < len(MUTATED) else [])))
    return ROWS_HEAD + "".join(line + "\n" for line in lines)
