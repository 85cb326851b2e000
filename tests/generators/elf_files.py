"""Builds ELF files from program headers and fields, and changes bytes of them, for the cases of elf.py."""
from models.elf_model import FIELDS, HEADER, LOAD, MAGIC, PROGRAM_HEADER, START, WORDS

CODE = bytes.fromhex("9300f0ff")  # addi x1, x0, -1
USUAL = {"magic": int.from_bytes(MAGIC, "little"), "class": 1, "data": 1, "ident_version": 1, "ident_rest": 0, "type": 2,
         "machine": 243, "version": 1, "entry": START, "phoff": HEADER, "shoff": 0, "flags": 0, "ehsize": HEADER,
         "phentsize": PROGRAM_HEADER, "phnum": 1, "shentsize": 40, "shnum": 0, "shstrndx": 0}


def header(**fields):
    values = {**USUAL, **fields}
    return b"".join(values[name].to_bytes(size, "little") for name, (place, size) in FIELDS.items())


def program_header(**words):
    values = {"type": LOAD, "offset": 0, "vaddr": words.get("paddr", 0), "paddr": 0, "filesz": 0, "memsz": words.get("filesz", 0),
              "flags": 5, "align": 4, **words}
    return b"".join(values[name].to_bytes(4, "little") for name in WORDS)


def segment(paddr, data=CODE, memsz=None, **words):
    """A program header: its words, and its bytes in the file, whose offset is set when the file is built."""
    filesz = words.get("filesz", len(data))
    return {"paddr": paddr, "filesz": filesz, "memsz": filesz if memsz is None else memsz, **words}, data


def elf(*segments, tail=b"", **fields):
    """Returns a file: header, table, the bytes of each segment, and trailing bytes."""
    table, data = b"", b""
    for words, its_bytes in segments:
        table += program_header(**{"offset": HEADER + len(segments) * PROGRAM_HEADER + len(data), **words})
        data += its_bytes
    return header(**{"phnum": len(segments), **fields}) + table + data + tail


def with_bytes(file, place, new):
    return file[:place] + new + file[place + len(new):]


def with_fields(file, **fields):
    for name, value in fields.items():
        place, size = FIELDS[name]
        file = with_bytes(file, place, value.to_bytes(size, "little"))
    return file


def place_of(number, word):
    """Returns the offset of a word of a program header, in a file whose table follows its header."""
    return HEADER + number * PROGRAM_HEADER + 4 * WORDS.index(word)


def with_words(file, number=0, **words):
    """Returns the file with these words in a program header."""
    for word, value in words.items():
        file = with_bytes(file, place_of(number, word), value.to_bytes(4, "little"))
    return file


def text(file):
    """Returns the lines of the image: the header, then 32 bytes per line, the size of a program header."""
    cuts = [0, *range(HEADER, len(file), PROGRAM_HEADER), len(file)] if len(file) > HEADER else [0, len(file)]
    return "".join(file[low:high].hex() + "\n" for low, high in zip(cuts, cuts[1:]) if low < high)
