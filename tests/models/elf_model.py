"""A reference loader for ELF32 images: the faults of a file, or its memory and entry. From the tables of docs/IMAGES.md and of the System V gABI,
chapters 4 and 5; independent of the code under test. A file is bytes.
"""
START = 0x80000000
RAM = 1048576  # the default of --ram
END = START + RAM
ONES = 0xFFFFFFFF
MAGIC = b"\x7fELF"
HEADER, PROGRAM_HEADER = 52, 32  # their bytes
LOAD = 1
ADDI = 0xFFF00093  # addi x1, x0, -1

# the fields: their offset and size
FIELDS = {"magic": (0, 4), "class": (4, 1), "data": (5, 1), "ident_version": (6, 1), "ident_rest": (7, 9), "type": (16, 2),
          "machine": (18, 2), "version": (20, 4), "entry": (24, 4), "phoff": (28, 4), "shoff": (32, 4), "flags": (36, 4),
          "ehsize": (40, 2), "phentsize": (42, 2), "phnum": (44, 2), "shentsize": (46, 2), "shnum": (48, 2), "shstrndx": (50, 2)}
WORDS = ("type", "offset", "vaddr", "paddr", "filesz", "memsz", "flags", "align")  # of a program header


def field(file, name):
    """Returns the value of a field, or None if the file does not have all of its bytes."""
    place, size = FIELDS[name]
    return int.from_bytes(file[place:place + size], "little") if place + size <= len(file) else None


def program_headers(file):
    """Returns the program headers that are completely in the file."""
    first, count = field(file, "phoff"), field(file, "phnum")
    if count is None:
        return []
    tops = range(first, min(first + count * PROGRAM_HEADER, len(file) - PROGRAM_HEADER + 1), PROGRAM_HEADER)
    return [{name: int.from_bytes(file[at + 4 * i:at + 4 * i + 4], "little") for i, name in enumerate(WORDS)} for at in tops]


def is_other(file, name, wanted):
    return field(file, name) not in (None, wanted)


def has_bad_header(file):
    count = field(file, "phnum")
    return count is not None and (count > 64 or count != 0 and (
        field(file, "phentsize") != PROGRAM_HEADER or field(file, "phoff") + count * PROGRAM_HEADER > len(file)))


def share_a_byte(one, other):
    return one["paddr"] < other["paddr"] + other["memsz"] and other["paddr"] < one["paddr"] + one["memsz"]


def faults(file, ram):
    """Returns the numbers of all faults of the file. Only bytes in the file count: a truncated file has the faults of its remaining fields, and a
    truncated table those of its first headers.
    """
    loads = [header for header in program_headers(file) if header["type"] == LOAD]
    present = [header for header in loads if header["memsz"]]
    entry = field(file, "entry")
    found = {
        1: len(file) < HEADER,
        2: file[:4] != MAGIC,
        3: any(is_other(file, name, 1) for name in ("class", "data", "ident_version")),
        4: is_other(file, "type", 2),
        5: is_other(file, "machine", 243),
        6: has_bad_header(file),
        7: any(header["filesz"] and header["offset"] + header["filesz"] > len(file) for header in loads),
        8: any(header["filesz"] > header["memsz"] for header in loads),
        9: any(not START <= header["paddr"] <= START + ram - header["memsz"] for header in present),
        10: any(share_a_byte(one, other) for i, one in enumerate(present) for other in present[:i]),
        11: entry is not None and (entry % 4 != 0 or not START <= entry <= START + ram - 4),
    }
    return {number for number, there in found.items() if there}


class Loaded:
    """A loaded image: its memory and entry, and the replies to a few commands."""

    def __init__(self, ram, entry):
        self.memory, self.entry, self.mepc, self.x1 = bytearray(ram), entry, 0, 0

    def put(self, address, data):
        self.memory[address - START:address - START + len(data)] = data

    def step(self):
        """Returns the reply to the first step, which is addi or an illegal instruction."""
        word = int.from_bytes(self.memory[self.entry - START:][:4], "little")
        reply = "ran 1 pc=%08x mode=M world=bare why=done trap=%s"
        if word == ADDI:
            self.x1 = 0xFFFFFFFF
            return reply % (self.entry + 4, "-")
        assert is_no_instruction(word), "%08x is not known here" % word
        self.mepc = self.entry
        return reply % (0, "00000002:%08x" % word)

    def mem(self, address, count):
        if not START <= address <= START + len(self.memory) - count:
            return "error outside"
        return "%08x:" % address + "".join(" %02x" % byte for byte in self.memory[address - START:][:count])

    def reply(self, command):
        words = command.split()
        if words[0] == "mem":
            return self.mem(int(words[1], 16), int(words[2]))
        return {"step 1": self.step, "csr 341": lambda: "csr 341=%08x" % self.mepc, "reg 1": lambda: "x1=%08x" % self.x1}[command]()


def is_no_instruction(word):
    """Returns whether a word is no 32-bit instruction: compressed, or with the first byte of an ELF file as opcode."""
    return word & 3 != 3 or word & 0x7F == MAGIC[0]


def is_elf(file, kind):
    return kind == "elf" or kind == "auto" and file[:4] == MAGIC


def answer(file, kind, ram):
    """Returns the lowest fault of an image, or the loaded image."""
    if not is_elf(file, kind):
        if len(file) > ram:
            return 9
        loaded = Loaded(ram, START)
        loaded.put(START, file)
        return loaded
    found = faults(file, ram)
    if found:
        return min(found)
    loaded = Loaded(ram, field(file, "entry"))
    for header in program_headers(file):
        if header["type"] == LOAD and header["memsz"]:
            loaded.put(header["paddr"], file[header["offset"]:][:header["filesz"]])
    return loaded
