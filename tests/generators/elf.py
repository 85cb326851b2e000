#!/usr/bin/env python3
"""Generates the cases of elf_header, elf_cut, elf_segments, elf_entry, elf_loaded, elf_company, elf_kind and elf_mutated, and
tests/fuzz/mutated_images. They have each fault of an ELF file, alone and with others, and the boundaries of each field. They also have a file
truncated to each length, the loaded bytes, and the fields that are ignored.

    python3 -m generators.elf                      writes them
    python3 -m generators.elf --check              checks that they are up to date
    python3 -m generators.elf --check-with-llvm    checks the instruction in them against llvm-mc
    python3 -m generators.elf --company            prints the files with two errors as constants, for two_errors.rt of rv_bench_tests

Independent of the code under test: elf_model.py computes the faults of a file and the bytes that it loads. A case for a
fault states its number, which must agree with the model.
"""
import os
import sys

from generators import case_files
from models.assembly_model import disassembled
from generators.elf_files import CODE, elf, header, place_of, program_header, segment, text, with_bytes, with_fields, with_words
from models.elf_model import ADDI, END, HEADER, MAGIC, ONES, RAM, START, answer, faults, field, is_no_instruction
from generators.elf_mutations import looks, mutated, rows

ROWS = os.path.join(os.path.dirname(os.path.dirname(os.path.abspath(__file__))), "fuzz", "mutated_images")
GOOD = elf(segment(START, CODE, 8))
SHOWN = ("step 1", "mem %x 8" % START)


class Case:
    all = []

    def __init__(self, topic, name, words, given, wanted, status=0):
        self.topic, self.name, self.words, self.given, self.wanted, self.status = topic, name, words, given, wanted, status
        Case.all.append(self)

    def files(self):
        files = {"stdin": self.given, "stdout": self.wanted}
        if self.words:
            files["args"] = "".join(word + "\n" for word in self.words)
        return {**files, "status": "%d\n" % self.status} if self.status else files


def case(topic, name, file, fault, script=SHOWN, kind=None, ram=None):
    """Adds a file whose lowest fault is this one, or that loads if it is 0."""
    options = (["--kind", kind] if kind else []) + (["--ram", str(ram)] if ram else [])
    there = answer(file, kind or "auto", ram or RAM)
    assert there == fault or not fault and not isinstance(there, int), (topic, name, there, fault)
    wanted = ["rvbench: image %d" % fault] if fault else [there.reply(command) for command in script]
    Case(topic, name, ["run"] + options if options else [], text(file) + "\n".join(["--", *script]) + "\n",
         "".join(reply + "\n" for reply in wanted), 1 if fault else 0)


def changes(topic, fault, name, values, file=GOOD, **options):
    """Adds a case for each value of a header field."""
    for value in values:
        case(topic, "e_%s_%x" % (name, value), with_fields(file, **{name: value}), fault, **options)


# ---- the header

def worked_out_by_hand():
    """The base file, and the faults after a change of some of its bytes."""
    assert GOOD.hex() == (
        "7f454c460101010000000000000000000200f3000100000000000080340000000000000000000000340020000100280000000000"
        "0100000054000000000000800000008004000000080000000500000004000000" "9300f0ff")
    for place, new, fault in ((0, 0x7E, 2), (4, 2, 3), (16, 3, 4), (18, 0x3E, 5), (42, 0x1F, 6), (44, 0x41, 6), (68, 9, 7),
                              (72, 3, 8), (67, 0x7F, 9), (24, 2, 11)):
        assert answer(with_bytes(GOOD, place, bytes([new])), "elf", RAM) == fault, place


def headers():
    for place in range(4):
        case("elf_header", "byte_%d_of_the_magic" % place, with_bytes(GOOD, place, bytes([GOOD[place] ^ 0x20])), 2, kind="elf")
    for name, values in (("class", (0, 2, 0xFF)), ("data", (0, 2, 0xFF)), ("ident_version", (0, 2))):
        for value in values:
            case("elf_header", "%s_%d" % (name, value), with_fields(GOOD, **{name: value}), 3)
    changes("elf_header", 4, "type", (0, 1, 3, 4, 0x102, 0x200, 0xFFFF))
    changes("elf_header", 5, "machine", (0, 62, 242, 244, 0x1F3, 0xF300))
    changes("elf_header", 6, "phnum", (2, 65, 0x100, 0xFFFF))
    changes("elf_header", 6, "phentsize", (0, 31, 33, 64, 0x120, 0x2000, 0xFFFF))
    # the table of GOOD would end a byte or more past the end of the file, or at a sum that wraps into the file
    changes("elf_header", 6, "phoff", (len(GOOD) - 31, len(GOOD), 0x80000000, ONES - 31, ONES - 30, ONES - 15, ONES))
    many = [segment(START, CODE, 8)] + [segment(0, b"", type=0)] * 64
    case("elf_header", "table_of_64", elf(*many[:64]), 0)
    case("elf_header", "table_of_65", elf(*many), 6)
    case("elf_header", "table_of_64_in_a_sum_that_wraps", with_fields(elf(*many[:64]), phoff=ONES - 2047), 6)
    case("elf_header", "table_of_64_a_byte_short", elf(*many[:64])[:HEADER + 2047], 6)
    at_the_end = header(phoff=HEADER + 4) + CODE + program_header(offset=HEADER, paddr=START, filesz=4)
    case("elf_header", "table_at_the_end_of_the_file", at_the_end, 0)
    case("elf_header", "table_a_byte_past_the_end_of_the_file", at_the_end[:-1], 6)
    at_an_odd_place = header(phoff=HEADER + 5) + CODE + b"\xee" + program_header(offset=HEADER, paddr=START, filesz=4)
    case("elf_header", "table_at_an_odd_place", at_an_odd_place, 0)
    # byte 6 is the ident version, and the 1 of a PT_LOAD too: its p_paddr is 800000f3, its p_filesz 4, its p_memsz 68000
    within = header(phoff=6, version=0x00048000, ident_rest=0) + CODE
    within = with_bytes(within, 10, HEADER.to_bytes(4, "little"))
    case("elf_header", "table_within_the_header", within, 0, ("mem 800000f0 12", "mem 800680f0 8", "step 1", "csr 341"))
    case("elf_header", "table_that_is_the_header", with_fields(GOOD, phoff=0), 0)
    # without a table
    for name, fields in (("e_phnum_0", {}), ("e_phnum_0_with_a_wild_table", {"phoff": ONES, "phentsize": 31})):
        case("elf_header", name, with_fields(GOOD, phnum=0, **fields), 0, SHOWN + ("csr 341",))
    case("elf_header", "e_phnum_0_in_52_bytes", with_fields(GOOD[:HEADER], phnum=0), 0, SHOWN + ("csr 341",))


# ---- truncated files, and words of all ones

def cuts():
    for size in range(len(GOOD) + 1):
        fault = 1 if size < 52 else 6 if size < 84 else 7 if size < 88 else 0
        case("elf_cut", "to_%d_bytes" % size, GOOD[:size], fault, kind="elf")
        case("elf_cut", "to_%d_bytes_as_auto" % size, GOOD[:size], 0 if size < 4 else fault, kind="auto")
    for place, new, fault in ((28, "ffffffff", 6), (56, "ffffffff", 7), (64, "f0ffffff", 9), (72, "ffffffff", 9)):
        case("elf_cut", "bytes_%d_to_%d_set" % (place, place + 3), with_bytes(GOOD, place, bytes.fromhex(new)), fault, kind="elf")


# ---- segments

def segments():
    def refused(name, fault, file, **options):
        case("elf_segments", name, file, fault, **options)

    def loads(name, file, *script, **options):
        case("elf_segments", name, file, 0, script or SHOWN, **options)

    size = len(GOOD)
    # 7: the file part and the end of the file; sums that wrap into the file; also with p_memsz 0
    for name, words in (
            ("file_part_a_byte_past_the_file", {"filesz": 5}), ("file_part_behind_the_file", {"offset": size, "filesz": 1}),
            ("offset_of_all_ones", {"offset": ONES, "filesz": 1}), ("file_part_that_wraps", {"offset": ONES - 3, "filesz": 8}),
            ("filesz_of_all_ones", {"offset": 4, "filesz": ONES, "memsz": ONES}),
            ("offset_and_filesz_of_half_the_space", {"offset": 1 << 31, "filesz": 1 << 31, "memsz": 1 << 31}),
            ("file_part_past_the_file_without_memory", {"filesz": 5, "memsz": 0})):
        refused(name, 7, with_words(GOOD, **words))
    loads("file_part_to_the_end_of_the_file", with_words(GOOD, offset=size - 3, filesz=3), "mem 80000000 8")
    for offset in (size, size + 1, ONES):
        loads("no_file_part_at_%x" % offset, with_words(GOOD, offset=offset, filesz=0))
    # 8: p_filesz and p_memsz
    loads("sizes_that_are_equal", with_words(GOOD, memsz=4))
    refused("filesz_one_over", 8, with_words(GOOD, memsz=3))
    refused("filesz_of_4_without_memory", 8, with_words(GOOD, memsz=0))
    refused("filesz_of_4_without_memory_outside", 8, with_words(GOOD, memsz=0, paddr=0))
    refused("filesz_one_over_in_the_last_of_64", 8, elf(*[segment(START, CODE, 0 if i else 4, filesz=0) for i in range(63)],
                                                        segment(START + 4, CODE, 3)))
    # 9: first and last byte of RAM, and sums that wrap
    for paddr, memsz in ((START - 1, 1), (START - 1, 8), (START - 1, RAM + 2), (START, RAM + 1), (END - 1, 2), (END - 7, 8),
                         (END, 1), (START, 1 << 31), (START, ONES), (START + 1, ONES), (START + 4, ONES - 1), (0, 4), (0, ONES),
                         (ONES, 1), (ONES, 2), (ONES - 15, 0x20), (ONES, START + 5)):
        refused("memory_of_%x_at_%x" % (memsz, paddr), 9, with_words(GOOD, paddr=paddr, vaddr=START, filesz=1, memsz=memsz))
    refused("memory_without_a_file_part_outside", 9, with_words(GOOD, paddr=END, filesz=0, memsz=1))
    refused("last_of_64_outside", 9, elf(*[segment(START + 4 * i, CODE) for i in range(63)], segment(END - 3, CODE)))
    loads("first_and_last_byte", elf(segment(START, b"\x11"), segment(END - 1, b"\x22")),
          "mem 80000000 4", "mem 800ffffc 4", "mem 80100000 1")
    loads("all_of_the_ram", elf(segment(START, CODE, RAM), tail=b"\xee" * 4), "mem 80000000 12", "mem 800fffe0 32", "step 1")
    for ram in (65536, 16777216):
        loads("last_byte_of_a_ram_of_%d" % ram, elf(segment(START + ram - 1, b"\x22"), entry=START + ram - 4),
              "mem %x 4" % (START + ram - 4), "step 1", "csr 341", ram=ram)
        refused("byte_behind_a_ram_of_%d" % ram, 9, elf(segment(START + ram, b"\x22")), ram=ram)
    refused("last_byte_of_a_larger_ram", 9, elf(segment(START + 16777215, b"\x22")))
    # no memory: any address
    for paddr in (0, START - 1, END, ONES):
        loads("no_memory_at_%x" % paddr, elf(segment(paddr, b"", 0), segment(START, CODE, 8)))


def overlaps():
    low, middle, high = START + 0x100, START + 0x110, START + 0x118
    for name, one, other in (
            ("last_and_first_byte", (low, 0x11), (middle, 8)), ("one_byte_of_two", (low, 1), (low, 1)),
            ("equal", (low, 8), (low, 8)), ("same_start", (low, 4), (low, 8)), ("same_end", (low, 8), (low + 4, 4)),
            ("within", (low, 0x20), (middle, 1)), ("all_but_a_byte", (low, 8), (low + 1, 8)),
            ("all_of_the_ram_and_its_last_byte", (START, RAM), (END - 1, 1))):
        for order, pair in (("", (one, other)), ("_in_the_other_order", (other, one))):
            if one != other or not order:
                parts = [segment(paddr, b"\x11" * min(4, memsz), memsz) for paddr, memsz in pair]
                case("elf_segments", "share_" + name + order, elf(*parts), 10)
    # among many, with others between them, and only without a file part
    apart = [segment(START + 8 * i, CODE) for i in range(64)]
    for first, second in ((0, 63), (31, 32), (62, 63)):
        parts = list(apart)
        parts[second] = segment(START + 8 * first + 3, CODE)
        case("elf_segments", "share_a_byte_%d_and_%d_of_64" % (first, second), elf(*parts), 10)
    case("elf_segments", "share_zeros_alone", elf(segment(low, CODE, 16), segment(low + 15, b"", 1)), 10)
    case("elf_segments", "share_a_byte_around_an_empty_one",
         elf(segment(low, CODE, 17), segment(low + 16, b"", 0), segment(middle, CODE)), 10)
    # adjacent in either order, an empty one between and inside, and headers of other types over all
    for name, parts in (("rising", (low, middle, high)), ("falling", (high, middle, low))):
        case("elf_segments", "side_by_side_" + name, elf(
            *[segment(paddr, bytes([paddr & 0xFC] * 4), {low: 16, middle: 8, high: 4}[paddr]) for paddr in parts],
            segment(middle, b"", 0), segment(low + 4, b"", 0), segment(low, CODE, 0x20, type=4), segment(low, CODE, 4, type=6),
            tail=b"\xee" * 16), 0, ("mem 800000fc 40",))
    case("elf_segments", "side_by_side_all_of_the_ram", elf(segment(START + 4, b"\x22", RAM - 4), segment(START, CODE)), 0)


# ---- the entry

def entries():
    changes("elf_entry", 11, "entry", (START + 1, START + 2, START + 3, START - 4, START - 1, END - 3, END - 2, END - 1, END,
                                       0, 2, ONES - 3, ONES))
    for ram in (65536, 16777216):
        changes("elf_entry", 11, "entry", (START + ram,), ram=ram)
    last = elf(segment(START, CODE, 8), segment(END - 4, CODE), entry=END - 4)
    case("elf_entry", "last_four_bytes", last, 0, ("step 1", "reg 1"))
    case("elf_entry", "last_four_bytes_of_65536", elf(segment(START + 65532, CODE), entry=START + 65532), 0, ram=65536)
    # in no segment, in the zeros of one, in a segment after the first
    script = ("step 1", "csr 341", "reg 1")
    case("elf_entry", "in_no_segment", with_fields(GOOD, entry=START + 0x1000), 0, script)
    case("elf_entry", "in_the_zeros_of_a_segment", with_fields(GOOD, entry=START + 4), 0, script)
    two = elf(segment(START, bytes(8)), segment(START + 0x40, bytes(4) + CODE), entry=START + 0x44)
    case("elf_entry", "in_a_second_segment", two, 0, script)


# ---- what is loaded

def loaded():
    """Segments in descending order, at odd addresses, with trailing zeros, with shared bytes of the file, and the bytes between them."""
    parts = [segment(START + 0x90, bytes(range(0x40, 0x48)), 0x10), segment(START + 0x61, b"\x51\x52\x53", 7),
             segment(START + 0x40, b"", 0x20), segment(START + 0x24, b"\x61\x62\x63\x64\x65"), segment(START, CODE, 0x20),
             segment(START + 0xC0, b"", offset=0, filesz=HEADER, memsz=HEADER + 4),
             segment(START + 0x29, b"", offset=HEADER, filesz=4)]
    case("elf_loaded", "several_segments", elf(*parts, tail=b"\xee" * 64), 0,
         ["mem %x 64" % (START + 64 * i) for i in range(5)] + ["mem 800fffc0 64", "step 1", "reg 1"])
    for name, numbers in (("rising", range(64)), ("falling", range(63, -1, -1)), ("in_no_order", [i * 37 % 64 for i in range(64)])):
        many = [segment(START + 12 * i, CODE if i == 0 else bytes([4 * i, i, 0xFF - i]), 8) for i in numbers]
        case("elf_loaded", "sixty_four_segments_" + name, elf(*many, tail=b"\xee" * 8), 0,
             ["mem %x 64" % (START + 64 * i) for i in range(13)] + ["step 1"])
    # the zeros of one end at the start of another, in either order of the headers; bytes of the file follow both
    pair = [segment(START + 8, b"\x21\x22", 8), segment(START + 16, b"\x31\x32\x33", 4), segment(START, CODE, 8)]
    for name, parts in (("behind", pair), ("before", pair[::-1])):
        case("elf_loaded", "zeros_up_to_a_neighbour_" + name, elf(*parts, tail=b"\xee" * 8), 0, ("mem 80000000 32", "step 1"))
    case("elf_loaded", "zeros_alone", elf(segment(START + 4, b"", 64, offset=HEADER), segment(START, CODE), tail=b"\xee" * 64), 0,
         ("mem 80000000 64", "mem 80000040 16", "step 1"))
    case("elf_loaded", "the_same_bytes_at_two_places", elf(
        segment(START, CODE), segment(START + 0x10, b"", offset=HEADER + 64, filesz=4)), 0, ("mem 80000000 32", "step 1"))
    case("elf_loaded", "file_part_at_the_first_byte", elf(segment(START, b"", offset=0, filesz=84), entry=START + 84), 0,
         ("mem 80000000 64", "mem 80000040 32", "step 1", "csr 341"))


def not_looked_at():
    """Ignored fields with arbitrary values, one by one and all together; headers of all other types."""
    wild = {"ident_rest": (1 << 72) - 1, "version": ONES, "shoff": ONES, "flags": ONES, "ehsize": 0, "shentsize": 0xFFFF,
            "shnum": 0xFFFF, "shstrndx": 0xFFFF}
    for name, value in wild.items():
        case("elf_loaded", "wild_" + name, with_fields(GOOD, **{name: value}), 0)
    for name, value in (("vaddr", 0), ("vaddr", START + 4), ("vaddr", 0xC0000001), ("flags", 0), ("flags", ONES), ("align", 0),
                        ("align", 3), ("align", ONES)):
        case("elf_loaded", "p_%s_%x" % (name, value), with_words(GOOD, **{name: value}), 0)
    case("elf_loaded", "zero_version", with_fields(GOOD, version=0), 0)
    types = (0, 2, 3, 4, 5, 6, 7, 0x6474E550, 0x6474E551, 0x6474E552, 0x70000003, ONES, 0x101, 0x10001, 0x01000000, 0x01000001)
    words = ({"offset": ONES, "paddr": 0, "filesz": ONES, "memsz": 1}, {"offset": 0, "paddr": START, "filesz": 4, "memsz": RAM},
             {"offset": 0, "paddr": START, "filesz": 8, "memsz": 4}, {"offset": 0, "paddr": ONES, "filesz": 0, "memsz": ONES})
    others = [({"type": kind, "vaddr": ONES, "flags": ONES, "align": 3, **words[i % 4]}, b"") for i, kind in enumerate(types)]
    file = elf(*others, segment(START + 8, b"\x21\x22", 4, vaddr=0, flags=0, align=3), segment(START, CODE, vaddr=0, flags=0))
    case("elf_loaded", "headers_of_other_types", file, 0, ("mem 80000000 32", "step 1"))
    case("elf_loaded", "all_wild", with_fields(file, **wild), 0, ("mem 80000000 32", "step 1"))


# ---- several faults

THREE = elf(*[segment(START + 0x10 * i, CODE, 8) for i in range(3)])
# changes that give the file THREE a fault: new bytes by offset. 7 to 9 are in the first program header or, for the lower fault, in the last
ALONE = {2: (0, b"\x7e"), 3: (4, b"\x02"), 4: (16, b"\x03"), 5: (18, b"\x3e"), 6: (44, b"\x04"),
         10: (place_of(1, "paddr"), b"\x02"), 11: (24, b"\x02")}
IN_HEADER = {7: ("offset", b"\xff\xff\xff\xff"), 8: ("memsz", b"\x03"), 9: ("paddr", b"\xf0\xff\xff\x7f")}


def change(fault, number):
    if fault in IN_HEADER:
        word, new = IN_HEADER[fault]
        return place_of(number, word), new
    return ALONE[fault]


def company():
    """Yields pairs of faults, the length of a file that has both, and the changes of THREE that cause them.

    Any two of 2 to 11 can occur together without a third one. A file under 52 bytes has fault 1 and those faults whose fields it contains.
    Faults 7 to 9 require a program header, which such a file can have only inside its header. Fault 10 requires two, which it cannot have.
    """
    none = [(44, b"\x00")]  # no table
    within = [(28, b"\x06"), (44, b"\x01")]  # a table of one header at offset 6, as in table_within_the_header
    pairs = [(1, other, 51, none + [ALONE[other]]) for other in (2, 3, 4, 5)]
    pairs += [(1, 6, 51, []),
              (1, 7, 51, within + [(10, b"\xff\xff\xff\xff"), (20, b"\x00\x80\x01")]),  # the file's byte ffffffff
              (1, 8, 51, within + [(20, b"\x00\x80"), (24, b"\x08")]),  # 80000 bytes instead of 68000, which causes 7 too
              (1, 9, 51, within + [(20, b"\x00\x00")]),  # memory at 000000f3
              (1, 11, 51, none + [ALONE[11]])]
    return pairs + [(one, other, len(THREE), [change(one, 2), change(other, 0)])
                    for one in range(2, 12) for other in range(one + 1, 12)]


def changed(length, edits):
    file = THREE
    for place, new in edits:
        file = with_bytes(file, place, new)
    return file[:length]


def in_company():
    for one, other, length, edits in company():
        file = changed(length, edits)
        found = faults(file, RAM)
        assert found == {one, other} or (one, other) == (1, 8) and found == {1, 7, 8}, (one, other, found)
        case("elf_company", "%d_and_%d" % (one, other), file, one, kind="elf")
        if one > 2:
            assert answer(file, "auto", RAM) == one
    # all faults except the first, then one fewer each time; in one header those that can occur together there
    for least in range(2, 12):
        edits = [change(fault, 2 if fault in (7, 9) else 0) for fault in range(least, 12)]
        file = changed(len(THREE), edits)
        assert faults(file, RAM) == set(range(least, 12)), faults(file, RAM)
        case("elf_company", "all_from_%d" % least, file, least, kind="elf")
    for found, words in (({7, 8}, {"filesz": 9}), ({7, 9}, {"offset": ONES, "paddr": 0}), ({8, 9}, {"memsz": 3, "paddr": 0}),
                         ({7, 8, 9}, {"filesz": ONES, "paddr": ONES})):
        file = with_words(THREE, 1, **words)
        file = file if 7 not in found or "offset" in words else with_words(file, 1, offset=len(file) - 4)
        assert faults(file, RAM) == found, found
        case("elf_company", "_".join(map(str, sorted(found))) + "_in_one_header", file, min(found))


# The error of each number, and the names of the offsets that company() changes, in the tests of the loader
ERRORS = ("", "Truncated", "NotElf", "WrongClass", "WrongType", "WrongMachine", "BadHeader", "SegmentTruncated", "SegmentSizes",
          "SegmentOutside", "SegmentOverlap", "BadEntry")
OFFSETS = {0: "MAGIC", 4: "EI_CLASS", 10: "INNER_OFFSET", 16: "E_TYPE", 18: "E_MACHINE", 20: "E_VERSION", 24: "E_ENTRY", 28: "E_PHOFF",
           44: "E_PHNUM", **{place_of(number, word): "SEGMENT_%d_%s" % (number, name) for number in range(3)
                             for word, name in (("offset", "OFFSET"), ("paddr", "ADDRESS"), ("memsz", "MEMORY_SIZE"))}}


def printed_company():
    """Returns the table of company() as constants."""
    names, rows = set(), []
    for one, other, length, edits in company():
        names.update(OFFSETS[place] for place, _ in edits)
        patches = ", ".join("(%s, &[%s])" % (OFFSETS[place], ", ".join("0x%02x" % byte for byte in new)) for place, new in sorted(edits))
        size = "WHOLE" if length == len(THREE) else "CUT"
        rows.append("    (ElfFault::%s, ElfFault::%s, %s, &[%s])," % (ERRORS[one], ERRORS[other], size, patches))
    lines = ["//! ELF files with two errors each. Generated by `python3 -m generators.elf --company` in the folder tests.", "",
             "use super::fields::{%s};" % ", ".join(sorted(names)), "use super::files::Patch;", "use rv_elf::ElfFault;", "",
             "/// A valid ELF file of three segments. The tests change some of its bytes to make files with errors.",
             "pub(crate) const FILE: [u8; WHOLE] = ["]
    lines += ["    " + " ".join("0x%02x," % byte for byte in THREE[at:at + 16]) for at in range(0, len(THREE), 16)] + ["];", ""]
    lines += ["/// The size of `FILE` in bytes.", "const WHOLE: usize = %d;" % len(THREE), "",
              "/// The size in bytes of a file that ends one byte before the end of the ELF header.", "const CUT: usize = %d;" % (HEADER - 1), "",
              "/// For each file, the error with the smaller number, which is reported, the other error, the size in bytes, and the fields in which",
              "/// the file differs from `FILE`. A short file with an error of a segment has its program header at byte 6, in the ELF header.",
              "pub(crate) const TWO_ERRORS: [(ElfFault, ElfFault, usize, &[Patch]); %d] = [" % len(rows)]
    return "\n".join(lines + rows + ["];"])


# ---- kinds

def kinds():
    raw = CODE + b"\x22\x33\x44\x54"
    script = ("step 1", "mem 80000000 8", "csr 341")
    for kind in ("auto", "raw", "elf"):
        case("elf_kind", "elf_file_as_" + kind, GOOD, 0, script, kind=kind)
        case("elf_kind", "raw_image_as_" + kind, raw, 1 if kind == "elf" else 0, script, kind=kind)
        for size in range(4):
            case("elf_kind", "%d_bytes_as_%s" % (size, kind), MAGIC[:size], 1 if kind == "elf" else 0, script, kind=kind)
        for size in (4, 51):
            case("elf_kind", "%d_bytes_as_%s" % (size, kind), GOOD[:size], 0 if kind == "raw" else 1, script, kind=kind)
    for size in (4, 5, 20, 46, 51):
        case("elf_kind", "%d_bytes_without_a_kind" % size, GOOD[:size], 1, script)
    for place in range(4):
        case("elf_kind", "byte_%d_of_the_magic_as_auto" % place, with_bytes(GOOD, place, bytes([GOOD[place] ^ 0x80])), 0,
             ("mem 80000000 64",), kind="auto")
    case("elf_kind", "magic_behind_a_byte", b"\x00" + GOOD, 0, ("mem 80000000 16", "step 1"))
    long = GOOD + bytes(200) + b"\xee" * 4
    case("elf_kind", "long_elf_file_as_raw", long, 0, ("mem %x 16" % (START + len(long) - 8), "step 1"), kind="raw", ram=65536)
    given = text(GOOD) + "--\n" + "mem 8000fffc 4\nmem 80010000 1\nstep 1\n"
    wanted = "8000fffc: 00 00 00 00\nerror outside\nran 1 pc=80000004 mode=M world=bare why=done trap=-\n"
    for name, words in (("kind_and_ram", "--kind elf --ram 65536"), ("ram_and_kind", "--ram 65536 --kind elf"),
                        ("kind_and_ram_in_one_word_each", "--kind=elf --ram=65536")):
        Case("elf_kind", name, ["run", *words.split()], given, wanted)
    # the order of the faults of the input
    bad = with_fields(GOOD, type=3)
    for name, words, given, line in (
            ("ram_before_image", "--ram 1000", text(bad) + "--\nstep 1\n", "ram 1"),
            ("ram_before_image_of_a_kind", "--kind elf --ram 65537", "9300f0ff\n--\nstep 1\n", "ram 1"),
            ("hex_before_ram", "--ram 1000 --kind elf", text(bad) + "abc\n--\nstep 1\n", "hex"),
            ("hex_before_image", "--kind elf", "9300f0ff\nx\n--\nstep 1\n", "hex")):
        Case("elf_kind", name, ["run", *words.split()], given, "rvbench: %s\n" % line, 1)
    words = [int.from_bytes(GOOD[at:at + 4], "little") for at in range(0, len(GOOD), 4)]
    Case("elf_kind", "disassembly_of_an_elf_file", ["dis"], text(GOOD),
         "".join("%08x %s\n" % (word, disassembled(word)) for word in words))


# ---- a file whose fields are changed at random

def mutated_that_load(found):
    number = 0
    for _, _, file, there in found:
        if isinstance(there, int):
            continue
        entry = field(file, "entry")
        word = int.from_bytes(there.memory[entry - START:][:4], "little")
        if number < 24 and (word == ADDI or is_no_instruction(word)):
            number += 1
            case("elf_mutated", "file_%d" % number, file, 0, [*looks(file), "step 1", "csr 341"])


def main(arguments):
    if arguments == ["--company"]:
        print(printed_company())
        return 0
    found = mutated()
    for part in (worked_out_by_hand, headers, cuts, segments, overlaps, entries, loaded, not_looked_at, in_company, kinds):
        part()
    mutated_that_load(found)
    if arguments == ["--check"]:
        with open(ROWS) as file:
            if file.read() != rows(found):
                print("differs: mutated_images")
                return 1
    if not arguments:
        with open(ROWS, "w") as file:
            file.write(rows(found))
    return case_files.main(arguments, Case.all, {"addi x1, x0, -1": ADDI}, __doc__)


if __name__ == "__main__":
    sys.exit(main(sys.argv[1:]))
