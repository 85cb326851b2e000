"""Links the objects to an ELF file, explains why that failed, reports the stacks of the programs, and writes what a build gives."""
from __future__ import annotations

import os
import re
from pathlib import Path
from typing import Iterator, NamedTuple, Sequence, Tuple

from rvlook.build.objects import NamedSymbol, Workshop, symbols_in
from rvlook.build.toolchain import BuildError, output_of, printable, run
from rvlook.errors import print_plain
from rvlook.escapes import visible
from rvlook.image.detect import lacking_texts, sections_of
from rvlook.image.files import digits_of
from rvlook.output.files import replace_file
from rvlook.protocol.inputs import Image

TOO_SMALL = re.compile(r"region [`']([A-Z]*)'.*overflowed by ([0-9]+) bytes")
UNDEFINED = (re.compile(r"undefined reference to [`']([^']*)'"), re.compile(r"undefined symbol: (.*)"))
LINKED = ("-nostdlib", "-Wl,-n,-X")  # no standard libraries, no alignment to pages, no local labels
STACKS = {"host": "HOST", "application": "REGION", "runtime": "REGION"}  # the programs, and the part of link.ld that has their stacks
BAD_NAME = re.compile(rb"[\x01-\x1f\x7f]")
STRING_TABLE = 3  # a type of a section (ELF, Section Headers)
FUNCTION = re.compile(r"[0-9a-f]+ <(.*)>:\Z")
CODE = re.compile(r"[0-9a-f]+:")
DEBUGGING = "N"  # the kind of a symbol that nm shows and no program has


class Script(NamedTuple):
    """The linker scripts of a program, as options and as a name for messages."""
    options: Tuple[str, ...]  # the options for the linker
    name: str  # the name of the script that a message names
    copied_to: str | None = None  # the folder into which a user may copy it; None if it is the user's own


def link(workshop: Workshop, script: Script, options: Sequence[str]) -> str:
    """Links all objects; returns the path of the ELF file. Raises BuildError if the linker fails, or if a symbol has a control character."""
    target = os.path.join(workshop.objects_folder, "program.elf")
    names = [name for name in sorted(os.listdir(workshop.objects_folder)) if name.endswith(".o") and not name.startswith(".")]
    objects = [os.path.join(workshop.objects_folder, name) for name in names]
    linker = run([*workshop.toolchain.link, *options, *LINKED, *script.options, "-o", target, *objects], workshop.folder)
    if linker.returncode:
        raise BuildError(reason(printable(linker.stderr), script))
    check_names(target)
    return target


def reason(output: str, script: Script) -> str:
    """Returns why the link failed: three lines if the reason is known, else the output of the linker."""
    overflow = TOO_SMALL.search(output)
    missing = sorted({symbol for each in UNDEFINED for symbol in each.findall(output)})
    if overflow:
        region, excess_bytes = overflow.groups()
        return ("error: %s of %s is too small by %s bytes\n"
                "  the size of a region or window is a power of two, at least 4096; its address is a multiple of its size\n"
                "  %sincrease the LENGTH of %s"
                % (region, script.name, excess_bytes, "copy %s to %s, and " % (script.name, script.copied_to) if script.copied_to else "", region))
    if missing:
        return ("error: undefined functions: %s\n"
                "  memcpy, memmove, memset and memcmp are provided; the folder must define every other function\n"
                "  a name with two leading underscores is called by the compiler, such as __udivdi3 for a 64-bit division" % ", ".join(missing))
    return output


def check_names(path: str) -> None:
    """Checks that no name in the string tables of an ELF32 file has a control character: a line break would add lines to what nm and objdump
    print. Raises BuildError if a name has one."""
    data = Path(path).read_bytes()
    tables = (data[section.offset:section.offset + section.size] for section in sections_of(data) if section.kind == STRING_TABLE)
    bad_name = next((name for table in tables for name in table.split(b"\0") if BAD_NAME.search(name)), None)
    if bad_name is not None:
        raise BuildError("error: the symbol '%s' has a control character; rename it" % visible(bad_name.decode("utf-8", "replace")))


def report_stacks(workshop: Workshop, path: str, least: int) -> None:
    """Prints the bytes of each stack, and warns of a small one. A stack is from NAME_stack_bottom to NAME_stack_top. A link.ld need not define a
    stack."""
    symbols = symbols_in(workshop.toolchain, path)
    sizes = {name: size for name in STACKS for size in [stack_size(symbols, name)] if size is not None}
    if not any(symbol.name == "application" for symbol in symbols):
        sizes = {name: size for name, size in sizes.items() if name == "host"}
    for name, size in sizes.items():
        if name != "runtime" and size < least:
            print_plain("build: warning: the %s has %d bytes of stack, fewer than %d; increase the LENGTH of %s in link.ld"
                        % (name, size, least, STACKS[name]))
    print("build: stack sizes in bytes: %s" % ", ".join("%s %d" % entry for entry in sizes.items()), flush=True)


def report_lacking(path: str, name: str) -> None:
    """Warns of instructions that the machine does not have; `name` is that of the program in the warning."""
    for text in lacking_texts(Image(visible(name), b"", Path(path).read_bytes())):
        print_plain("build: warning: " + text)


def stack_size(symbols: Sequence[NamedSymbol], name: str) -> int | None:
    """Returns the bytes of a stack, or None if its two symbols are not defined."""
    addresses = {symbol.name: int(symbol.address, 16) for symbol in symbols if symbol.address}
    bottom, top = addresses.get(name + "_stack_bottom", 0), addresses.get(name + "_stack_top", 0)
    return top - bottom if bottom and top else None


def install_file(path: str, data: bytes) -> None:
    """Makes a file, or replaces a regular file or a symbolic link itself. Raises BuildError if there is a device or a folder, or if the file cannot
    be written."""
    if os.path.exists(path) and not os.path.islink(path) and not os.path.isfile(path):
        raise BuildError("error: '%s' is not a regular file" % visible(path))
    try:
        replace_file(path, data)
    except OSError as fault:
        raise BuildError("error: cannot write '%s': %s" % (visible(path), fault.strerror)) from None


def install_outputs(workshop: Workshop, elf: str, elf_path: str) -> None:
    """Writes symbols, listing and image into the folder, and the ELF file to `elf_path`. Strips the ELF file."""
    placed = [symbol for symbol in symbols_in(workshop.toolchain, elf, "-n") if symbol.kind != DEBUGGING and symbol.address]
    symbols = "".join("%s  %s\n" % (symbol.address, symbol.name) for symbol in placed)
    listing = output_of([*workshop.toolchain.disassemble, "-d", "-M", "no-aliases,numeric", elf])
    install_file(os.path.join(workshop.folder, "symbols"), symbols.encode("utf-8", "surrogateescape"))
    install_file(os.path.join(workshop.folder, "listing"), (symbols + "".join(listing_of(listing))).encode("utf-8", "surrogateescape"))
    if elf_path:
        install_file(elf_path, Path(elf).read_bytes())
    output_of([*workshop.toolchain.object_copy, "--strip-all", elf])
    install_file(os.path.join(workshop.folder, "image"), digits_of(Path(elf).read_bytes()))


def listing_of(text: str) -> Iterator[str]:
    """Yields the lines of the listing from the output of objdump: an empty line and the name before each function, then address, bytes and
    instruction. The tools group the four bytes of an instruction differently."""
    name = None
    for line in text.split("\n"):
        fields = line.split()
        function = FUNCTION.match(line)
        if function:
            name = function[1]
        elif CODE.match(line) and len(fields) > 2:
            is_word = len(fields[1]) == 8
            code = bytes.fromhex(fields[1])[::-1].hex() if is_word else "".join(fields[1:5])
            words = fields[2:] if is_word else fields[5:]
            if words and words[0][0].isalpha():
                yield ("\n%s:\n" % name if name is not None else "") + "%s  %s  %s\n" % (fields[0][:8], code, " ".join(words))
                name = None
