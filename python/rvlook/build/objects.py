"""Compiles sources to objects, and reads which symbols these define and use."""
from __future__ import annotations

import os
import re
import sys
from dataclasses import dataclass, field
from typing import Iterable, NamedTuple, Sequence, Tuple

from rvlook.build.toolchain import BuildError, Toolchain, output_of, printable, run
from rvlook.escapes import visible

C, CPP = (".c",), (".cpp", ".cc", ".cxx")  # endings of sources in C and in C++
OF_CPP = ("-fno-exceptions", "-fno-rtti", "-fno-threadsafe-statics", "-fno-asynchronous-unwind-tables")  # no features that need a library
OF_C = ("-ffreestanding", "-fno-builtin", "-Wall", "-Wextra", "-Os", "-I")
APART = ("-ffunction-sections", "-fdata-sections")  # so that the linker can drop a function that is not used
NM_LINE = re.compile(r"([0-9a-f]{8,16}|-{8,16}|)\s+(\S) (.*)\Z")  # an address, dashes in bitcode, or nothing if it is undefined
STRING_FUNCTIONS = {"memcpy", "memmove", "memset", "memcmp"}  # the functions that a compiler may call


class NamedSymbol(NamedTuple):
    """A line of nm."""
    address: str  # hexadecimal digits; empty if undefined
    kind: str  # the letter of the kind
    name: str  # the name of the symbol


def symbols_in(toolchain: Toolchain, path: str, *options: str) -> list[NamedSymbol]:
    """Returns the symbols of an object or of an ELF file, as nm lists them with these options."""
    matches = (NM_LINE.match(line) for line in output_of([*toolchain.list_symbols, *options, path]).split("\n"))
    return [NamedSymbol(match[1], match[2], match[3]) for match in matches if match]


@dataclass
class Workshop:
    """The folders and the toolchain of a build."""
    toolchain: Toolchain  # the compiler and its tools
    folder: str  # the folder of the sources
    shared: str  # the shared folder
    objects_folder: str  # a temporary folder for objects
    cflags: Tuple[str, ...]  # the options of CFLAGS
    cached_symbols: dict[str, Sequence[NamedSymbol]] = field(default_factory=dict)  # symbols of objects, by path

    def compile(self, source: str, name: str, *options: str) -> str:
        """Compiles a source to the object of this name; returns its path. Prints the warnings of the compiler. Raises BuildError if the source is no
        regular file or does not compile.

        The source is passed as a path, so that it is no option and no response file (@FILE). C is compiled in the folder DIR, to which relative
        paths in CFLAGS are relative; assembly in the folder of the source, to which .incbin is relative."""
        path = source if os.path.isabs(source) else "./" + source
        if not os.path.isfile(os.path.join(self.folder, source)):
            raise BuildError("error: '%s' is not a regular file" % visible(source))
        target = os.path.join(self.objects_folder, name)
        words = [*self.toolchain.compile, "-gdwarf-4"]
        is_compiled = source.endswith((*C, *CPP))
        if is_compiled:
            words += [*(OF_CPP if source.endswith(CPP) else ()), *OF_C, self.shared, *options, *self.cflags]
        process = run([*words, "-c", "-o", target, path], self.folder if is_compiled else os.path.dirname(os.path.join(self.folder, source)))
        if process.returncode:
            raise BuildError(printable(process.stderr) or "error: '%s' cannot be compiled" % visible(source))
        if process.stderr:
            print(printable(process.stderr), file=sys.stderr, flush=True)
        return target

    def string_functions(self, objects: Sequence[str], name: str) -> list[str]:
        """Returns the object of the string functions, of this name, if the objects use one that none of them defines; else nothing."""
        if STRING_FUNCTIONS.isdisjoint(self.names(objects)[1]):
            return []
        options = ("-O1", "-fno-lto", *APART, *self.toolchain.of_string_functions)
        return [self.compile(os.path.join(self.shared, "string.c"), name, *options)]

    def names(self, objects: Iterable[str]) -> tuple[set[str], set[str]]:
        """Returns the global names that objects define, and the names that they use and that no object defines."""
        symbols = [symbol for path in objects for symbol in self.symbols(path)]
        defined = {symbol.name for symbol in symbols if symbol.address}
        return defined, {symbol.name for symbol in symbols if not symbol.address} - defined

    def symbols(self, path: str) -> Sequence[NamedSymbol]:
        """Returns the global symbols of an object that does not change any more."""
        if path not in self.cached_symbols:
            self.cached_symbols[path] = symbols_in(self.toolchain, path, "-g")
        return self.cached_symbols[path]

    def copy_object(self, path: str, target: str, *options: str) -> None:
        """Writes an object with changed sections or symbols to `target`, which may be `path`."""
        output_of([*self.toolchain.object_copy, *options, path, target])
        self.cached_symbols.pop(target, None)

    def merge(self, objects: Sequence[str], name: str) -> str:
        """Joins objects to one of this name, and removes them; returns its path."""
        target = os.path.join(self.objects_folder, name)
        output_of([*self.toolchain.merge, "-o", target, *objects])
        for path in objects:
            os.unlink(path)
        return target
