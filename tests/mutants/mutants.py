"""Mutants of the crates: what they change, and the functions that they change.

`CRATE.mutants` holds the mutants of a crate. Each begins with a line `mutant NAME`, or `equivalent NAME` if the change keeps the meaning, and
ends at an empty line. Its lines are:

    file: src/x.rt      a file of the crate, in src/, specs/ or proofs/; more than one may follow
    fn: NAME            the function whose body changes: `f`, `Type::method`, or `TypeTrait::method` in the impl block of a trait
    old: TEXT           a text that occurs exactly once in that body
    new: TEXT           its replacement; further pairs may follow

A mutant of a constant, type, contract or definition has no line `fn:`. It begins with `refused: NAME`, the path of the function that the prover
must reject then, and each old text occurs exactly once in the whole file.
"""
import functools
import os
import re
from dataclasses import dataclass

HERE = os.path.dirname(os.path.realpath(__file__))
ENDING = ".mutants"
# The head of a function, as the formatter leaves it.
HEAD = re.compile(r"^( *)(?:pub(?:\([a-z]+\))? )?(?:const )?fn (\w+)", re.M)
# The head of an impl block: the trait, if it has one, and the type.
IMPL = re.compile(r"^impl(?:<[^{]*?>)? (?:([\w:]+)(?:<[^{]*?>)? for )?(\w+)[^;{]*\{$", re.M)


class BadMutant(Exception):
    """Why a mutant cannot be tried."""


@dataclass(frozen=True)
class Mutant:
    """A mutant: the function that it changes, or the one that is rejected for it by its full path, and its pairs (file, old text, new text).
    An equivalent mutant must still be proved."""
    crate: str
    name: str
    is_equivalent: bool
    function: str
    refused: str
    pairs: tuple

    def __str__(self):
        return f"{self.crate}/{self.name}"

    @property
    def place(self):
        """Returns the file and the name of the function whose body changes."""
        return self.pairs[0][0], self.function


def crates_with_mutants():
    """Returns the names of the crates that have a file of mutants."""
    return sorted(it[: -len(ENDING)] for it in os.listdir(HERE) if it.endswith(ENDING))


def sections(text):
    """Returns the mutants of a file's text: the number of each one's first line, and its lines."""
    found, start = [], None
    for number, line in enumerate(text.split("\n"), 1):
        if not line.strip():
            start = None
        elif start is None:
            start = number
            found.append((number, [line]))
        else:
            found[-1][1].append(line)
    return found


def read(crate):
    """Returns the mutants of a crate, and for each section that is no mutant why."""
    with open(f"{HERE}/{crate}{ENDING}", encoding="utf-8") as it:
        text = it.read()
    found, faults = [], []
    for number, lines in sections(text):
        try:
            mutant = parse(crate, lines)
            if mutant.name in {it.name for it in found}:
                raise BadMutant(f"there are two mutants {mutant.name}")
            found.append(mutant)
        except BadMutant as error:
            faults.append(f"{crate}{ENDING}:{number}: {error}")
    return found, faults


def parse(crate, lines):
    """Returns the mutant of a section."""
    head = re.fullmatch(r"(mutant|equivalent) ([\w-]+)", lines[0])
    if not head:
        raise BadMutant(f"'{lines[0]}' is neither 'mutant NAME' nor 'equivalent NAME'")
    file = function = refused = old = None
    pairs = []
    for line in lines[1:]:
        key, _, text = line.partition(":")
        text = text[1:] if text.startswith(" ") else text
        if key == "file" and old is None and function is None:
            file = matched(r"(src|specs|proofs)/[\w/+-]+\.(rt|antt)", text.strip(), "names no file of src/, specs/ or proofs/")
        elif key == "fn" and file and not pairs and function is None and file.endswith(".rt"):
            function = matched(r"(\w+::)?\w+", text.strip(), "names no function")
        elif key == "refused" and file is None and refused is None:
            refused = matched(r"\w+(::\w+)*", text.strip(), "names no function")
        elif key == "old" and file and old is None and text:
            old = text
        elif key == "new" and old is not None:
            pairs.append((file, old, text))
            old = None
        else:
            raise BadMutant(f"the line '{line}' is out of place")
    if old is not None or not pairs:
        raise BadMutant("it has no pair of 'old:' and 'new:', or half of one")
    if bool(function) == bool(refused):
        raise BadMutant("it needs either a line 'fn:' or a line 'refused:'")
    return Mutant(crate, head[2], head[1] == "equivalent", function, f"{crate}::{refused}" if refused else None, tuple(pairs))


def matched(pattern, text, otherwise):
    """Returns the text, if it matches."""
    if not re.fullmatch(pattern, text):
        raise BadMutant(f"'{text}' {otherwise}")
    return text


def mutated(folder, mutants):
    """Returns the texts of the files that these mutants change, by the names of the files."""
    texts = {}
    for mutant in mutants:
        for file, old, new in mutant.pairs:
            text = texts[file] if file in texts else text_of(folder, file)
            first, last = 0, len(text)
            if mutant.function:
                function = function_of(mutant, text)
                first, last = function.body, function.end
            texts[file] = text[:first] + replaced(text[first:last], old, new, mutant.function or file) + text[last:]
    return texts


def replaced(text, old, new, where):
    """Returns the text with the new part in place of the old one."""
    if text.count(old) != 1:
        raise BadMutant(f"the text 'old: {old.strip()}' occurs {text.count(old)} times in {where}, and not once")
    return text.replace(old, new)


def text_of(folder, file):
    """Returns the text of a file of a crate."""
    try:
        with open(f"{folder}/{file}", encoding="utf-8") as it:
            return it.read()
    except OSError:
        raise BadMutant(f"there is no file {file}") from None


class Function:
    """A function in the text of a file.

    It has its name (with the type, for a method), its trait (if it is in the impl block of a trait), and its indentation. The offsets in the text
    are those at which its attributes, head and body begin, and at which it ends."""

    def __init__(self, text, head):
        self.indent, self.last_name = head.groups()
        impls = [it for it in IMPL.finditer(text) if it.start() < head.start()] if self.indent else []
        self.trait = impls[-1][1] if impls else None
        self.type = impls[-1][2] + (self.trait or "").split("::")[-1] if impls else None
        self.name = f"{self.type}::{self.last_name}" if self.type else self.last_name
        opening = re.compile(rf"^{self.indent}(?:(?:\S.*)?\{{)$", re.M).search(text, head.start())
        closing = opening and re.compile(rf"^{self.indent}\}}$", re.M).search(text, opening.end())
        self.head, self.body = head.start(), opening.start() if opening else len(text)
        self.end = closing.end() if closing else self.body
        self.start = start_of_head(text, self.head)

    def is_method_of_no_type(self):
        return bool(self.indent) and self.type is None


def start_of_head(text, head):
    """Returns the offset at which the attributes of the function begin whose head is at this offset."""
    lines = text[:head].split("\n")[:-1]
    first = len(lines)
    for number in range(len(lines) - 1, -1, -1):
        line = lines[number].strip()
        if line.startswith("#["):
            first = number
        elif not line.endswith((",", "(", ")", ")]")) or line.startswith("//"):
            break
    return sum(len(line) + 1 for line in lines[:first])


def functions_in(text):
    """Returns the functions that have a body, in the text of a file."""
    found = (Function(text, it) for it in HEAD.finditer(text))
    return [it for it in found if it.end > it.body and not it.is_method_of_no_type()]


def function_of(mutant, text):
    """Returns the function that the mutant names, in the text of its file."""
    found = [it for it in functions_in(text) if it.name == mutant.function]
    if len(found) != 1:
        raise BadMutant(f"the file has {len(found)} functions {mutant.function}, and not one")
    return found[0]


def is_of_trait(folder, mutant):
    """Returns whether the mutant changes a method in the impl block of a trait."""
    return bool(mutant.function and function_of(mutant, text_of(folder, mutant.pairs[0][0])).trait)


class Place:
    """A function by the name that the prover gives it, a method by the module that declares its type; with its file, first and last line."""

    def __init__(self, folder, crate, file, text, function):
        module = (declared_in(folder, function.type) or file)[len("src/") : -len(".rt")].split("/")
        path = [it for it in module if it not in ("lib", "main", "mod")] + ([function.type] if function.type else [])
        self.name = "::".join([crate, *path, function.last_name])
        self.file = file
        self.first = text.count("\n", 0, function.head) + 1
        self.last = text.count("\n", 0, function.end) + 1

    def holds(self, file, line):
        return file == self.file and self.first <= line <= self.last

    def proofs(self):
        """Returns the folder of its proof files."""
        return "proofs/" + "/".join(self.name.split("::")[1:])


def declared_in(folder, name):
    """Returns the file of src/ that declares the type, if one does."""
    return declarations(folder).get(name) if name else None


@functools.lru_cache(maxsize=None)
def declarations(folder):
    """Returns the files of the crate's src/ by the names of the types that they declare; a type that two files declare has none."""
    found = {}
    for at, _, names in os.walk(f"{folder}/src"):
        for file in (os.path.relpath(f"{at}/{it}", folder) for it in names if it.endswith(".rt")):
            for name in re.findall(r"^(?:pub(?:\([a-z]+\))? )?(?:struct|enum) (\w+)", text_of(folder, file), re.M):
                found[name] = None if name in found else file
    return found


def place_of(folder, mutant):
    """Returns the function whose body the mutant changes, if it names one."""
    if not mutant.function:
        return None
    file = mutant.pairs[0][0]
    text = text_of(folder, file)
    return Place(folder, mutant.crate, file, text, function_of(mutant, text))
