"""Mutants as functions of their own: for each one a copy of its function, with the change, beside the function itself.

A copy has the contract, attributes and proof files of the function. Nothing calls it, since it has a name of its own. One check therefore tries
all mutants of a crate, also several of one function. Each is judged by its own body alone, because it calls the original functions. The
original functions must be proved in the same check. A method in the impl block of a trait, or a mutant of no function, cannot be copied.
"""
import os
import re

from mutants import BadMutant, Place, function_of, functions_in, place_of, replaced, text_of


class Copy:
    """A mutant with the name of its copy, its file, and the offset in the text at which the copy is inserted."""

    def __init__(self, folder, mutant, number):
        self.mutant, self.file = mutant, mutant.pairs[0][0]
        text = text_of(folder, self.file)
        function = function_of(mutant, text)
        self.of, self.at, self.was = function.name, function.end, function.last_name
        self.name = f"{function.last_name}_mutant_{number}"
        head, body = text[function.start : function.body], text[function.body : function.end]
        for _, old, new in mutant.pairs:
            body = replaced(body, old, new, mutant.function)
        self.text = re.sub(rf"\bfn {self.was}\b", f"fn {self.name}", head, count=1) + body

    def place(self, folder, texts):
        """Returns the copy as a function of the texts that have it."""
        text = texts[self.file]
        function = next(it for it in functions_in(text) if it.last_name == self.name)
        return Place(folder, self.mutant.crate, self.file, text, function)


def can_be_copied(folder, mutant):
    """Returns whether the mutant changes a function of a type or of a module that is in no cycle of calls."""
    if not mutant.function:
        return False
    text = text_of(folder, mutant.pairs[0][0])
    function = function_of(mutant, text)
    return not function.trait and "#[cycle" not in text[function.start : function.head]


def with_copies(folder, copies):
    """Returns the texts of the crate's files with these copies, by the names of the files."""
    texts = {}
    for file in {it.file for it in copies}:
        text = text_of(folder, file)
        for it in sorted((it for it in copies if it.file == file), key=lambda it: -it.at):
            text = f"{text[: it.at]}\n\n{it.text}{text[it.at :]}"
        texts[file] = text
    for it in copies:
        texts.update(proofs_of(folder, it))
    return texts


def proofs_of(folder, copy):
    """Returns the proof files of the copied function, for its copy: they name the modules of the proof by the path of the function."""
    original = place_of(folder, copy.mutant)
    crate, *path = original.name.split("::")
    modules = ".".join(["Rattle", crate, "proofs", *path])
    names = re.compile(rf"{re.escape(modules)}(?![\w'-])")
    there = f"{folder}/{original.proofs()}"
    found = {}
    for name in sorted(os.listdir(there)) if os.path.isdir(there) else []:
        if os.path.isdir(f"{there}/{name}"):
            raise BadMutant(f"{original.proofs()} has a folder {name}, and a copy has none")
        text = text_of(folder, f"{original.proofs()}/{name}")
        file = "/".join(["proofs", *path[:-1], copy.name, name])
        found[file] = names.sub(modules[: -len(copy.was)] + copy.name, text)
    return found
