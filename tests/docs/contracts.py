"""Reads the functions of the crates with the clauses of their contracts, and the definitions that a contract uses, from the sources."""
import os
import re

ROOT = os.path.dirname(os.path.dirname(os.path.dirname(os.path.abspath(__file__))))
HEAD = re.compile(r"^( *)(?:pub(?:\([a-z]+\))? )?(?:const )?fn (\w+)(?s:.*?)(?:^\1\{|\{$|;$)", re.M)
BLOCK = re.compile(r"^(?:impl(?:<[^{]*?>)? (?:[\w:]+(?:<[^{]*?>)? for )?(\w+)|pub(?:\([a-z]+\))? trait (\w+))", re.M)
DEFINITION = re.compile(
    r"^(?: *(?:unfoldable |abbrev )(?:pub )?|(?:pub )?| *(?:pub )?(?:record|data) |)([\w◌-]+) (?:\(|\{|:)", re.M)


def text_of(path):
    with open(path, encoding="utf-8") as file:
        return file.read()


def files_of(folder, ending):
    """Yields the files of the crates' folders of this name, as pairs of the crate and the path."""
    for crate in sorted(os.listdir(os.path.join(ROOT, "crates"))):
        for here, _, names in sorted(os.walk(os.path.join(ROOT, "crates", crate, folder))):
            for name in sorted(names):
                if name.endswith(ending):
                    yield crate, os.path.join(here, name)


class Function:
    """A function: its crate, the names that a page may use, the names of its clauses, and the text of its contract. The fields of a record that a
    clause states are clauses too."""

    def __init__(self, crate, path, owner, head, known):
        name = head.group(2)
        stem = os.path.splitext(os.path.basename(path))[0]
        self.crate, self.path = crate, os.path.relpath(path, os.path.join(ROOT, "crates"))
        self.names = {f"{owner}::{name}"} if owner else {f"{stem}::{name}"} | ({name} if stem != "laws" else set())
        self.short = name
        self.contract = "\n".join(re.findall(r"^ *(?:ensures|requires)(?s:.*)", head.group(0), re.M))
        stated = re.findall(r"^ *ensures (\w+) \{ ?([\w◌-]*)", head.group(0), re.M)
        self.clauses = {name for name, _ in stated}
        self.clauses |= {field for _, first in stated for text in known.get(first, []) for field in re.findall(r"^  pub (\w+) :", text, re.M)}


def functions():
    """Returns all functions of the crates' sources, including those of traits."""
    found, known = [], definitions()
    for crate, path in files_of("src", ".rt"):
        text = text_of(path)
        blocks = [(it.start(), it.group(1) or it.group(2)) for it in BLOCK.finditer(text)]
        for head in HEAD.finditer(text):
            owner = next((name for start, name in reversed(blocks) if start < head.start()), None) if head.group(1) else None
            found.append(Function(crate, path, owner, head, known))
    return found


def definitions():
    """Returns the texts of the definitions in specs/, by name."""
    found = {}
    for _, path in files_of("specs", ".antt"):
        text = re.sub(r"^use .*$|^ *--.*$", "", text_of(path), flags=re.M)
        heads = list(DEFINITION.finditer(text))
        for head, following in zip(heads, [*heads[1:], None]):
            found.setdefault(head.group(1), []).append(text[head.end():following.start() if following else len(text)])
    return found


def defined_in(path):
    """Returns the names that a definition file defines."""
    return {it.group(1) for it in DEFINITION.finditer(text_of(path))}


def rests_on(contracts, known):
    """Returns the names of the definitions that these contracts use, directly or indirectly."""
    left, seen = [contracts], set()
    while left:
        for name in set(re.findall(r"[\w◌-]+", left.pop())) & known.keys() - seen:
            seen.add(name)
            left += known[name]
    return seen


class Scopes:
    """The definition files as modules: what each defines and imports, so that a name in it leads to one definition."""
    IMPORT = re.compile(r"^(?:pub |unfoldable )*use Rattle\.([\w.]+)\.\{([^}]*)\}", re.M)

    def __init__(self):
        self.defined, self.imported = {}, {}
        for crate, path in files_of("specs", ".antt"):
            inside = os.path.relpath(path, os.path.join(ROOT, "crates", crate, "specs"))
            module, text = f"{crate}.specs.{os.path.splitext(inside)[0].replace(os.sep, '.')}", text_of(path)
            self.imported[module] = {own: (source, name) for source, group in self.IMPORT.findall(text)
                                     for it in group.split(",") if it.strip() for name, own in [(it.strip().split(" as ") * 2)[:2]]}
            body = re.sub(r"^(?:pub |unfoldable )*use .*$|^ *--.*$", "", text, flags=re.M)
            # a record with a name in lower case is an expression, which changes fields
            heads = [it for it in DEFINITION.finditer(body) if "record " not in it.group(0) or it.group(1)[0].isupper()]
            self.defined[module] = {}
            for head, following in zip(heads, [*heads[1:], None]):
                self.defined[module].setdefault(head.group(1), []).append(body[head.end():following.start() if following else len(body)])

    def place_of(self, module, name):
        """Returns the module and the name of the definition that a name in a module means; None if it is a variable."""
        while name not in self.defined.get(module, {}) and name in self.imported.get(module, {}):
            module, name = self.imported[module][name]
        return (module, name) if module not in self.defined or name in self.defined[module] else None

    def used_by(self, start, ends):
        """Returns the definitions that a definition uses, directly or indirectly. It does not follow those in `ends`."""
        left, seen = [start], set()
        while left:
            module, name = place = left.pop()
            if place not in seen and place not in ends:
                texts = self.defined.get(module, {}).get(name, [])
                words = {word for text in texts for word in re.findall(r"[\w◌-]+", text)}
                left += filter(None, (self.place_of(module, word) for word in words))
            seen.add(place)
        return seen
