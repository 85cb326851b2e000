#!/usr/bin/env python3
"""python3 -m docs.laws_docs --check: checks that the names in LAWS, CALLS, LIMITS, PROMISES and the page of the attacks exist where the pages say.

In LAWS and CALLS, each theorem has premises, a definition, a contract and limits. Its files, definitions, functions and clauses exist, and a name
before a file is in that file. A clause belongs to the functions before it, also in the index. Each definition is part of the contract of one of the
functions of its theorem. LIMITS has each function that the laws which determine a step use.

In PROMISES, the definitions in parentheses are part of the contract of some function. In the table of refusals, each clause and definition
belongs to each call of its row.

In the page of the attacks, each theorem of the table is a law, or a clause of `MonitoredMachine::step`.
"""
import os
import re
import sys

from docs.contracts import ROOT, Scopes, defined_in, definitions, files_of, functions, rests_on, text_of

NAMES = r"(?:`[\w:]+`(?:, and |, | and )?)+"
# The laws that determine a step, the files with their texts, and the definitions whose own definitions the list does not go into.
DETERMINED = ("rv_monitor.specs.Determined", "ObeysCases")
TEXTS = {"rv_enclaves.specs.CallNumbers", *(f"rv_monitor.specs.{it}" for it in ("Determined", "Exits", "NumberedCalls", "PlainSteps"))}
ENDS = {("rv_hart.specs.Step", "step"), ("rv_enclaves.specs.Layout", "layout"), ("rv_pmp.specs.Verdicts", "verdict")}


class Sources:
    def __init__(self):
        self.functions, self.definitions, self.wrong, self.count = functions(), definitions(), [], 0

    def of_name(self, name, crates=(), owner=None):
        """The functions that a page calls so; a name alone may be of the type that was named before it."""
        names = {name} | ({f"{owner}::{name}"} if owner and "::" not in name else set())
        found = [it for it in self.functions if it.names & names and (not crates or it.crate in crates)]
        return found or [it for it in self.functions if it.names & names]

    def all_of(self, names, crates=()):
        """The functions of a list of names, each name with its own; what none has is wrong."""
        owner = None
        for name in names:
            found = self.of_name(name, crates, owner)
            owner = name.split("::")[0] if "::" in name else owner
            self.ask(found, f"no function {name}")
            yield name, found

    def ask(self, holds, what):
        self.count += 1
        if not holds:
            self.wrong.append(what)

    def ask_clauses(self, where, calls, clauses, crates=()):
        for name, found in self.all_of(calls, crates):
            for clause in clauses:
                self.ask(any(clause in it.clauses for it in found), f"{where}: no clause {clause} of {name}")


def names_in(text):
    return re.findall(r"(?<!command )`([^` ]+)`", text)


def check_places(sources, carried, defined):
    """Checks that the names right before the name of a file are in that file."""
    for names, path in re.findall(rf"({NAMES})(?: of `\w+`)? \(`([\w/]+\.antt)`\)", defined):
        for name in names_in(names):
            sources.ask(name in defined_in(os.path.join(ROOT, "crates", path)), f"LAWS: {name} is not in {path}")
    for names, path in re.findall(rf"({NAMES})(?: of `\w+`)?(?:,? clauses? {NAMES}[^(;]*)? ?\(`([\w/]+\.rt)`", carried):
        for name, found in sources.all_of(names_in(names)):
            sources.ask(any(it.path == path for it in found), f"LAWS: {name} is not in {path}")


def check_law(sources, section):
    """Checks a theorem of LAWS: its definitions, and the functions that carry it."""
    labels = set(re.findall(r"^- (Premises|Definition|Contract|Limits)\b", section, re.M))
    sources.ask(not labels or len(labels) == 4, f"LAWS: {section.splitlines()[0][:60]} has only {sorted(labels)}")
    items = {kind: " ".join(text.split()) for kind, text in re.findall(r"^- (Definition|Contract): ((?:.+\n)(?:  .+\n)*)", section, re.M)}
    if not items:
        return
    carried, defined = items.get("Contract", ""), items.get("Definition", "")
    for path in [it for it in names_in(carried + defined) if "/" in it]:
        sources.ask(os.path.exists(os.path.join(ROOT, "crates", path)), f"LAWS: no {path}")
    check_places(sources, carried, defined)
    clauses = set()
    for calls, named in re.findall(rf"({NAMES})(?: of `\w+`)?(?: \([^)]*\))?,? clauses? ({NAMES})", carried):
        sources.ask_clauses("LAWS", names_in(calls), names_in(named))
        clauses |= set(names_in(named))
    clauses |= {it for named in re.findall(rf"clauses? ({NAMES})", carried) for it in names_in(named)}
    calls = [it for it in names_in(carried) if "/" not in it and it not in clauses and not os.path.isdir(os.path.join(ROOT, "crates", it))]
    found = [it for _, each in sources.all_of(calls) for it in each]
    part = rests_on("\n".join(it.contract for it in found), sources.definitions)
    for name in [it for it in names_in(defined) if "/" not in it and "<" not in it]:
        sources.ask(name in sources.definitions, f"LAWS: no definition {name}")
        sources.ask(name in part or name not in sources.definitions, f"LAWS: {name} is no part of what {', '.join(calls)} promise")


def check_table(sources, page):
    """Checks the table in section Index of LAWS: each cell has functions, and then clauses of them."""
    rows = [line.split("|")[2:-1] for line in page.split("\n## Index\n")[1].splitlines() if line.startswith("| ") and "`" in line]
    for cell in [it for row in rows for it in row if "`" in it]:
        names = names_in(re.sub(r" of `\w+`", "", cell))
        calls = [name for at, name in enumerate(names) if "::" in name or at == 0 or name.startswith("run_")]
        sources.ask_clauses("LAWS, table", calls, names[len(calls):])


def check_limits(sources, page):
    """Checks that the table of LIMITS has each function that the laws which determine a step use, and no other. Types, and the functions of the
    texts of these laws, are left out."""
    used = {name for module, name in Scopes().used_by(DETERMINED, ENDS)
            if not module.startswith("std.") and ".declared." not in module and module not in TEXTS and name[0].islower()}
    found = set()
    for names, files in re.findall(r"^\| (.*?) \| (.*?) \|", page, re.M):
        there = {it for path in names_in(files) for it in defined_in(os.path.join(ROOT, "crates", path))}
        found |= {it for it in names_in(names) if it in there or not names_in(files)}
    for name in sorted(used ^ found):
        sources.ask(name not in used, f"LIMITS: {name} is not in the table, or its file is another")
        sources.ask(name not in found, f"LIMITS: the laws that determine a step do not use {name}")


def check_refusals(sources, page):
    """The table of refusals of PROMISES: each clause, and each definition in parentheses, is of each call of the row."""
    for line in re.findall(r"^\| `.*$", page, re.M):
        cells = line.split("|")[1:-1]
        if len(cells) != 4 or "every other call" in cells[0]:
            continue
        for name, found in sources.all_of(names_in(cells[0])):
            part = rests_on("\n".join(it.contract for it in found), sources.definitions)
            for definition in re.findall(r"\(`(\w+)`\)", cells[3]):
                sources.ask(definition in part, f"PROMISES, table: {definition} is no part of what {name} promises")
            for clause in names_in(re.sub(r"\(`\w+`\)", "", cells[3])):
                sources.ask(any(clause in it.clauses for it in found), f"PROMISES, table: no clause {clause} of {name}")


def check_attacks(sources, page):
    """Checks the table of theorems in the page of the attacks: each contract is a law, or a clause of a step."""
    for contract in re.findall(r"^\| [^|]* \| [^|]* \| (`.*`) \|$", page, re.M):
        names = names_in(contract)
        laws = [it for it in names if "::" in it]
        sources.ask_clauses("attacks", ["MonitoredMachine::step"], [it for it in names if it not in laws])
        sources.ask_clauses("attacks", laws, [])


def check_promises(sources, page):
    """The definitions that PROMISES names in parentheses are part of some contract."""
    part = rests_on("\n".join(it.contract for it in sources.functions), sources.definitions)
    words = {word for _, path in files_of("src", ".rt") for word in re.findall(r"\w+", text_of(path))}
    for name in sorted(set(re.findall(r"\(`(\w+)`", page))):
        sources.ask(name in part or name in words - sources.definitions.keys(), f"PROMISES: {name} is no part of a contract")


def main(arguments):
    if arguments != ["--check"]:
        print(__doc__)
        return 2
    sources = Sources()
    laws, calls, limits, promises = (text_of(os.path.join(ROOT, "docs", name)) for name in ("LAWS.md", "CALLS.md", "LIMITS.md", "PROMISES.md"))
    for section in re.split(r"^(?=\*\*)", laws + calls, flags=re.M):
        check_law(sources, section)
    check_table(sources, laws)
    check_limits(sources, limits)
    check_refusals(sources, promises)
    check_promises(sources, promises)
    check_attacks(sources, text_of(os.path.join(ROOT, "examples", "attacks", "README.md")))
    print("\n".join([*sources.wrong, f"{sources.count} asked, {len(sources.wrong)} wrong"]))
    return 1 if sources.wrong or not sources.count else 0


if __name__ == "__main__":
    sys.exit(main(sys.argv[1:]))
