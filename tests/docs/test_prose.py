"""tools/prose: each kind of finding is reported, in pages, comments and docstrings, and no count is above its budget."""
import importlib.machinery
import importlib.util
from pathlib import Path

import pytest

ROOT = Path(__file__).resolve().parents[2]


@pytest.fixture(scope="module", name="prose")
def loaded_tool():
    loader = importlib.machinery.SourceFileLoader("prose", str(ROOT / "tools" / "prose"))
    module = importlib.util.module_from_spec(importlib.util.spec_from_loader("prose", loader))
    loader.exec_module(module)
    return module


def kinds(prose, path, text):
    path.write_text(text, encoding="utf-8")
    return [kind for _, part in prose.paragraphs(path) for it in prose.sentences(part) for kind, _ in prose.findings(it)]


LONG = "The bench " + "and the hart " * 10 + "step."
FINDINGS = [(LONG, ["long"]), ("What a hart does is a step.", ["opening"]), ("The reply tells the fault.", ["private"]), ("The hart steps.", [])]


@pytest.mark.parametrize("sentence, wanted", FINDINGS)
@pytest.mark.parametrize("name, form", [
    ("page.md", "# Page\n\nFirst. {}\n"), ("list.md", "- First.\n- {}\n"), ("table.md", "| a | b |\n|---|---|\n| c | {} |\n"),
    ("source.rt", "/// {}\nfn f() {{}}\n"), ("specs.antt", "-- {}\n"), ("module.py", '"""A module.\n\n{}\n"""\n'), ("script", "#!/bin/bash\n# {}\n"),
    ("board.c", "/* {}\n*/\n"), ("start.s", "    nop\n# {}\n"),
])
def test_a_finding_is_reported_in_every_kind_of_file(prose, tmp_path, name, form, sentence, wanted):
    assert kinds(prose, tmp_path / name, form.format(sentence)) == wanted


@pytest.mark.parametrize("text", ["    What this tells\n", "```\nWhat this tells\n```\n", "`tells` is a name.\n"])
def test_code_is_not_prose(prose, tmp_path, text):
    assert kinds(prose, tmp_path / "page.md", text) == []


def test_each_private_word_has_its_suggestion(prose):
    for sentence in ("It wants a seat.", "They are at rest.", "The lists part, and they part again.", "It is laid out."):
        assert [hint for kind, hint in prose.findings(sentence) if kind == "private"], sentence


def test_a_count_above_its_budget_fails(prose, monkeypatch, tmp_path, capsys):
    monkeypatch.setattr(prose, "BUDGET", tmp_path / "budget")
    prose.write({"pages": {"long": 1, "opening": 0, "private": 0}})
    assert prose.check({"pages": {"long": 1, "opening": 0, "private": 0}}) == 0
    assert prose.check({"pages": {"long": 2, "opening": 0, "private": 0}}) == 1
    assert prose.check({"new area": {"long": 0, "opening": 1, "private": 0}}) == 1
    assert "2 long, the budget is 1" in capsys.readouterr().out


def test_no_count_is_above_its_budget(prose, capsys):
    assert prose.check(prose.count()) == 0, capsys.readouterr().out
