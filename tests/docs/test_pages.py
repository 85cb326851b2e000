"""The pages: no leftovers of another markup, links that lead to a page and a heading, and counts in the text that agree with the tree."""
import re
from pathlib import Path

import pytest

from models.example_arguments import arguments_of

ROOT = Path(__file__).resolve().parents[2]
PAGES = sorted([ROOT / "README.md", *ROOT.glob("docs/**/*.md"), *ROOT.glob("examples/**/*.md"), *ROOT.glob("tests/**/*.md")])
NUMBERS = {name: number for number, name in enumerate((
    "zero one two three four five six seven eight nine ten eleven twelve thirteen fourteen fifteen sixteen seventeen eighteen nineteen "
    "twenty").split())}
COUNTED = re.compile(r"\b(%s)\s+(?:\[)?attacks\b|\[(%s) attacks\]" % ("|".join(NUMBERS), "|".join(NUMBERS)), re.I)


LINK = re.compile(r"\]\(([^)#\s]*)(?:#([^)\s]*))?\)")
HEADING = re.compile(r"^#+ (.*)$", re.M)


def anchors(page):
    """The anchors of a page's headings, as GitHub makes them."""
    texts = [re.sub(r"\[([^\]]*)\]\([^)]*\)", r"\1", it) for it in HEADING.findall(page.read_text(encoding="utf-8"))]
    return {re.sub(r"[^\w\- ]", "", it.lower()).replace(" ", "-") for it in texts}


def prose(page):
    """Yields the lines of a page outside code blocks, without code spans."""
    lines, is_code = [], False
    for line in page.read_text(encoding="utf-8").split("\n"):
        if line.startswith("```"):
            is_code = not is_code
        elif not is_code and not line.startswith("    "):
            lines.append(re.sub(r"`[^`]*`", "`", line))
    return lines


@pytest.mark.parametrize("page", PAGES, ids=lambda it: str(it.relative_to(ROOT)))
def test_no_roff_or_html_remains(page):
    for line in prose(page):
        assert not re.match(r"[.'][A-Za-z]{1,2}(\s|$)", line), line
        assert not re.search(r"</?[a-z]+[^>]*>", line.replace("<->", "")), line


@pytest.mark.parametrize("page", PAGES, ids=lambda it: str(it.relative_to(ROOT)))
def test_links_lead_to_a_file_and_a_heading(page):
    for name, anchor in LINK.findall(page.read_text(encoding="utf-8")):
        if "://" in name:
            continue
        target = (page.parent / name).resolve() if name else page
        assert target.exists(), name
        assert not anchor or anchor in anchors(target), name + "#" + anchor


def test_the_number_of_attacks_is_right():
    folders = [it for it in (ROOT / "examples" / "attacks").iterdir() if it.is_dir()]
    twins = [it for it in folders if arguments_of(it)[0] == "twin"]
    found = [(page.name, NUMBERS[(match[1] or match[2]).lower()]) for page in PAGES for match in COUNTED.finditer("\n".join(prose(page)))]
    assert {number for _, number in found} <= {len(folders), len(twins)}, found
    assert sum(number == len(folders) for _, number in found) >= 3, found
