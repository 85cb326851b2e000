"""The script of the page takes names of source files that are those of members of each object, and names with a colon."""
import re
import shutil
import subprocess

import pytest
from support.hostile import ROOT, named, run
from support.limits import HANG

PANEL = ROOT / "python" / "rvlook" / "page" / "panel.js"
NAMES = ["__proto__", "constructor", "toString", "a:b:7.c", ":", "plain.c"]
SHOWN = """
const asserted = [];
const data = JSON.parse('{"sources":{"a:b:7.c":"one\\\\ntwo\\\\n","plain.c":"one\\\\n","__proto__":"mine\\\\n"}}');
const site = name => ({ caller: null, source: name + ":1" });
let current = null;
const siteOf = () => current, element = (...all) => all.slice(2).join(""), put = (...all) => asserted.push(all.length > 1);
%s
for (const name of %s) { current = site(name); showSource(1); }
console.log(JSON.stringify(asserted));
"""


@pytest.mark.skipif(not shutil.which("node"), reason="node is not installed")
def test_source_is_found_by_its_own_name_alone():
    text = PANEL.read_text()
    start, end = text.index("// A Map, since a file name"), text.index("function showAbout")
    part = text[start:end].replace('const pre = element("pre", "");', "const pre = { append() {} };")
    constants = "const SOURCE_BEFORE = 6, SOURCE_AFTER = 8;\n"
    script = SHOWN % (constants + part, NAMES)
    done = subprocess.run(["node", "-e", script], capture_output=True, text=True, check=False, timeout=HANG)
    assert done.returncode == 0, done.stderr
    found = [it == "true" for it in re.findall("true|false", done.stdout)]
    has_text = dict(zip(NAMES, found))
    assert has_text == {"__proto__": True, "constructor": False, "toString": False, "a:b:7.c": True, ":": False, "plain.c": True}


@pytest.mark.skipif(not shutil.which("chromium"), reason="chromium is not installed")
@pytest.mark.parametrize("name", ["__proto__", "constructor", "a:b:7.c"])
def test_page_shows_its_step_in_a_browser(bench, tmp_path, name):
    elf, page = tmp_path / "p.elf", tmp_path / "page.html"
    elf.write_bytes(named(source=name))
    page.write_bytes(run(bench, "page", elf, "--steps", "20").output)
    done = subprocess.run(["chromium", "--headless", "--no-sandbox", "--disable-gpu", "--user-data-dir=%s" % (tmp_path / "profile"),
                           "--virtual-time-budget=5000", "--dump-dom", "%s#5" % page.as_uri()], capture_output=True, text=True, check=False,
                          timeout=HANG)
    assert '<h2 id="where">Step 5: bare in M</h2>' in done.stdout, done.stderr[-500:]
