"""The example notebook runs from its first cell to its last, and is stored without output."""
import json
import os
import subprocess
import sys

import pytest
from support.clock.processor_clock import environment_with
from support.limits import HANG
from rvlook.api.find import Finding, Findings

from conftest import EXAMPLES, ROOT

NOTEBOOK = EXAMPLES / "notebooks" / "store.ipynb"


def test_notebook_is_stored_without_output():
    cells = json.loads(NOTEBOOK.read_text(encoding="utf-8"))["cells"]
    assert not any(it.get("outputs") or it.get("execution_count") for it in cells) and len(cells) > 8


def executed(bench, folder, path):
    """Executes a notebook; returns its `CompletedProcess`, and the executed cells."""
    for name in ("nbconvert", "ipykernel"):
        pytest.importorskip(name)
    environment = {**os.environ, **environment_with(ROOT / "python"), "RVBENCH": bench, "PYTHONDONTWRITEBYTECODE": "1", "HOME": str(folder)}
    words = ["--to", "notebook", "--execute", "--output-dir", str(folder), "--output", "executed", str(path)]
    words += ["--ExecutePreprocessor.%s=%d" % (it, HANG) for it in ("startup_timeout", "iopub_timeout", "timeout")]
    done = subprocess.run([sys.executable, "-m", "nbconvert", *words], env=environment, capture_output=True, text=True, timeout=HANG, check=False)
    made = folder / "executed.ipynb"
    return done, json.loads(made.read_text(encoding="utf-8"))["cells"] if made.exists() else []


def test_notebook_runs(bench, built, tmp_path):
    done, cells = executed(bench, tmp_path, NOTEBOOK)
    assert done.returncode == 0, done.stderr
    shown = ["".join(data) for it in cells for output in it.get("outputs", ()) for data in output.get("data", {}).values()]
    assert sum(it.startswith("<table>") for it in shown) == 2
    assert any("<p>no finding in 4 checks</p>" in it for it in shown) and any("srcdoc" in it for it in shown)
    assert "stopped with 3" in shown


def test_notebook_with_a_wrong_pin_fails(bench, built, tmp_path):
    path = NOTEBOOK.parent / "store.ipynb"
    changed = tmp_path / "wrong.ipynb"
    text = path.read_text(encoding="utf-8").replace("27182818", "27182819")
    changed.write_text(text.replace("Path.cwd(), *Path.cwd().parents", "Path('%s')," % ROOT))
    done, _ = executed(bench, tmp_path, changed)
    assert done.returncode == 1 and "AssertionError" in done.stderr


def test_findings_are_shown_as_text_and_not_as_html():
    assert Findings([Finding("<b>", "a & b")])._repr_html_().count("&lt;b&gt;<td><pre>a &amp; b</pre>") == 1
    unfinished = Findings()
    unfinished.unfinished = "--seconds <1>"
    assert unfinished._repr_html_() == "<p>did not finish: --seconds &lt;1&gt;</p>"
