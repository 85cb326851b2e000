"""The data of a page are the objects of `trace` and `map`."""
import pytest
from support.page_data import Steps, data_of, points_of

from conftest import EXAMPLES, input_of

TIMER = EXAMPLES / "enclaves" / "timer"
IMAGES = {"enclaves/timer": ("--monitor", "--symbols", TIMER / "symbols"), "enclaves/two_harts": ("--monitor", "--harts", "2"), "programs/pmp": ()}
NO_JSON = "rvlook: error: page does not support --json; use map --json and trace --json\n"
NO_JINJA = "rvlook: error: jinja2 is not installed, so page cannot render its output; install it with 'apt-get install python3-jinja2'\n"


@pytest.fixture(scope="module", params=IMAGES)
def page(request, rvlook, results):
    """The data of the page of an example, and the objects of `trace` and `map`."""
    pytest.importorskip("jinja2")
    words = (input_of(EXAMPLES / request.param), *IMAGES[request.param])
    done = rvlook("page", *words)
    assert (done.returncode, done.stderr) == (0, "")
    return data_of(done.stdout), results("trace", *words), results("map", *words)


def kind(objects, name):
    return [it for it in objects if it["object"] == name]


def test_steps_are_those_of_trace(page):
    data, trace, _ = page
    packed, steps = Steps(data), kind(trace, "step")
    assert data["steps"] == len(steps) > 5
    for it in steps:
        found = packed.step(it["step"])
        assert found == {name: it[name] for name in found}, "step %d" % it["step"]


def test_events_are_those_of_map(page):
    data, _, events = page
    wanted = kind(events, "event")
    shown = [{"object": "event", **{name: value for name, value in it.items() if name != "map"}, **data["maps"][it["map"]]}
             for it in data["events"]]
    assert len(shown) == len(wanted)
    for found, it in zip(shown, wanted):
        assert found == it, "event at step %d" % it["step"]


def test_points_rows_and_lines_of_the_script_are_counted(page):
    data, trace, events = page
    assert data["points"] == points_of(kind(trace, "step"))
    assert data["rows"] == sum(len(it["rows"]) for it in kind(events, "event"))
    assert data["commands"] == [{name: value for name, value in it.items() if name != "object"} for it in kind(trace, "command")]


def test_json_is_refused(rvlook):
    done = rvlook("page", EXAMPLES / "programs" / "pmp" / "stdin", "--json")
    assert (done.returncode, done.stdout, done.stderr) == (2, "", NO_JSON)


@pytest.mark.parametrize("text, words", [("1300\n", ("--kind", "raw", "--steps", "0")), ("--\nstep 3\n", ())], ids=["no step", "empty image"])
def test_page_of_a_small_run_is_written(rvlook, tmp_path, text, words):
    """In an empty image each fetch is refused, outside RAM."""
    pytest.importorskip("jinja2")
    (tmp_path / "image").write_text(text)
    done = rvlook("page", tmp_path / "image", *words)
    assert (done.returncode, done.stderr) == (0, "") and data_of(done.stdout)["steps"] >= 0


def test_page_needs_jinja2(rvlook, tmp_path):
    (tmp_path / "jinja2.py").write_text("raise ImportError\n")
    done = rvlook("page", EXAMPLES / "programs" / "pmp" / "stdin", env={"PYTHONPATH": str(tmp_path)})
    assert (done.returncode, done.stdout, done.stderr) == (3, "", NO_JINJA)
