"""The objects of --json match `objects.schema.json`, and each member of the schema is written."""
import json

import pytest

from conftest import EXAMPLES, PROGRAMS, ROOT, input_of

SHAPES = json.loads((ROOT / "python" / "rvlook" / "output" / "objects.schema.json").read_text(encoding="utf-8"))["$defs"]
IMAGES, COPIES = PROGRAMS.parent / "images", PROGRAMS / "window_copies"
LEAK, STORE = ("leak", "--monitor", IMAGES / "leak" / "image", "--at"), EXAMPLES / "enclaves" / "store_leaking"
MONITORS = EXAMPLES / "monitors"
GUARD = (MONITORS / "two_enclaves" / "image", MONITORS / "two_enclaves" / "ranges")
VAULT = IMAGES.parent / "monitors" / "vault"
EXIT_ZERO = ("timer", "leak", "window", "inputs", "races", "explain", "conform", "guard", "map", "run", "verify")  # subcommands that end with 1 if they find something
UNFINISHED = ("timer_not_resumed",)
COMMANDS = {
    "run": ("run", EXAMPLES / "enclaves" / "hello" / "image", "--symbols", EXAMPLES / "enclaves" / "hello" / "symbols"),
    "run_failures": ("run", "--monitor", EXAMPLES / "enclaves" / "at_rest" / "image", "--expect", "Overlap"),
    "trace_console": ("trace", EXAMPLES / "enclaves" / "hello" / "image", "--symbols", EXAMPLES / "enclaves" / "hello" / "symbols", "--to", "300"),
    "map": ("map", "--monitor", EXAMPLES / "enclaves" / "adds" / "image"), "map_pmp": ("map", EXAMPLES / "programs" / "pmp" / "stdin"),
    "map_returns": ("map", "--returns", IMAGES / "map_opened" / "image"),
    "touch": ("touch", "--monitor", input_of(EXAMPLES / "enclaves" / "refused"), "--symbols", EXAMPLES / "enclaves" / "refused" / "symbols"),
    "trace": ("trace", "--monitor", input_of(EXAMPLES / "enclaves" / "timer")),
    "timer_not_resumed": ("timer", "--monitor", EXAMPLES / "enclaves" / "adds" / "image"),
    "timer": ("timer", "--monitor", EXAMPLES / "enclaves" / "timer" / "image"), "leak": (*LEAK, "80020800", "00", "05"),
    "leak_tries": (*LEAK, "80020800:4", "--tries", "3"), "window": ("window", "--monitor", IMAGES / "window" / "image", "--at", "80020800:4"),
    "window_copies": ("window", "--monitor", COPIES / "image", "--symbols", COPIES / "symbols", "--script", COPIES / "script", "--at", "key:20"),
    "window_harts": ("window", "--harts", "2", "--monitor", STORE / "image", "--symbols", STORE / "symbols", "--at", "key:32"),
    "inputs": ("inputs", "--monitor", EXAMPLES / "enclaves" / "bug" / "image", "--symbols", EXAMPLES / "enclaves" / "bug" / "symbols", "--runs", "8"),
    "verify": ("verify", "--monitor", STORE / "image", "--symbols", STORE / "symbols", "--at", "key:32"),
    "races": ("races", "--monitor", "--timer", "1", EXAMPLES / "enclaves" / "adds" / "image"), "explain": ("explain", IMAGES / "explain" / "input"),
    "conform": ("conform", MONITORS / "own_monitor" / "image", "--boot", IMAGES / "conform" / "boot", "--only", "region of 8000"),
    "guard": ("guard", *GUARD, "--timers", "0"),
    "guard_traps": ("guard", VAULT / "image", VAULT / "ranges", "--symbols", VAULT / "symbols", "--timers", "0"),
    "guard_no_enclave": ("guard", MONITORS / "two_enclaves" / "image", IMAGES / "guard" / "ranges", "--timers", "0"),
    "measure": ("measure", IMAGES / "measure" / "region", "80020000", "1000", "0", "0", "80020000")}


@pytest.fixture(scope="module")
def written(results):
    """Runs a command once; gives its objects."""
    kept = {}

    def of(name):
        if name not in kept:
            words = COMMANDS[name]
            more = ("--exit-zero",) if words[0] in EXIT_ZERO else ()
            kept[name] = results(*words, *more, status=3 if name in UNFINISHED else 0)
        return kept[name]
    return of


@pytest.mark.parametrize("name", COMMANDS)
def test_objects_are_as_the_schema_has_them(written, name):
    Validator = pytest.importorskip("jsonschema").Draft202012Validator
    faults = [(it["object"], fault.message) for it in written(name) for fault in Validator({**SHAPES[it["object"]], "$defs": SHAPES}).iter_errors(it)]
    assert written(name) and faults == []


def members_of(value, schema, path):
    """The members of an object and of those in it, as `step.touch.kind`; one that the schema does not name, as `step.touch.?name`."""
    if isinstance(value, list):
        return set().union(*(members_of(it, schema.get("items", {}), path) for it in value))
    if not isinstance(value, dict) or "properties" not in schema:
        return set()
    known = schema["properties"]
    names = {"%s.%s" % (path, name if name in known else "?" + name) for name in value}
    return names | set().union(*(members_of(it, known.get(name, {}), path + "." + name) for name, it in value.items()))


def named_by(schema, path):
    """All members that a schema names, by the same paths."""
    inner = schema.get("properties", {}).items()
    names = {path + "." + name for name, _ in inner} | set().union(*(named_by(it, path + "." + name) for name, it in inner))
    return names | (named_by(schema["items"], path) if "items" in schema else set())


def test_members_that_are_written_are_those_of_the_schema(written):
    """Members of `line` are excluded, since they require source lines."""
    found = {member for name in COMMANDS for it in written(name) for member in members_of(it, SHAPES[it["object"]], it["object"])}
    named = set().union(*(named_by(it, name) for name, it in SHAPES.items()))
    assert sorted(found - named) == [], "not named by the schema"
    assert sorted(it for it in named - found if not it.startswith("line.")) == [], "not written"
