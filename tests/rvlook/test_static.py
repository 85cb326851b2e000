"""Static checks of the package rvlook: types, style, imports, lengths and docstrings."""
import ast
import shutil
import subprocess

import pytest

from conftest import ROOT

PACKAGE = ROOT / "python" / "rvlook"
ORDER = ("escapes", "errors", "output", "protocol", "image", "build", "access", "trace", "finders", "symbolic", "monitors", "page", "prompt", "gdb",
         "cli", "api", "__main__")
OPTIONAL = {"elftools", "jinja2", "argcomplete", "junitparser", "jsonschema", "readline", "gdb", "z3"}  # packages that may be missing
MOST_PARAMETERS = 6
MOST_LINES = 40
FUNCTIONS = (ast.FunctionDef, ast.AsyncFunctionDef)


class Module:
    """A module of the package: its dotted name, and its syntax tree."""

    def __init__(self, path):
        parts = ("rvlook", *path.relative_to(PACKAGE).with_suffix("").parts)
        self.name = ".".join(parts[:-1] if parts[-1] == "__init__" else parts)
        self.tree = ast.parse(path.read_text(encoding="utf-8"), str(path))

    def functions(self):
        """Returns all functions, also methods and inner functions."""
        return [it for it in ast.walk(self.tree) if isinstance(it, FUNCTIONS)]

    def place(self, node):
        return "%s:%d %s" % (self.name, node.lineno, getattr(node, "name", ""))


MODULES = [Module(path) for path in sorted(PACKAGE.rglob("*.py"))]
NAMES = {it.name for it in MODULES}


def is_type_checking(node):
    """Returns whether a node is `if TYPE_CHECKING:`, whose body is not run."""
    return isinstance(node, ast.If) and isinstance(node.test, ast.Name) and node.test.id == "TYPE_CHECKING"


def imports_in(node, is_inside=False):
    """Yields each import that is run, and whether it is inside a function."""
    for it in ast.iter_child_nodes(node):
        if isinstance(it, (ast.Import, ast.ImportFrom)):
            yield it, is_inside
        elif not is_type_checking(it):
            yield from imports_in(it, is_inside or isinstance(it, FUNCTIONS))


def imported_names(node):
    """Returns the dotted names that an import statement imports."""
    if isinstance(node, ast.Import):
        return [it.name for it in node.names]
    return ["%s.%s" % (node.module, it.name) for it in node.names]


def imported_modules(module):
    """Returns the modules of the package that a module imports."""
    names = [name for node, _ in imports_in(module.tree) for name in imported_names(node)]
    return {it for name in names for it in (name, name.rpartition(".")[0]) if it in NAMES and it not in ("rvlook", module.name)}


def subpackage_of(name):
    return (name.split(".") + [""])[1]


def run_tool(*words):
    """Runs a tool of the distribution in the root of the repository; skips the test if it is not installed."""
    path = shutil.which(words[0], path="/usr/bin") or shutil.which(words[0])
    if path is None:
        pytest.skip("%s is not installed" % words[0])
    done = subprocess.run([path, *words[1:]], cwd=ROOT, capture_output=True, text=True, check=False)
    assert done.returncode == 0, done.stdout + done.stderr


def test_mypy_finds_nothing(tmp_path):
    run_tool("mypy", "--config-file", "pyproject.toml", "--cache-dir", str(tmp_path))


def test_linter_finds_nothing():
    run_tool("flake8", "--isolated", "--max-line-length", "150", "python/rvlook", "tests/rvlook/test_static.py", "tests/rvlook/test_install.py",
             "tests/rvlook/test_release.py", "tests/peers", "tests/peers/run", "release")


def test_no_import_cycles():
    graph = {it.name: imported_modules(it) for it in MODULES}
    while graph:
        leaves = {name for name, imported in graph.items() if not imported & graph.keys()}
        assert leaves, "these modules import each other: %s" % ", ".join(sorted(graph))
        graph = {name: imported for name, imported in graph.items() if name not in leaves}


def test_subpackages_import_only_those_before_them():
    found = ["%s imports %s" % (module.name, it) for module in MODULES if module.name != "rvlook" for it in sorted(imported_modules(module))
             if ORDER.index(subpackage_of(it)) > ORDER.index(subpackage_of(module.name))]
    assert not found


def test_order_of_subpackages_is_documented():
    assert " ".join(ORDER[:-1]) in ast.get_docstring(next(it for it in MODULES if it.name == "rvlook").tree)


def test_no_imports_inside_functions():
    found = [module.place(node) for module in MODULES for node, is_inside in imports_in(module.tree) if is_inside
             and not {name.split(".")[0] for name in imported_names(node)} <= OPTIONAL]
    assert not found


def test_functions_have_at_most_six_parameters():
    """In `api`, keyword-only parameters do not count: the caller names each of them, and gives only those that it needs."""
    def count(module, it):
        arguments = it.args
        named = [] if subpackage_of(module.name) == "api" else arguments.kwonlyargs
        return sum(map(len, (arguments.posonlyargs, arguments.args, named))) + bool(arguments.vararg) + bool(arguments.kwarg)

    assert not [module.place(it) for module in MODULES for it in module.functions() if count(module, it) > MOST_PARAMETERS]


def test_functions_are_at_most_40_lines():
    assert not [module.place(it) for module in MODULES for it in module.functions() if it.end_lineno - it.lineno >= MOST_LINES]


def test_public_functions_have_docstrings():
    assert not [module.place(it) for module in MODULES for it in public_in(module.tree) if not ast.get_docstring(it)]


def is_overload(node):
    """Returns whether a function is a signature of an overloaded one, without a body."""
    return any(isinstance(it, ast.Name) and it.id == "overload" for it in node.decorator_list)


def public_in(node):
    """Yields the functions and methods whose names begin with no underscore, without those inside functions and overloads."""
    for it in ast.iter_child_nodes(node):
        if isinstance(it, FUNCTIONS):
            if not it.name.startswith("_") and not is_overload(it):
                yield it
        else:
            yield from public_in(it)
