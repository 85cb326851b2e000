"""The pytest plugin (docs/TESTS.md): the fixtures `program`, `machine`, `enclave` and `constants`, the markers `program`, `schedules`, `interrupts`,
`finds_nothing` and `verified`, and the texts of failures."""
from __future__ import annotations

import os
from typing import Any, Dict, Iterator, List, Optional, Tuple

import pytest

from rvlook.api.building import build
from rvlook.api.failures import compared, findings_text, machine_rows
from rvlook.api.find import FINDERS
from rvlook.api.host import EnclaveHandle
from rvlook.api.machine import Machine
from rvlook.api.program import Constants, Program, load
from rvlook.errors import RvlookError
from rvlook.protocol.nearest import meant

MARKERS = (
    "program(path, **options): run the test over this program, an ELF file or a folder that examples/build builds; the options are those of load()",
    "schedules(*schedules): run the test once with each schedule of two harts: steps of a turn, digits, or 'seed N'",
    "interrupts(*every): run the test once with each number N: the timer interrupts the enclave before every Nth of its steps, None for never",
    "finds_nothing(finder, *arguments, **options): search instead of running the body; the test fails if the finder finds something",
    "verified(*secrets, **options): verify instead of running the body; the test fails unless the result is COMPLETE without findings")
SEARCHES = ("finds_nothing", "verified")  # markers that replace the body of a test
REPEATED = {"schedules": "schedule %s", "interrupts": "interrupt every %s"}  # markers that repeat a test, with the name of each repetition
FILES = {"conform": 1, "guard": 2}  # finders without a program, and how many arguments are files
SECTION = "rvbench"  # the heading of the state of a machine
LOADED: Dict[Tuple[object, ...], Program] = {}  # the loaded programs, by path and options
BUILT: Dict[str, str] = {}  # the ELF file of each folder


class Found(Exception):
    """Findings of a search. The text is the whole report of the failure."""


def pytest_addoption(parser: pytest.Parser) -> None:
    """Adds the options of the plugin."""
    parser.addini("rvlook_program", "the program of tests without the marker 'program'", default="program.elf")
    parser.getgroup("rvlook").addoption("--rvlook-scripts", metavar="DIR", default=".rvlook",
                                        help="write the inputs of rvbench that repeat failed runs to DIR (default: .rvlook)")


def pytest_configure(config: pytest.Config) -> None:
    """Declares the markers."""
    for marker in MARKERS:
        config.addinivalue_line("markers", marker)


def pytest_generate_tests(metafunc: pytest.Metafunc) -> None:
    """Passes the marker `program` of a function or class to the fixture, which otherwise has that of the module. Repeats a test for each argument of
    the markers `schedules` and `interrupts`."""
    definition = metafunc.definition
    if any(map(definition.get_closest_marker, SEARCHES)) and "program" not in metafunc.fixturenames:
        metafunc.fixturenames.append("program")
    marker_of_test, module = definition.get_closest_marker("program"), definition.getparent(pytest.Module)
    if marker_of_test and "program" in metafunc.fixturenames and not (module and module.get_closest_marker("program") is marker_of_test):
        metafunc.parametrize("program", [marker_of_test], ids=[os.path.basename(str(marker_of_test.args[0]))], indirect=True)
    for name, text in REPEATED.items():
        marker = definition.get_closest_marker(name)
        if marker and "machine" in metafunc.fixturenames:
            metafunc.fixturenames.append("rvlook_" + name)
            metafunc.parametrize("rvlook_" + name, marker.args, ids=["uninterrupted" if arg is None else text % arg for arg in marker.args])


def path_of(request: Any, path: str) -> str:
    """Returns the path of a file or folder, which is relative to the folder of the test file or to the root of the tests. A folder is built, and
    the path is that of its ELF file. Raises RvlookError if there is no such file or folder, or if the folder cannot be built."""
    for base in (str(request.path.parent), str(request.config.rootpath)):
        full_path = os.path.join(base, path)
        if os.path.isdir(full_path):
            return built(request, os.path.realpath(full_path))
        if os.path.exists(full_path):
            return full_path
    raise RvlookError("no program '%s' beside %s or in %s; build it with make, or name it by @pytest.mark.program(PATH)" % (
        path, request.path.name, request.config.rootpath))


def built(request: Any, folder: str) -> str:
    """Builds a folder by examples/build, once in a session; returns the ELF file. Raises RvlookError if the folder cannot be built."""
    if folder not in BUILT:
        name = os.path.basename(folder)
        BUILT[folder] = build(folder, request.getfixturevalue("tmp_path_factory").mktemp(name) / (name + ".elf"))
    return BUILT[folder]


@pytest.fixture(scope="module")
def program(request: pytest.FixtureRequest) -> Program:
    """The program that the marker `program` names, or else `rvlook_program` of pytest.ini. It is loaded once in a session."""
    marker = getattr(request, "param", None) or request.node.get_closest_marker("program")
    options = dict(marker.kwargs) if marker else {}
    path = path_of(request, marker.args[0] if marker else request.config.getini("rvlook_program"))
    key = (path, *sorted(options.items()))
    if key not in LOADED:
        LOADED[key] = load(path, **options)
    return LOADED[key]


@pytest.fixture
def machine(request: pytest.FixtureRequest, program: Program) -> Iterator[Machine]:
    """A machine at reset. The markers `schedules` and `interrupts` set its schedule and its interrupts."""
    given = request.node.callspec.params if hasattr(request.node, "callspec") else {}
    with program.start(given.get("rvlook_schedules"), given.get("rvlook_interrupts")) as machine:
        yield machine


@pytest.fixture
def enclave(machine: Machine) -> EnclaveHandle:
    """The enclave that the linker script names, created and not entered: the test is its host."""
    return machine.create()


@pytest.fixture
def constants(program: Program) -> Constants:
    """The enumeration constants of the sources."""
    return program.constants


# ---- searches

@pytest.hookimpl(tryfirst=True)
def pytest_pyfunc_call(pyfuncitem: pytest.Function) -> Optional[bool]:
    """Searches in place of the body of a test with the marker `finds_nothing` or `verified`. Raises Found if the search has a finding."""
    searches = [pyfuncitem.get_closest_marker(name) for name in SEARCHES]
    for marker in filter(None, searches):
        if marker.name == "verified":
            search(pyfuncitem, "verify", marker.args, **marker.kwargs)
        else:
            search(pyfuncitem, *marker.args, **marker.kwargs)
    return True if any(searches) else None


def search(item: Any, finder: str, *arguments: Any, **options: Any) -> None:
    """Runs a finder over the program of a test. Raises Found for findings, and fails the test if the search did not finish or checked nothing."""
    if finder not in FINDERS:
        raise RvlookError("no finder '%s'%s" % (finder, meant(finder, FINDERS, "the finders are " + ", ".join(FINDERS))))
    if finder in FILES:
        files, rest = arguments[:FILES[finder]], arguments[FILES[finder]:]
        findings = FINDERS[finder](*(path_of(item._request, name) for name in files), *rest, **options)
    else:
        findings = FINDERS[finder](item._request.getfixturevalue("program"), *arguments, **options)
    item.add_report_section("call", "output of " + finder, findings.report + ("" if findings else findings.notes))
    if findings:
        raise Found(findings_text(findings, folder_of(item), item.nodeid.split("/")[-1]))
    if findings.unfinished:
        raise Found("the search did not finish: %s" % findings.unfinished)
    if not findings.checks:
        raise Found("the search checked nothing; does the program run an enclave?")


# ---- failures

def folder_of(item: Any) -> str:
    """Returns the folder for the inputs of failed runs."""
    return str(item.config.getoption("--rvlook-scripts"))


def pytest_exception_interact(call: Any, report: Any) -> None:
    """Shortens the report of a search to its text."""
    if isinstance(call.excinfo.value, Found):
        report.longrepr = str(call.excinfo.value)


@pytest.hookimpl(hookwrapper=True)
def pytest_runtest_makereport(item: Any, call: Any) -> Iterator[Any]:
    """Adds to a failure where the machine is, and the command that repeats its run."""
    outcome: Any = yield
    report = outcome.get_result()
    machine_of_test = getattr(item, "funcargs", {}).get("machine")
    if report.when != "call" or not report.failed or not isinstance(machine_of_test, Machine):
        return
    try:
        rows = machine_rows(machine_of_test, folder_of(item), item.nodeid.split("/")[-1])
    except (RvlookError, OSError) as fault:  # the simulator may have ended, or the folder cannot be written
        rows = ["the state of the machine cannot be shown: %s" % fault]
    report.sections.append((SECTION, "\n".join(rows)))


def pytest_assertrepr_compare(op: str, left: Any, right: Any) -> Optional[List[str]]:
    """Explains a comparison that failed."""
    return compared(op, left, right)
