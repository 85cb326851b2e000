"""`conform` finds each mutant of the example monitor that has an effect below M, by the directed script that its entry names.

The gate compares two thirds of the mutants over one script each. `pytest --all-mutants` compares all of them, and those without an effect over
every script.
"""
import pytest

from support.monitor_mutants import MUTANTS
from support.monitors import first_different, setup_of, variant

GATE = [it for number, it in enumerate(MUTANTS) if number % 3 != 2 and not it.reason]
CONFORMING = {  # rewrites that S and U cannot distinguish, although PMP entries or memory of the monitor differ
    "another entry for the host": [("pmp.c", "HOST_ENTRY = 15", "HOST_ENTRY = 13"),
                                   ("pmp.c", "    if (world == HOST) {\n", "    if (world == HOST && enclaves[12].state == FREE) {\n"),
                                   ("pmp.c", "    } else if (enclaves[world]", "    } else if (world == HOST) {\n        address[15] = 0xffffffff;\n"
                                    "        cfg[15] = OPEN;\n    } else if (enclaves[world]")],
    "TOR for NAPOT": [("pmp.c", "    address[0] = napot((struct block){RAM_BASE, MONITOR_SIZE});\n    cfg[0] = CLOSED;\n",
                       "    address[0] = (RAM_BASE + (unsigned)MONITOR_SIZE) >> 2;\n    cfg[0] = 0x08;\n")],
    "no wipe at exit": [("monitor.c", "state == EXITED_HERE ? (struct context){{0}, 0, 0, 0, 0, 0, 0, 0} : current", "current")]}


@pytest.fixture(autouse=True)
def program(bench, monkeypatch):
    """Runs the built program in this process."""
    monkeypatch.setenv("RVBENCH", bench)


@pytest.fixture(scope="session")
def all_mutants(request):
    return request.config.getoption("--all-mutants")


def pytest_generate_tests(metafunc):
    """Selects the mutants that are compared."""
    if "mutant" in metafunc.fixturenames:
        chosen = MUTANTS if metafunc.config.getoption("--all-mutants") else GATE
        metafunc.parametrize("mutant", chosen, ids=[it.name for it in chosen])


def test_mutant_is_found_or_has_no_effect(mutant, tmp_path):
    setup = setup_of(variant(tmp_path, [(mutant.file, mutant.old, mutant.new)]))
    found = first_different(setup, mutant.script)
    assert bool(found) != bool(mutant.reason), found and found.differences


def test_at_least_sixty_mutants_are_compared_by_default():
    assert len(GATE) >= 60


def test_names_and_changes_of_mutants_are_distinct():
    assert len({it.name for it in MUTANTS}) == len({(it.file, it.old, it.new) for it in MUTANTS}) == len(MUTANTS)
    assert all(bool(it.script) != bool(it.reason) for it in MUTANTS)


@pytest.mark.parametrize("name", CONFORMING)
def test_conforming_rewrite_is_alike(all_mutants, name, tmp_path):
    setup = setup_of(variant(tmp_path, CONFORMING[name]))
    found = first_different(setup, part=slice(None, None, 1 if all_mutants else 4))
    assert found is None, found.name


def test_other_entries_differ_only_under_exact(tmp_path):
    setup = variant(tmp_path, CONFORMING["TOR for NAPOT"])
    assert first_different(setup_of(setup), "reset") is None
    found = first_different(setup_of(setup, exact=True), "reset")
    assert [it.name for it in found.differences] == ["PMP entry 0"]
