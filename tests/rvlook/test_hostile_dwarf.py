"""Small ELF files whose debugging information takes time and memory: one message, an end in time, and the run itself."""
import pytest
from support import dwarf_files as files
from support.hostile import check, run

from conftest import EXAMPLES
from rvlook.image.budget import Budget, BudgetExceeded, budget_of, spend

ADDS = bytes.fromhex((EXAMPLES / "enclaves" / "adds" / "image").read_text())
SECONDS, MEMORY = 45, 500 << 20  # of processor time, and bytes
MILLION = 1 << 20
EXCEEDED = b"its symbols and debugging information take more than 500000 entries, 5 seconds or 256 MiB\n"
LARGE = {
    "a structure with members of its own type": files.recursive(ADDS),
    "the same in DWARF 5": files.recursive(ADDS, 5),
    "a million compressed lines": files.many_lines(ADDS, MILLION),
    "sixty million compressed lines": files.many_lines(ADDS, 60 * MILLION),
    "line tables with a common end": files.shared_lines(ADDS, 500, MILLION),
    "units with the same ranges": files.shared_ranges(ADDS, 2000, 100000),
    "a million entries": files.many_entries(ADDS, MILLION),
    "ten million entries": files.many_entries(ADDS, 10 * MILLION),
    "units without end": files.many_units(ADDS, MILLION),
    "a million symbols": files.many_symbols(ADDS, MILLION),
    "abbreviations with many attributes": files.wide_abbreviation(ADDS, 100000, 100000),
    "long names": files.long_string(ADDS, 10 * MILLION, 100000)}
OTHER = {"deeply nested blocks": files.deep(ADDS, 60000)}
READERS = {"trace": ["trace", "--to", "30"], "page": ["page"], "window": ["window"], "touch --lcov": ["touch", "--lcov"],
           "inputs": ["inputs", "--runs", "3"]}
OF_VARIABLES, OF_LINES = ("page", "window", "inputs"), ("trace", "touch --lcov")
TRIED = {  # the readers of each file, which need what it has too much of
    "a structure with members of its own type": ("window", "inputs"), "the same in DWARF 5": ("window",),
    "a million compressed lines": ("trace", "page", "touch --lcov"), "a million entries": ("trace", "window", "page", "inputs"),
    "abbreviations with many attributes": ("trace",), "long names": ("trace", "window")}


@pytest.fixture(scope="module")
def path_of(tmp_path_factory):
    """Writes a file once; returns its path."""
    folder = tmp_path_factory.mktemp("large")

    def path(what):
        it = folder / (what.replace(" ", "_") + ".elf")
        if not it.exists():
            it.write_bytes({**LARGE, **OTHER}[what])
        return it
    return path


def limited(bench, path, reader):
    """Runs a reader of a file; returns how it ended, which was in time."""
    done = run(bench, *READERS[reader], "--monitor", path, "--steps", "3000", seconds=SECONDS)
    check(done)
    assert done.status in (0, 1, 3) or reader == "touch --lcov" and done.status == 2, done.errors
    assert done.memory < MEMORY
    return done


@pytest.mark.parametrize("what, reader", [(what, reader) for what in LARGE for reader in TRIED.get(what, ("trace", "window"))])
def test_file_that_describes_too_much_ends_in_time(bench, path_of, what, reader):
    assert EXCEEDED in limited(bench, path_of(what), reader).errors


@pytest.mark.parametrize("reader", ["trace", "page", "window"])
def test_deeply_nested_blocks_are_read(bench, path_of, reader):
    assert limited(bench, path_of("deeply nested blocks"), reader).errors.count(b"warning") == 0


@pytest.mark.parametrize("what", ["a structure with members of its own type", "sixty million compressed lines"])
def test_run_of_such_a_file_is_that_of_the_image(bench, path_of, tmp_path, what):
    plain = tmp_path / "plain.elf"
    plain.write_bytes(ADDS)
    words = ("trace", "--monitor", "--json", "--steps", "300")
    steps = [[line for line in run(bench, *words, it).output.split(b"\n") if b'"why"' in line] for it in (plain, path_of(what))]
    assert steps[0] == steps[1] and len(steps[0]) == 1


@pytest.mark.parametrize("attribute, form, data", [
    (files.CONSTANT, files.UNSIGNED, b"\xff" * 3000 + b"\1"),
    (files.LOCATION, files.EXPRESSION, files.uleb(3002) + b"\x91" + b"\x81" * 3000 + b"\1"),
    (files.LOCATION, files.EXPRESSION, files.uleb(3002) + b"\x11" + b"\x81" * 3000 + b"\1")], ids=["constant", "offset", "location"])
@pytest.mark.parametrize("reader", READERS)
def test_number_of_thousands_of_digits_is_no_variable(bench, tmp_path, attribute, form, data, reader):
    path = tmp_path / "number.elf"
    path.write_bytes(files.of_number(ADDS, attribute, form, data))
    done = run(bench, *READERS[reader], "--monitor", path, "--steps", "3000")
    check(done)
    assert done.status in (0, 1, 3)


def test_error_with_a_number_of_thousands_of_digits_is_named_by_its_class(tmp_path, capsys):
    """pyelftools looks for an abbreviation of this number."""
    from rvlook.image.symbols import warn_once
    from rvlook.image.variables import variables_of
    path = tmp_path / "number.elf"
    path.write_bytes(files.debugged(ADDS, b"\xff" * 3000 + b"\1"))
    warn_once.cache_clear()
    assert not variables_of(str(path), None).fixed
    assert capsys.readouterr().err == "rvlook: warning: no variables from '%s': pyelftools cannot read it (KeyError)\n" % path


def test_variables_within_the_budget_are_read(tmp_path):
    """The same generator, with members that end."""
    from rvlook.image.variables import variables_of
    path = tmp_path / "small.elf"
    path.write_bytes(files.of_number(ADDS, files.LOCATION, files.EXPRESSION, b"\2\x91\x70"))
    (found,) = variables_of(str(path), None).locals
    assert (found.first, found.member.name, found.member.at, found.member.size) == (files.FIRST, "v", -16, 4)


def test_budget_is_shared_by_all_readers_of_a_file():
    data = b"a file of this test"
    with budget_of(data).limits():
        spend(300000)
    with pytest.raises(BudgetExceeded), budget_of(bytes(bytearray(data))).limits():
        spend(300000)
    with budget_of(b"another file").limits():
        spend(300000)


def test_file_that_is_opened_again_has_a_new_budget(tmp_path):
    """A process, such as that of pytest, may open one file many times."""
    from rvlook.image.files import image_of
    path = tmp_path / "small.elf"
    path.write_bytes(files.of_number(ADDS, files.LOCATION, files.EXPRESSION, b"\2\x91\x70"))
    for _ in range(3):
        data = image_of(str(path)).data
        assert budget_of(data).entries > 0
        budget_of(data).entries = -1


def test_budget_bounds_time_and_memory():
    budget = Budget()
    budget.seconds = 0.2
    with pytest.raises(BudgetExceeded), budget.limits():
        while True:
            pass
    with pytest.raises(BudgetExceeded), Budget().limits():
        bytearray(1 << 30)


@pytest.mark.parametrize("cause", [BudgetExceeded, MemoryError])
def test_budget_that_a_parser_hides_behind_an_error_of_its_own_is_exceeded(cause):
    budget = Budget()
    with pytest.raises(BudgetExceeded), budget.limits():
        try:
            raise cause
        except Exception as error:
            raise ValueError(str(error))
    with pytest.raises(BudgetExceeded), budget.limits():
        pass


def test_other_error_in_a_budget_stays_what_it_is():
    budget = Budget()
    with pytest.raises(ValueError, match="^damaged$"), budget.limits():
        raise ValueError("damaged")
    with budget.limits():
        spend()


@pytest.mark.parametrize("segments", [60000])
def test_measure_of_overlapping_segments_ends(bench, tmp_path, segments):
    """Each of the segments is the whole file."""
    import struct
    header = bytearray(ADDS[:52])
    struct.pack_into("<I", header, 28, 52)
    struct.pack_into("<HHHHH", header, 42, 32, segments, 40, 0, 0)
    size = 51 + 32 * segments
    path = tmp_path / "segments.elf"
    path.write_bytes(bytes(header) + struct.pack("<8I", 1, 1, 0x80020000, 0x80020000, size, size, 7, 4) * segments)
    done = run(bench, "measure", path, "80020000", "1000", "0", "0", "80020000", seconds=SECONDS)
    check(done)
    assert done.status == 2 and b"cannot read" in done.errors and EXCEEDED in done.errors
