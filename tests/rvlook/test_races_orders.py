"""`races` on random programs: against all schedules over a model, against a search without partial-order reduction, and against random schedules
on the program. `--all-orders` runs more programs, and all schedules on the program itself."""
import itertools
import random
import subprocess

import pytest
from support.race_programs import DATA, KINDS, WINDOW, program_of
from support.race_runs import OUTCOME, REGISTERS, WORDS, Races, differences, model_values, values_of

from models.all_orders import Orders

INTERLEAVINGS = {6: 924, 8: 12870}
WALKS = 3  # random orders of a program
HAS_TIMER = ("timer", "timers")
SEEDS = {  # for each argument the programs that are always taken, and those that --all-orders adds
    "orders_seed": ((0, 3, 4, 37), range(10 * len(KINDS))), "plain_seed": ((101, 102, 103), range(100, 100 + 5 * len(KINDS))),
    "bench_seed": ((), [it for it in range(2 * len(KINDS)) if KINDS[it % len(KINDS)][0] not in HAS_TIMER])}


def pytest_generate_tests(metafunc):
    """Takes more programs with --all-orders."""
    is_long = metafunc.config.getoption("all_orders")
    for name, (few, more) in SEEDS.items():
        if name in metafunc.fixturenames:
            metafunc.parametrize(name, [*few, *(it for it in more if is_long and it not in few)])


@pytest.fixture(scope="module")
def races(objects):
    return Races(objects)


def written(folder, program):
    path = folder / "program"
    path.write_text(program.text(), encoding="ascii")
    return path


def check_orders(races, bench, folder, seed, steps=None):
    """Compares the final states with those of all schedules, and for each the fewest preemptions and timer interrupts."""
    program = program_of(bench, seed)
    count = steps or program.steps
    orders = Orders(program.image, program.script, count, program.timers, model_values)
    if not program.timers:
        assert orders.count == INTERLEAVINGS[count]
    found, last = races(written(folder, program), "--limit", str(count), "--timer", str(program.timers), *OUTCOME)
    mine = {values_of(it): (it["preemptions"], it["timers"]) for it in found}
    assert differences(mine, {it: cost for it, (cost, _) in orders.found.items()}) == {}
    assert last["complete"] and last["schedules"] == sum(it["schedules"] for it in found)


def test_final_states_are_those_of_all_schedules(races, bench, tmp_path, orders_seed):
    check_orders(races, bench, tmp_path, orders_seed)


def test_final_states_of_cut_runs_are_those_of_all_orders(races, bench, tmp_path):
    check_orders(races, bench, tmp_path, 2, steps=6)


def walk(bench, program, rng):
    """Runs one random schedule on the program. Returns the values if both harts have halted, which their last steps show; or None."""
    digits = "".join(rng.choice("01") * rng.randrange(1, 6) for _ in range(40))
    lines = [*program.script, *("sched " + digits[at:at + 64] for at in range(0, len(digits), 64)), "sched " + "01" * 32, "sched 01", "sched 01",
             "mem %x 16" % DATA, "mem %x 16" % WINDOW, "enclaves", "hart 0", "regs", "hart 1", "regs"]
    done = subprocess.run([bench, "run", *WORDS], input=program.text().split("--\n")[0] + "--\n" + "\n".join(lines) + "\n",
                          capture_output=True, text=True, check=True).stdout.splitlines()
    first = next(n for n, it in enumerate(done) if it.startswith("%08x:" % DATA))
    if done[first - 1].split(" 1 ", 1) != done[first - 3].split(" 1 ", 1) or done[first - 2] != done[first - 4]:
        return None
    rest = done[first + 2:]
    table = tuple(sorted(("e" + it.split()[1], it.split()[2]) for it in rest if it.startswith("enclave")))
    values = [int(it.split("=")[1], 16) for it in rest if it.startswith("x")]
    registers = tuple(values[32 * hart + number] for hart in (0, 1) for number in REGISTERS)
    return tuple(it.split(": ")[1].replace(" ", "") for it in done[first:first + 2]) + (table, registers)


def test_final_states_are_those_without_reduction(races, bench, tmp_path, plain_seed):
    """The final states of random schedules are among them."""
    program = program_of(bench, plain_seed)
    path, words = written(tmp_path, program), ("--timer", str(program.timers), *OUTCOME)
    (reduced, last), (plain, _) = races(path, *words), races(path, *words, "--plain")
    one, other = ({(values_of(it), tuple(of["how"] for of in it["harts"])): (it["preemptions"], it["timers"]) for it in them}
                  for them in (reduced, plain))
    assert differences(one, other) == {}
    known = {values_of(it)[:4] for it in reduced if "ended" == it["harts"][0]["how"] == it["harts"][1]["how"]}
    rng = random.Random(plain_seed)
    for _ in range(WALKS if last["complete"] else 0):
        end = walk(bench, program, rng)
        assert end is None or end in known


def test_memory_is_that_of_all_orders_on_the_bench(races, bench, tmp_path, bench_seed):
    program, wanted = program_of(bench, bench_seed), set()
    image = program.text().split("--\n")[0] + "--\n"
    for places in itertools.combinations(range(16), 8):
        digits = "".join("0" if it in places else "1" for it in range(16))
        lines = [*program.script, "sched " + digits, "mem %x 16" % DATA, "mem %x 16" % WINDOW]
        done = subprocess.run([bench, "run", *WORDS], input=image + "\n".join(lines) + "\n", capture_output=True, text=True, check=True)
        wanted.add(tuple(it.split(": ")[1].replace(" ", "") for it in done.stdout.splitlines()[-2:]))
    found, _ = races(written(tmp_path, program), "--limit", "8", *OUTCOME)
    assert {values_of(it)[:2] for it in found} == wanted
