"""`trace` against the program, step by step; and `touch` against the accesses of `trace`."""
import pytest

from conftest import EXAMPLES, PROGRAMS, input_of

MONITOR = ("--monitor",)
SLICES = 4
LIMIT = ("--steps", "3000")  # some examples are endless
SHORT, HARTS = ("--monitor", *LIMIT), ("--monitor", "--harts", "2", *LIMIT)
COUNTED = {
    **{name: SHORT for name in ("enclaves/refused", "enclaves/timer", "enclaves/bug", "enclaves/at_rest", "attacks/timer", "attacks/window")},
    **{name: HARTS for name in ("enclaves/two_harts", "programs/race", "attacks/running_access", "attacks/running_race")},
    **{name: LIMIT for name in ("programs/timer", "programs/primes", "programs/elf", "programs/debugger", "programs/traps")}}
REFUSED = ("programs/traps",)  # a line of the script is refused: status 2


def steps_of(results, image, words, **options):
    return [it for it in results("trace", image, *words, **options) if it["object"] == "step"]


def reply_of(step):
    """The reply of the bench to the step."""
    trap = "%s:%s" % (step["trap"]["cause"], step["trap"]["value"]) if step["trap"] else "-"
    return "ran 1 pc=%s mode=%s world=%s why=done trap=%s" % (*map(step["next"].get, ("pc", "mode", "world")), trap)


@pytest.mark.parametrize("name, words", [("enclaves/timer", MONITOR), ("enclaves/refused", MONITOR), ("programs/elf", ())])
def test_each_step_has_the_reply_and_registers_of_the_bench(results, replies, name, words):
    image = EXAMPLES / name / "image"
    steps, registers = steps_of(results, image, words), {"x%d" % number: "00000000" for number in range(32)}
    lines = replies(image, words, ["step 1", "regs"] * len(steps))
    assert len(steps) > 5
    for place, step in enumerate(steps):
        registers.update(step["registers"])
        wanted = [reply_of(step), *("%s=%s" % it for it in registers.items()), "pc=" + step["next"]["pc"]]
        assert wanted == lines[34 * place:34 * place + 34], "step %d" % step["step"]


@pytest.mark.parametrize("part", range(SLICES))
def test_access_of_a_step_is_where_a_watch_stops_a_run(results, replies, part):
    """A watch on the first and the last byte stops a run at the step, and one on the adjacent bytes does not. After the step the memory
    has the value."""
    image = EXAMPLES / "enclaves" / "refused" / "image"
    steps = [it for it in steps_of(results, image, MONITOR) if it["touch"] and it["touch"]["done"]][:40]
    assert len(steps) >= 20
    for step in steps[part::SLICES]:
        number, first, width = step["step"], int(step["touch"]["address"], 16), step["touch"]["width"]
        value = replies(image, MONITOR, ["step %d" % number, "mem %x %d" % (first, width)])[-1].split(":")[1].split()
        assert "".join(reversed(value)) == step["touch"]["value"], "step %d" % number
        for at in (first - 1, first, first + width - 1, first + width):
            ran = replies(image, MONITOR, ["step %d" % (number - 1), "watch %x" % at, "run 1"])[-1]
            wanted = "watch:%08x" % at if first <= at < first + width else "done"
            assert ran.split("why=")[1].split()[0] == wanted, "step %d, byte %x" % (number, at)


def counted(touched):
    """The number of accesses, and the bytes, of each world, kind and end."""
    found = {}
    for it in touched:
        entry = found.setdefault((it["world"], it["kind"], it["done"]), [0, set()])
        entry[0] += it["count"]
        entry[1].update(range(int(it["first"], 16), int(it["last"], 16) + 1))
    return found


def access(step, kind, done, first, width):
    return {"world": step["world"], "kind": kind, "done": done, "first": "%x" % first, "last": "%x" % (first + width - 1), "count": 1}


def accesses_of(step):
    """The accesses of a step: its fetch, and its load or store."""
    trap, touch = step["trap"], step["touch"]
    if not (trap and trap["cause"].startswith("8")):
        is_refused = bool(trap) and trap["cause"] == "00000001" and trap["value"] == step["pc"]
        yield access(step, "x", not is_refused, int(step["pc"], 16), 4)
    if touch:
        yield access(step, touch["kind"], touch["done"], int(touch["address"], 16), touch["width"])


def check_counts(results, image, words, status):
    wanted = counted(it for step in steps_of(results, image, words, status=status) for it in accesses_of(step))
    found = counted(it for it in results("touch", image, *words, status=status) if it["object"] == "touched")
    assert wanted and found == wanted


@pytest.mark.parametrize("name", COUNTED)
def test_touch_counts_the_accesses_of_the_steps(results, name):
    check_counts(results, input_of(EXAMPLES / name), COUNTED[name], 2 if name in REFUSED else 0)


def test_touch_counts_the_accesses_after_a_script(results):
    folder = PROGRAMS.parent / "images" / "trace_script"
    check_counts(results, folder / "image", ("--script", folder / "script", "--steps", "50"), 2)
