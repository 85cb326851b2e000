"""Runs `races` for its tests: the outcome, and the expected status of the final states."""
from support.race_programs import DATA, WINDOW

WORDS = ("--monitor", "--harts", "2", "--ram", "196608")
REGISTERS = {5: "t0", 6: "t1", 7: "t2", 10: "a0"}
OUTCOME = ("--outcome", "%x:16" % DATA, "--outcome", "%x:16" % WINDOW, "--outcome", "enclaves",
           *(it for hart in (0, 1) for name in REGISTERS.values() for it in ("--outcome", "%d.%s" % (hart, name))))
ENDS = {"ended", "unfinished", "not searched"}  # of a hart: no finding


def status_of(found):
    """Returns the expected status of objects without --forbid: 1 for more than one final state, or a hart that does not end; 3 for an incomplete
    search."""
    ends = [it for it in found if it["object"] == "final_state"]
    hows = {hart["how"] for it in ends for hart in it["harts"]}
    return 1 if len(ends) > 1 or hows - ENDS else 3 if "unfinished" in hows or not found[-1]["complete"] else 0


class Races:
    """Runs `races` on a file; gives its final states and its last object."""

    def __init__(self, objects):
        self.objects = objects

    def __call__(self, path, *words, status=None, harts=WORDS):
        ended, found = self.objects("races", *harts, path, *words)
        assert found, "races %s ends with status %d" % (" ".join(words), ended)
        wanted = status if status is not None else 0 if "--forbid" in words else status_of(found)
        assert ended == wanted, "races %s ends with status %d" % (" ".join(words), ended)
        return [it for it in found if it["object"] == "final_state"], found[-1]


def values_of(end):
    """Returns the values of a final state in the form of `model_values`."""
    values = end["values"]
    registers = tuple(values["%d.%s" % (hart, name)] for hart in (0, 1) for name in REGISTERS.values())
    return (values["%x:16" % DATA], values["%x:16" % WINDOW], tuple(sorted(values["enclaves"].items())), registers,
            tuple(it["pc"] for it in end["harts"]))


def model_values(harts):
    """Returns the values of the harts of the model."""
    one = harts[0]
    return (one.part(DATA, 16).hex(), one.part(WINDOW, 16).hex(),
            tuple(sorted(("e%d" % slot, it.state) for slot, it in one.table.items())),
            tuple(it.regs[number] for it in harts for number in REGISTERS), tuple("%08x" % it.pc for it in harts))


def differences(found, wanted):
    """Returns the first few final states that differ: the found and the expected one."""
    keys = [it for it in {**found, **wanted} if found.get(it) != wanted.get(it)]
    return {it: (found.get(it), wanted.get(it)) for it in keys[:2]}
