"""Replays findings on rvbench. A finding that a replay does not show is not reported: the search is then not to be trusted."""
from __future__ import annotations

from typing import TYPE_CHECKING

from rvlook.symbolic.evaluation import evaluate
from rvlook.symbolic.replay import FURTHER_STEPS, observed

if TYPE_CHECKING:
    from rvlook.symbolic.record import Counterexample
    from rvlook.symbolic.replay import Replayed
    from rvlook.symbolic.search import Search

PAIRS = ("pc", "address", "operand", "window", "answer")  # kinds of findings with two secrets, each of which is replayed
CONFIRMED = "confirmed"  # how the result of `confirm` begins if the replay shows the finding
DIFFERS = "NOT CONFIRMED: "  # how it begins if the replay does not show the finding


def confirm(search: Search, example: Counterexample) -> str:
    """Replays a finding. Returns a text about what the replay shows, or an empty text if the time is over before the end of the replay."""
    replayed = search.replayer.go(example.pcs, example, example.one, is_whole=False, is_endless=example.what == "stuck")
    example.log = replayed.log
    if replayed.is_late:
        return ""
    if replayed.wrong:
        return DIFFERS + replayed.wrong
    if example.what == "stuck":
        return confirm_endless(replayed)
    if example.what in PAIRS and example.two is not None:
        return confirm_pair(search, example, replayed)
    if example.what == "fault" and example.text.startswith("traps") and replayed.trap == "-":
        return DIFFERS + "the step does not trap"
    if example.address is not None:
        accessed_address = observed(search.world.word_at(example.pc), replayed.regs)[0]
        predicted_address = evaluate(example.address, example.one)
        if accessed_address != predicted_address:
            return DIFFERS + "the access is at %08x, predicted %08x" % (accessed_address, predicted_address)
    return CONFIRMED


def confirm_endless(replayed: Replayed) -> str:
    """Returns what the replay of an endless loop shows: whether the registers repeat after many steps."""
    if replayed.is_again:
        return CONFIRMED + ": after %d more steps the registers repeat" % FURTHER_STEPS
    return DIFFERS + "the registers do not repeat"


def confirm_pair(search: Search, example: Counterexample, one: Replayed) -> str:
    """Replays a finding with its second secret. `one` is the replay with the first secret. Returns what both replays show."""
    assert example.two is not None
    second = example.copy_without_stores()
    two = search.replayer.go(example.pcs, second, example.two, is_whole=False)
    if two.is_late:
        return ""
    if two.pcs != one.pcs:
        return CONFIRMED + ": the runs differ before the finding"
    if two.wrong and example.what != "answer":
        return DIFFERS + two.wrong
    if (one.after, one.world, one.trap) != (two.after, two.world, two.trap):
        return CONFIRMED
    word = search.world.word_at(example.pc)
    if one.regs and two.regs and observed(word, one.regs) != observed(word, two.regs):
        return CONFIRMED
    if example.text.startswith("the output of"):
        return CONFIRMED + ": the output is shown at its store"
    return DIFFERS + "both secrets give the same"
