"""The questions of `verify`, and the answer to each of them: PROVED, FOUND, NOT DECIDED or none found."""
from __future__ import annotations

from dataclasses import dataclass, field
from typing import Dict, List, Sequence, Tuple, TYPE_CHECKING

from rvlook.symbolic.fields import CODE_CHANGED, FINDING_REPORTED
from rvlook.symbolic.paths import MAX_FOLLOWED_VALUES

if TYPE_CHECKING:
    from rvlook.symbolic.record import Counterexample
    from rvlook.symbolic.search import Search

# Verdicts (docs/VERIFY.md).
PROVED = "PROVED"
FOUND = "FOUND"
NOT_DECIDED = "NOT DECIDED"
NONE_FOUND = "none found"
MIN_STATE_ACTIVATIONS = 3  # from this number of activations on, the question `state` is asked
QUESTIONS: Dict[str, Tuple[str, Sequence[str]]] = {  # by name: the statement, and the kinds of findings and doubts that belong to it
    "memory": ("no access leaves its object, no jump has a target that the host chooses, no saved return address is overwritten",
               ("load", "store", "return", "jump", "value", "branch")),
    "traps": ("no step of the enclave faults", ("fault",)),
    "assertions": ("each check of the enclave holds", ("assertion",)),
    "returns": ("no path goes on for ever", ("stuck",)),
    "double fetches": ("no byte of the window is loaded twice, unless through a pointer of the host", ("reread",)),
    "time": ("pc, addresses and operands of divisions do not depend on the secret", ("pc", "address", "operand")),
    "outputs": ("window and answers depend on the secret only where it is public", ("window", "answer", "raw")),
    "checks": ("the secret never comes out for another value of the bytes that the host must know", ("check",)),
    "remains": ("nothing in the region or the registers depends on the secret at a stop", ("remains",)),
    "influence": ("what comes out depends on each byte of the secret that must matter", ("influence",)),
    "state": ("no older state is accepted as the latest", ("older",))}
PATH_DOUBTS = ("branch", "value")  # kinds of doubts about which paths exist
LIMITS = {  # by question: what its statement does not cover
    "memory": "; what it cannot know about the accesses of --allow is taken to be right",
    "state": ", in the activations of the run itself; use --each for others"}
REASONS = {  # by the reason for which a path has ended: why it was not followed to its end
    "any_bytes": "any_bytes names bytes outside the region",
    CODE_CHANGED: "a path reaches code that changes",
    "outside": "a path leaves the region",
    "steps": "a path is too long",
    "sp": "the stack pointer depends on the host"}


@dataclass
class Answer:
    """The answer to a question."""
    name: str  # the name of the question
    verdict: str
    title: str  # the statement
    findings: List[Counterexample] = field(default_factory=list)  # the confirmed findings
    places: List[str] = field(default_factory=list)  # where the question is not decided, and why


def questions_asked(search: Search) -> List[str]:
    """Returns the names of the questions that the options of a search ask, in the order of QUESTIONS."""
    options = search.options
    has_secret = bool(search.world.secret)
    is_asked = {  # the other questions are always asked
        "assertions": search.world.has_checks,
        "time": has_secret,
        "outputs": has_secret,
        "checks": bool(search.world.check),
        "remains": has_secret and options.wiped,
        "influence": bool(options.must_matter),
        "state": search.activations >= MIN_STATE_ACTIVATIONS}
    return [name for name in QUESTIONS if is_asked.get(name, True)]


def reasons_not_covered(search: Search) -> List[str]:
    """Returns why not all paths were covered; an empty list if they were."""
    place = search.world.place
    reasons = ["Ctrl-C ended the search"] if search.is_cut else []
    for count, what in ((search.not_replayed, "paths"), (search.not_confirmed, "findings")):
        if count:
            reasons.append("the time is over before %d %s were replayed" % (count, what))
    if not search.has_begun:
        reasons.append("nothing was explored")
    if search.merge_queue:
        reasons.append("%d merged states are left" % len(search.merge_queue))
    if search.queue:
        reasons.append("%d paths are left" % len(search.queue))
    if search.has_begun and (search.is_outgrown or not search.loops.is_examined):
        reasons.append("the time is over before the ends of loops were examined")
    for pc in search.cut_loops:
        reasons.append("the loop at %s is followed for %d rounds" % (place(pc), search.options.bound))
    for pc in sorted({pc for what, pc in search.undecided if what in PATH_DOUBTS}):
        reasons.append("it is not known where paths go on at %s" % place(pc))
    for pc in search.not_assumed:
        reasons.append("the run itself does not fulfil the assumption at %s" % place(pc))
    for pc in search.left_after_leak:
        reasons.append("after the leak at %s other secrets are left out" % place(pc))
    for pc in search.words_with_many_values:
        reasons.append("the word at %s has more than %d values" % (place(pc), MAX_FOLLOWED_VALUES))
    for pc in search.assumed_inside:
        reasons.append("after the finding at %s the access stays inside" % place(pc))
    for pc in sorted(search.changed_code):
        reasons.append("code changes, at %s" % place(pc))
    for pc in sorted(search.stores_to_given):
        reasons.append("%s stores to bytes of --given" % place(pc))
    for why, text in REASONS.items():
        if search.end_counts[why]:
            reasons.append("%s (%d paths)" % (text, search.end_counts[why]))
    if search.end_counts[FINDING_REPORTED]:
        reasons.append("%d paths end at a finding" % search.end_counts[FINDING_REPORTED])
    return reasons


def untrusted(search: Search) -> List[str]:
    """Returns which replays differ from what the search predicts; an empty list if none does."""
    reasons = ["the replay of %s" % text for text in search.wrong_replays]
    for example in search.findings.values():
        if example.answer and not example.is_confirmed:
            reasons.append("the replay of the finding %s at %s: %s" % (example.what, search.world.place(example.pc), example.answer))
    return reasons


def answers(search: Search) -> List[Answer]:
    """Returns the answer to each question."""
    has_all_paths = not reasons_not_covered(search) and not untrusted(search)
    answers = []
    for name in questions_asked(search):
        title, kinds = QUESTIONS[name]
        is_limited = (name == "memory" and bool(search.allowed)) or (name == "state" and search.merger is not None)
        answer = Answer(name, verdict=PROVED if has_all_paths else NONE_FOUND, title=title + LIMITS[name] if is_limited else title)
        findings = [example for example in search.findings.values() if example.what in kinds]
        answer.findings = sorted((example for example in findings if example.is_confirmed), key=lambda example: (example.pc, example.what))
        answer.places = undecided_places(search, kinds)
        answer.places += ["%s at %s: not replayed" % (example.what, search.world.place(example.pc)) for example in findings if not example.answer]
        if name == "returns":
            answer.places += ["the end of the loop at %s" % search.world.place(pc) for pc in search.loops.endless()]
        if name == "influence":
            answer.places += missing_influences(search)
        if answer.findings:
            answer.verdict = FOUND
        elif answer.places:
            answer.verdict = NOT_DECIDED
        answers.append(answer)
    return answers


def undecided_places(search: Search, kinds: Sequence[str]) -> List[str]:
    """Returns the places at which questions of some kinds are not decided, and why, as texts in the order of the pcs."""
    texts = []
    for (what, pc), count in sorted(search.undecided.items(), key=lambda item: (item[0][1], item[0][0])):
        if what in kinds and (what, pc) not in search.findings:
            why = "; ".join(sorted(search.reasons.get((what, pc), ())))
            place = search.world.place(pc)
            texts.append("%s at %s%s, %d times" % (what, place, ": " + why if why else "", count))
    return texts


def missing_influences(search: Search) -> List[str]:
    """Returns a text about the bytes of --must-matter on which no output is known to depend, in a list. The list is empty if there are none."""
    missing = [at for at in search.world.must_matter if "k_%08x" % at not in search.influencing_bytes]
    return ["no output is known to depend on %d bytes, the first at %08x" % (len(missing), missing[0])] if missing else []


def is_complete(search: Search) -> bool:
    """Returns whether all questions are answered for all paths."""
    if search.undecided or search.loops.endless():
        return False
    if search.options.must_matter and missing_influences(search):
        return False
    return not reasons_not_covered(search) and not untrusted(search)


def open_texts(search: Search) -> List[str]:
    """Returns why a result is not COMPLETE; an empty list if it is. An option --allow that no access needs is a reason: it may name a wrong place."""
    reasons = [*reasons_not_covered(search), *untrusted(search)]
    if not reasons and not is_complete(search):
        reasons = ["places are not decided"]
    return reasons + unused_options(search)


def covered(search: Search) -> str:
    """Returns a text about what a complete search has covered: the paths, inputs, secrets and activations, and what it takes to be right."""
    if search.merger:  # the states of stops are merged
        number = "any number of activations"
    else:
        number = "1 activation" if search.activations == 1 else "%d activations" % search.activations
    given = ", with the bytes of --given" if search.world.given else ""
    calm = ", for a host that waits while the enclave runs" if search.options.calm else ""
    secrets = ", all secrets" if search.world.secret else ""
    types = "" if search.world.has_types else "; objects are known by symbols alone, without types"
    assumption_places = ", ".join(search.world.place(pc) for pc in sorted(search.assumptions))
    assumed = ", if the assumptions hold at %s" % assumption_places if assumption_places else ""
    allowed = ", if the allowed accesses are right: %s" % "; ".join(allowed_texts(search)) if search.allowed else ""
    copy_places = ", ".join(search.world.place(pc) for pc in sorted(search.declared_copies))
    shown = ", if copies of the secret may come out at %s" % copy_places if copy_places else ""
    return "%sall paths, all inputs%s%s, %s%s%s%s%s%s" % (limits(search), secrets, given, number, calm, assumed, allowed, shown, types)


def allowed_texts(search: Search) -> List[str]:
    """Returns a text about each access that only --allow makes right, with what is not known about the access."""
    return ["%s (%s)" % (search.world.place(pc), ", ".join(sorted(reasons))) for pc, reasons in sorted(search.allowed.items())]


def unused_options(search: Search) -> List[str]:
    """Returns a text about each option --allow that a search did not need."""
    return ["--allow %s names no access that needs it" % text for text in search.world.allowed.unused(set(search.allowed))]


def limits(search: Search) -> str:
    """Returns a text about the lengths up to which a search has gone (--length); an empty text if there are none."""
    world = search.world
    places = ["%d at %s" % (world.lengths[at], world.symbols.name(at) or "%08x" % at) for at in sorted(search.lengths_met)]
    return "up to %s: " % " and ".join(places) if places else ""
