"""The trial of a crate's mutants: the prover must reject each, and prove each equivalent one.

The unchanged crate is already proved. One check has all copies (copies.py) and the functions that they call: each mutant must be rejected,
each equivalent mutant proved, and so must every function that they call. Methods of traits cannot be copied: a second check has one mutant of
each such method, in place. A mutant that these checks did not reject is tried alone, in place, and so is every other that cannot be copied. A
mutant has also failed if it does not fit its file, does not compile, or is rejected only because a proof file names what it removed. A check
with a line of unknown form fails every mutant in it.

A written answer may reject a mutant for the shape of its goals, whatever it means. If the function has an equivalent mutant, which the same answers
accept, the rejection is one for the meaning. Without one, or if a proof file names what the mutant removed, it is reported as a rejection by shape,
which shows nothing about the contract.
"""
import time

from copies import Copy, can_be_copied, with_copies
from mutants import is_of_trait, mutated, place_of
from prover import Reason, Unknown


class Trial:
    """Mutants of one crate, all of them or some, tried by a prover; the result of each goes to the report."""

    def __init__(self, prover, mutants, report, with_equivalents):
        """`with_equivalents` has the file and the name of each function that has an equivalent mutant."""
        self.prover, self.folder, self.report, self.with_equivalents = prover, prover.sources, report, with_equivalents
        self.copied = [it for it in mutants if can_be_copied(self.folder, it)]
        self.in_place = [it for it in mutants if it not in self.copied]
        self.begun = self.started = time.time()

    def run(self):
        missed = self.try_copies() if self.copied else []
        for it in [*missed, *self.try_in_place()]:
            self.alone(it)
        count, crate = len(self.copied + self.in_place), self.prover.crate.name
        self.report.say(f"{crate}: {count} mutants, in {time.time() - self.begun:.0f} s")

    def seconds(self):
        """Returns the seconds since the last call."""
        before, self.started = self.started, time.time()
        return self.started - before

    def try_copies(self):
        """Tries all copies in one check, and gives the mutants that it does not decide."""
        copies = [Copy(self.folder, it, number) for number, it in enumerate(self.copied)]
        texts = with_copies(self.folder, copies)
        places = {it.mutant: it.place(self.folder, texts) for it in copies}
        answer = self.prover.check(texts, [it.name for it in places.values()])
        if not (answer.is_refused or answer.is_proved):
            return self.not_compiled(answer, places)
        self.all_others_proved(answer, places)
        seconds = self.seconds() / len(copies)
        return [it for it, place in places.items() if not self.is_shown(answer, it, place, seconds)]

    def try_in_place(self):
        """Tries one mutant of each method of a trait in one check, in place, and gives the mutants that need a check of their own."""
        places = {place_of(self.folder, it).name: it for it in self.in_place if not it.is_equivalent and is_of_trait(self.folder, it)}
        places = {it: place_of(self.folder, it) for it in places.values()}
        if len(places) < 2:
            return self.in_place
        answer = self.prover.check(mutated(self.folder, places), [it.name for it in places.values()])
        said = [it for it, place in places.items() if answer.is_refused and place.name in answer.functions]
        seconds = self.seconds() / len(places)
        shown = [it for it in said if self.is_shown(answer, it, places[it], seconds)]
        return [it for it in self.in_place if it not in shown]

    def not_compiled(self, answer, places):
        """Returns the mutants in whose copies a check found errors before it reached the prover; the others are tried again without them."""
        errors = [it.split(":") for it in answer.errors()]
        named = [it for it, place in places.items() if any(place.holds(file, int(line)) for file, line, *_ in errors)]
        if not named:
            raise Unknown(f"a check did not reach the prover: {answer.first()}")
        self.copied = [it for it in self.copied if it not in named]
        self.in_place += named
        return self.try_copies() if self.copied else []

    def all_others_proved(self, answer, places):
        """Raises Unknown unless every function that is no copy, nor a closure of one, is proved: otherwise its callers show nothing."""
        names = {it.name for it in places.values()}
        if missing := names - {*answer.functions}:
            raise Unknown(f"a check says nothing of {sorted(missing)[0]}")
        for name in answer.functions:
            is_of_copy = name in names or any(name.startswith("{}::fn::{}::".format(*it.rsplit("::", 1))) for it in names)
            if not is_of_copy and not answer.proves(name):
                raise Unknown(f"the unchanged crate is not proved: {name}: {answer.functions[name][:200]}")

    def is_shown(self, answer, mutant, place, seconds):
        """Returns whether the check decides the mutant: it is rejected for a goal of its own, or, if it is equivalent, proved or not."""
        if mutant.is_equivalent:
            if answer.proves(place.name):
                self.report.passes(mutant, "equivalent, and proved", seconds)
            else:
                self.report.fails(mutant, f"equivalent, and not proved: {answer.functions[place.name][:200]}")
            return True
        reason = answer.reason(place)
        if not answer.refuses(place.name) or reason is Reason.NONE or answer.of_names_alone(place):
            return False
        self.judge(mutant, reason, seconds)
        return True

    def judge(self, mutant, reason, seconds):
        """Reports a rejected mutant by the reason of its rejection."""
        is_by_shape = reason is Reason.NAME or reason is Reason.ANSWER and mutant.place not in self.with_equivalents
        self.report.passes(mutant, f"rejected by {'its shape' if is_by_shape else reason.value}", seconds)
        if is_by_shape:
            self.report.by_shape.append(str(mutant))

    def alone(self, mutant):
        """Tries one mutant in place."""
        place = place_of(self.folder, mutant)
        name = place.name if place else mutant.refused
        answer = self.prover.check(mutated(self.folder, [mutant]), [name])
        if mutant.is_equivalent:
            why = None if answer.is_proved else f"equivalent, and rejected: {answer.first()}"
        else:
            why = flaw(answer, place, name)
        seconds = self.seconds()
        if why:
            self.report.fails(mutant, why)
        elif mutant.is_equivalent:
            self.report.passes(mutant, "equivalent, and proved", seconds)
        elif place:
            self.judge(mutant, answer.reason(place), seconds)
        else:
            self.report.passes(mutant, "rejected in a proof", seconds)


def flaw(answer, place, name):
    """Returns why this answer does not show that the function of this name, at this place or at none, is rejected for the meaning of the mutant; None
    if it does."""
    if answer.is_proved:
        return f"NOT REJECTED: {name} is still proved with this mutant"
    if not answer.is_refused:
        return f"it does not compile, or did not reach the prover: {answer.first()}"
    if name not in answer.functions:
        return f"the prover says nothing of {name}"
    if not answer.refuses(name):
        return f"of {name} the prover says only: {answer.functions[name][:200]}"
    if answer.of_names_alone(place):
        return f"rejected only for a name in a proof file: change a value and keep the names: {answer.first()}"
    return None
