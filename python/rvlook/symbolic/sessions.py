"""Many questions about what the conditions of one path imply.

In a rough search, bytes of large tables are taken as any bytes. The answer that no values exist also holds for the conditions themselves. The answer
that values exist may not hold for them: a merged state then has fewer facts, and includes more states. Values are evaluated before they count."""
from __future__ import annotations

from functools import partial
from typing import Any, Callable, Dict, Iterable, List, Sequence, TYPE_CHECKING

from rvlook.symbolic.conditions import all_of
from rvlook.symbolic.evaluation import evaluate
from rvlook.symbolic.nodes import HEAVY, Condition, Node, Word
from rvlook.symbolic.words import not_

if TYPE_CHECKING:
    from rvlook.symbolic.solver import Answer, Solver

MAX_JOINT_QUESTIONS = 40  # the most questions about all conditions at once; then `Session.implied` asks about each condition alone


class Session:
    """Asks several questions about the same conditions. Leaves out conditions that share no variables with any question, and conditions about results
    of a hash."""

    def __init__(self, solver: Solver, conditions: Sequence[Node], questions: Iterable[Word], model: Dict[str, int]) -> None:
        self.solver = solver
        self.model = model  # values of the variables for which the conditions hold; changed by each answer
        self.opaque = solver.rough  # makes expressions of z3, in a rough search without large tables
        mask = 0
        for question in questions:
            mask |= self.opaque.mask_of(question) if type(question) is Node else 0
        self.all = frozenset(conditions)
        self.shown = solver.shown.setdefault(self.all, set())  # the conditions that follow from `all`, as far as this was shown
        light = [condition for condition in conditions if condition.weight <= HEAVY]
        self.conditions, self.mask = self.opaque.relevant_conditions(light, mask)  # the conditions that are not left out, and their variables
        self.asts = [self.opaque(condition) for condition in self.conditions]  # the same conditions as expressions of z3
        self.memo: Dict[Node, Any] = {}  # the values of nodes by the last answer

    def satisfiable(self, question: Condition) -> Answer:
        """Returns whether the conditions and a question hold for some values. If so, `value_of` evaluates expressions for these values from then
        on."""
        if type(question) is bool:
            return question
        solver, opaque = self.solver, self.opaque
        asts = [*self.asts, opaque(question)]
        answer, values = solver.ask_in_time(partial(solver.z3.check_by_tactics, asts), solver.timeout)
        if answer is False:
            solver.note_proof(asts)
        if answer:
            mask = self.mask | opaque.mask_of(question)
            self.model = {**self.model, **values}
            self.memo = {node: values.get(opaque.name_of(node), 0) for node in opaque.within(mask)}
            answer = all(self.value_of(condition) for condition in (*self.conditions, question)) or None
        return answer

    def value_of(self, expression: Word | Condition) -> Any:
        """Returns the value of an expression by the last answer."""
        return evaluate(expression, self.model, self.memo)

    def implied(self, wanted: Sequence[Condition], is_late: Callable[[], bool], strongest: Callable[[List[int]], List[int]] = list) -> List[bool]:
        """Returns for each of the conditions `wanted` whether it follows from those of the session. A question is about all of them at once, and each
        answer leaves out those that do not hold. `strongest` gets indices of `wanted`, and returns some of them, whose conditions imply those of the
        others. Stops as soon as `is_late` returns True. A condition that was shown for the same conditions before needs no question: in the last
        pass, most paths arrive as they did before."""
        shown = [condition is True or condition in self.all or condition in self.shown for condition in wanted]
        may_hold = [shown[n] or (condition is not False and bool(self.value_of(condition))) for n, condition in enumerate(wanted)]
        for _ in range(0 if is_late() else MAX_JOINT_QUESTIONS):
            candidates = [n for n, holds in enumerate(may_hold) if holds]
            open_indices = [n for n in strongest(candidates) if not shown[n]]
            answer = self.satisfiable(not_(all_of(*(wanted[n] for n in open_indices)))) if open_indices else False
            if answer is None:
                break
            if answer is False:
                self.shown.update(condition for n, condition in enumerate(wanted) if may_hold[n])
                return may_hold
            may_hold = [shown[n] or (holds and bool(self.value_of(wanted[n]))) for n, holds in enumerate(may_hold)]

        def follows(index: int) -> bool:
            return not is_late() and self.satisfiable(not_(wanted[index])) is False
        return [shown[n] or (holds and follows(n)) for n, holds in enumerate(may_hold)]
