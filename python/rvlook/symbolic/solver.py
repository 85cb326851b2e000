"""Answers questions about expressions: cheap attempts first, then z3 with a time limit.

A question is whether a condition can hold together with the conditions of a path. Conditions that share no variable with the question are left out.
If the answer is that values exist, the solver evaluates all conditions for these values before the answer counts. The answer that no values exist
comes from simplification, from all values of a byte, or from z3."""
from __future__ import annotations

import random
import time
from copy import copy
from functools import partial
from itertools import islice
from math import inf
from typing import Any, Callable, Dict, FrozenSet, List, NamedTuple, Optional, Sequence, Set, Tuple

from rvlook.symbolic.domains import Domains, member_of
from rvlook.symbolic.evaluation import Model, evaluate, reduced
from rvlook.symbolic.fields import TimeIsOver
from rvlook.symbolic.guess import Part, solutions
from rvlook.symbolic.nodes import CHECK, HEAVY, SECRET, Condition, Node, Word, by_name, mask_of, names_of
from rvlook.symbolic.opaque import Opaque, is_large_lookup, is_none
from rvlook.symbolic.translate import Primed, Translator

# Limits of guesses: values of the variables that are tried before z3.
CORNERS = (0, 1, 255, 128, 127, 65, 4, 16)  # values of bytes for which conditions often hold
UNIFORM_CORNERS = 3  # how many of the first corners are tried as the value of all variables
RANDOM_GUESSES = 2  # guesses with random bytes; one more guess has random corners
SECRET_TRIES = 6  # how many other secrets are tried
MAX_INVERSIONS = 8  # guesses by inversion of the question (`guess.solutions`)
MAX_REPAIRS = 4  # conditions that are repaired in one guess
MAX_GUESSED_VARIABLES = 64  # a question with more variables is not guessed by corners or random bytes
MAX_GUESSED_CONJUNCTS = 12  # a conjunction with more parts is not guessed
OPAQUE_TIMEOUT_MS = 500  # milliseconds of a query without the contents of tables and choices
MAX_RECOMPUTED_OPERATIONS = 256  # operations of the largest public node that is computed for both of two secrets, so that it restricts them
Answer = Optional[bool]  # whether values exist; None if that is not decided
Pair = Tuple[Answer, Optional[Part], Optional[Part]]  # an answer, and the values of the variables with the first and with the second secret


class Equal(NamedTuple):
    """The nodes that are taken to be equal for two secrets."""
    public: FrozenSet[Node]  # all of these nodes
    computed: List[Node]  # the nodes that are computed for both secrets, with the condition that the results are equal


class Solver:
    """Answers questions: True with a model, False, or None if the question is not decided."""

    def __init__(self, timeout: int, seed: int = 0, is_rough: bool = False, has_many: bool = False, is_far: bool = False) -> None:
        self.timeout = timeout  # milliseconds of a query to z3
        self.deadline = inf  # the end of the whole run, by time.perf_counter()
        self.has_many = has_many  # whether the paths have many simple conditions, such as the facts of merged states
        self.is_far = is_far  # whether guesses are values that lead further, such as longer messages
        self.rng = random.Random(seed)
        self.plain = Translator()  # makes expressions of z3
        self.z3 = self.plain.z3
        self.opaque = Opaque()  # makes expressions of z3 without the contents of tables and choices
        self.rough = Opaque(is_large_lookup if is_rough else is_none)  # the same without large tables, for questions about facts
        self.primed: Dict[FrozenSet[Node], Primed] = {}  # makes expressions of z3 for a second secret, by the nodes that are equal
        self.domains = Domains()  # decides conditions on one byte
        self.cache: Dict[Any, Any] = {}  # the answers, by question and conditions
        self.shown: Dict[FrozenSet[Node], Set[Condition]] = {}  # the conditions that follow from a set of conditions, as far as this was shown
        self.declared: Set[Node] = set()  # nodes that came out at a place of --public
        self.proofs: Optional[List[List[Any]]] = None  # if it is a list: the conditions of each answer that no values exist, for a second solver
        self.queries = 0  # the number of queries to z3
        self.guesses = 0  # questions that a guess has answered
        self.cached = 0  # questions that the cache has answered
        self.seconds = 0.0  # the seconds in z3

    def within(self, timeout: int) -> Solver:
        """Returns a copy of the solver with at most `timeout` milliseconds for a query, and a cache of its own."""
        solver = copy(self)
        solver.timeout = min(timeout, self.timeout)
        solver.cache = {}
        return solver

    # ---- one run

    @staticmethod
    def relevant_conditions(conditions: Sequence[Node], mask: int) -> Tuple[List[Node], int]:
        """Returns the conditions that share variables with a question, directly or through other conditions, and the mask of all these variables.
        `mask` has the variables of the question."""
        remaining = list(conditions)
        relevant: List[Node] = []
        while True:
            more = [condition for condition in remaining if mask_of(condition) & mask]
            if not more:
                return relevant, mask
            relevant += more
            chosen = set(more)
            remaining = [condition for condition in remaining if condition not in chosen]
            for condition in more:
                mask |= mask_of(condition)

    def satisfiable(self, conditions: Sequence[Node], question: Condition, model: Part) -> Tuple[Answer, Part]:
        """Returns whether the conditions and a question can hold together, and a model for which they do. `model` has values of all variables for
        which the conditions hold. The returned model differs from it only in variables that the question restricts, directly or through
        conditions."""
        if type(question) is bool:
            return question, model
        relevant, mask = self.relevant_conditions(conditions, mask_of(question))
        key = question, frozenset(relevant)
        if key in self.cache and self.is_valid_for(self.cache[key], relevant, question, model):
            self.cached += 1
        else:
            self.cache[key] = self.decide(relevant, question, mask, model)
        answer, part = self.cache[key]
        return answer, {**model, **part} if part else model

    @staticmethod
    def is_valid_for(cached: Tuple[Answer, Optional[Part]], relevant: Sequence[Node], question: Node, model: Part) -> bool:
        """Returns whether a cached answer is valid for a model. The cached values may have been found for another model, so the conditions and the
        question are evaluated with them."""
        answer, part = cached
        if not answer:
            return True
        memo: Dict[Node, Any] = {}
        whole = {**model, **(part or {})}
        return all(evaluate(condition, whole, memo) for condition in (*relevant, question))

    def decide(self, relevant: List[Node], question: Node, mask: int, model: Part) -> Tuple[Answer, Optional[Part]]:
        """Returns whether conditions and a question can hold together, and the values that differ from a model. Decides this by all values of single
        bytes, by guesses, by simplification, or by z3, in this order. `mask` has the variables of the conditions and the question."""
        conditions = [*relevant, question]
        answer, sets = self.domains.answer(conditions)
        if answer is False:
            self.note_proof([self.plain(condition) for condition in conditions])
            return False, None
        if answer:
            return True, {name: member_of(values, model.get(name, 0)) for node, values in sets.items() for name in names_of(mask_of(node))}
        part = self.guess(relevant, question, mask_of(question), model)
        if part is not None:
            self.guesses += 1
            return True, {**{name: model.get(name, 0) for name in names_of(mask)}, **part}  # all values: the answer may be used for another model
        if self.is_impossible(relevant, question):
            return False, None
        reduced_conditions, known_values = reduced(conditions)
        if reduced_conditions is None:
            self.note_proof([self.plain(condition) for condition in conditions])
            return False, None
        if reduced_conditions:
            answer, part = self.solve([self.plain(condition) for condition in reduced_conditions], names_of(mask))
        else:
            answer, part = True, {}
        if answer and part is not None:
            part.update({node.args[0]: value for node, value in known_values.items()})
            if not self.is_valid_for((answer, part), relevant, question, model):
                return None, None
        return answer, part

    def is_impossible(self, relevant: List[Node], question: Node) -> bool:
        """Returns whether z3 shows that conditions and a question cannot hold together, whatever the contents of tables and choices are."""
        asked = self.opaque.relevant(relevant, question)
        if asked is None:
            return False
        asts = [self.opaque(condition) for condition in asked]
        answer, _ = self.ask_z3(asts, min(self.timeout, OPAQUE_TIMEOUT_MS))
        if answer is False:
            self.note_proof(asts)
        return answer is False

    def guess(self, conditions: Sequence[Node], question: Node, mask: int, model: Part) -> Optional[Part]:
        """Guesses values of the variables of a question for which the question and the conditions hold. Returns the values, or None if no guess fits.
        `mask` has these variables."""
        names = names_of(mask)
        memo: Dict[Node, Any] = {}
        if (len(names) > MAX_GUESSED_VARIABLES and question.weight > HEAVY) or is_long(question):
            return None
        parts = list(islice(solutions(question, model, memo, self.is_far), MAX_INVERSIONS))
        if len(names) <= MAX_GUESSED_VARIABLES:
            parts += [dict.fromkeys(names, corner) for corner in CORNERS[:UNIFORM_CORNERS]]
            parts += [{name: self.rng.randrange(256) for name in names} for _ in range(RANDOM_GUESSES)]
            parts.append({name: self.rng.choice(CORNERS) for name in names})
        for part in parts:
            repaired = self.repair_guess(part, conditions, question, model)
            if repaired is not None:
                return repaired
        return None

    @staticmethod
    def repair_guess(part: Part, conditions: Sequence[Node], question: Node, model: Part) -> Optional[Part]:
        """Repairs the guess `part`: changes further variables for conditions that do not hold. Returns the values for which the question and all
        conditions hold, or None if at most MAX_REPAIRS rounds do not suffice."""
        whole: Part = {**model, **part}
        for _ in range(MAX_REPAIRS):
            memo: Dict[Node, Any] = {}
            if not evaluate(question, whole, memo):
                return None
            failing = next((condition for condition in conditions if not evaluate(condition, whole, memo)), None)
            if failing is None:
                return {name: value for name, value in whole.items() if name in part or value != model.get(name)}
            repairs = solutions(failing, whole, memo)
            repair = next((repair for repair in repairs if repair and part.keys().isdisjoint(repair)), None)
            if repair is None:
                return None
            whole = {**whole, **repair}
        return None

    def solve(self, asts: List[Any], names: Sequence[str]) -> Tuple[Answer, Optional[Part]]:
        """Asks z3 whether expressions can hold together. Returns True with the values of the variables `names`, False, or None."""
        answer, values = self.ask_z3(asts, self.timeout)
        if answer is False:
            self.note_proof(asts)
        return answer, {name: values.get(name, 0) for name in names} if answer else None

    def ask_z3(self, asts: List[Any], timeout: int) -> Tuple[Answer, Part]:
        """Asks z3 whether expressions can hold together, for at most `timeout` milliseconds. Raises TimeIsOver if the time of the whole run ends
        before an answer."""
        check = self.z3.check_by_tactics if self.has_many else self.z3.check
        return self.ask_in_time(partial(check, asts), timeout)

    def ask_in_time(self, ask: Callable[[int], Tuple[Answer, Part]], timeout: int) -> Tuple[Answer, Part]:
        """Asks z3 by the function `ask`, whose argument is the milliseconds that are left, at most `timeout`. Raises TimeIsOver if the time of the
        whole run ends before an answer."""
        began = time.perf_counter()
        if began >= self.deadline:
            raise TimeIsOver
        self.queries += 1
        answer, values = ask(max(1, int(min(timeout, 1000 * (self.deadline - began)))))
        now = time.perf_counter()
        self.seconds += now - began
        if answer is None and now >= self.deadline:
            raise TimeIsOver
        return answer, values

    def note_proof(self, asts: List[Any]) -> None:
        """Records expressions of z3 that cannot hold together, if a second solver is to check this answer."""
        if self.proofs is not None:
            self.proofs.append(asts)

    def allows_other_codes(self, conditions: Sequence[Node], names: Sequence[str]) -> Answer:
        """Returns whether conditions can also hold with other values of the bytes that the host must know, and with the same inputs. `names` are the
        variables of these bytes."""
        on_code = [condition for condition in conditions if condition.taint & CHECK]
        mask = 0
        for condition in on_code:
            mask |= mask_of(condition)
        if any(not (by_name[name].mask or 0) & mask for name in names):
            return True
        primed = Primed(self.plain, (), CHECK)
        differences = [self.z3.unequal(self.plain(by_name[name]), primed(by_name[name])) for name in names]
        relevant, _ = self.relevant_conditions(conditions, mask)
        asts = [self.plain(condition) for condition in relevant] + [primed(condition) for condition in on_code]
        return self.solve([*asts, self.z3.disjunction(differences)], [])[0]

    # ---- two runs with different secrets

    def secret_pair(self, conditions: Sequence[Node], question: Word, public: Set[Node], model: Part) -> Pair:
        """Returns whether the word `question` can differ for two secrets and equal inputs, with a model for each of the two secrets. `public` has the
        nodes that are taken to be equal for both secrets."""
        if type(question) is not Node or not question.taint & SECRET or question in public:
            return False, None, None
        relevant, mask = self.relevant_conditions(conditions, mask_of(question))
        computed = [node for node in public & self.declared if node.weight <= MAX_RECOMPUTED_OPERATIONS and mask_of(node) & mask]
        computed.sort(key=lambda node: node.number)  # in the order in which they were made
        for node in computed:
            mask |= mask_of(node)
        if computed:
            relevant, mask = self.relevant_conditions(conditions, mask)
        equal = Equal(frozenset(public), computed)
        key = "pair", question, frozenset(relevant), equal.public
        if key in self.cache:
            self.cached += 1
            return self.cache[key]
        secret_conditions = [condition for condition in relevant if condition.taint & SECRET]
        pair = self.try_other_secrets(question, mask, secret_conditions, equal, model)
        if pair is None:
            pair = self.solve_pair(question, mask, relevant, equal, model)
        self.cache[key] = pair
        return pair

    def solve_pair(self, question: Node, mask: int, relevant: List[Node], equal: Equal, model: Part) -> Pair:
        """Asks z3 whether a node can differ for two secrets. In an expression for the second secret, the name of a variable ends with an apostrophe.
        `mask` has the variables of the question and of the relevant conditions."""
        public = equal.public.difference(equal.computed)
        primed = self.primed.setdefault(public, Primed(self.plain, public))
        asts = [self.plain(condition) for condition in relevant]
        asts += [primed(condition) for condition in relevant if condition.taint & SECRET]
        asts += [self.z3.equal(self.plain(node), primed(node)) for node in equal.computed]
        asts.append(self.z3.unequal(self.plain(question), primed(question)))
        names = names_of(mask)
        second_names = [name + "'" for name in names if by_name[name].taint & SECRET]
        answer, part = self.solve(asts, names + second_names)
        if not answer or part is None:
            return answer, None, None
        first_model = {**model, **{name: value for name, value in part.items() if not name.endswith("'")}}
        second_secret = {name[:-1]: value for name, value in part.items() if name.endswith("'")}  # without the apostrophes
        return True, first_model, {**first_model, **second_secret}

    def try_other_secrets(self, question: Node, mask: int, conditions: Sequence[Node], equal: Equal, model: Part) -> Optional[Pair]:
        """Evaluates a node for a few other secrets. Returns the result of `secret_pair` if the node differs for one of them, else None. `conditions`
        has the conditions that depend on the secret, and `mask` the variables of the question and the conditions."""
        names = [name for name in names_of(mask) if by_name[name].taint & SECRET]
        if not names:
            return None
        memo: Dict[Node, Any] = {}
        value = evaluate(question, model, memo)
        wanted = {node: evaluate(node, model, memo) for node in equal.computed}  # the values that must stay the same
        fixed_nodes = [node for node in equal.public if node.taint & SECRET and mask_of(node) & mask and node not in wanted]
        fixed_values = {node: evaluate(node, model, memo) for node in fixed_nodes}  # taken to be the same, and not computed again
        for number in range(SECRET_TRIES):
            other = {**model, **self.other_secret(number, names, model)}
            values = dict(fixed_values)
            if evaluate(question, other, values) == value or not all(evaluate(condition, other, values) for condition in conditions):
                continue
            if all(evaluate(node, other, values) == public_value for node, public_value in wanted.items()):
                self.guesses += 1
                return True, dict(model), other
        return None

    def other_secret(self, number: int, names: Sequence[str], model: Model) -> Part:
        """Returns another secret than that of a model, for the try with a number. The tries are: all bits flipped, zeros, one bit flipped, and then
        random bytes. `names` has the variables of the secret."""
        if number == 0:
            return {name: model.get(name, 0) ^ 255 for name in names}
        if number == 1:
            return {name: 0 for name in names}
        if number == 2:
            name = self.rng.choice(names)
            return {name: model.get(name, 0) ^ 1 << self.rng.randrange(8)}
        return {name: self.rng.randrange(256) for name in names}


def is_long(question: Node) -> bool:
    """Returns whether a question is a conjunction of many conditions, or the negation of one."""
    compared = question.args[0] if question.op == "not" else question
    return compared.op == "and1" and len(compared.args) > MAX_GUESSED_CONJUNCTS
