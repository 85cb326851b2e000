"""Divides a path: at branches, and at words that must be numbers. Asks whether two secrets give different values."""
from __future__ import annotations

from rvlook.symbolic.conditions import differ, eq
from rvlook.symbolic.endless import TRIAL_ROUNDS
from rvlook.symbolic.evaluation import evaluate
from rvlook.symbolic.fields import FINDING_REPORTED, IMPOSSIBLE, INCLUDED_IN_MERGED, START_MERGED_LOOP, PathEnded, PathState
from rvlook.symbolic.nodes import SECRET, Condition, Node, Word
from rvlook.symbolic.words import not_

MAX_FOLLOWED_VALUES = 48  # the most values of one word for which paths of their own are made
# --bound limits the divisions of a path at one branch in one round of the loops around it. All rounds together may have NESTED_ROUNDS_FACTOR times as
# many divisions.
NESTED_ROUNDS_FACTOR = 16


class ForkingState(PathState):
    """The state of a path that can divide into several paths."""
    __slots__ = ()

    def move_to(self, condition: Condition) -> None:
        """Adds a condition to the path, and chooses another model if the condition does not hold in the present one. Ends the path if no values of
        the variables fulfil the condition, or if the solver does not find any."""
        if condition is False:
            raise PathEnded(IMPOSSIBLE)
        if not self.holds(condition):
            answer, model = self.search.solver.satisfiable(self.conditions, condition, self.model)
            if answer is None:
                self.search.undecided["value", self.pc] += 1
            if not answer:
                raise PathEnded(IMPOSSIBLE)
            self.model = model
            self.memo = {}
        self.assume(condition)

    def differs(self, what: str, word: Word) -> bool:
        """Asks whether two secrets can give different values of a word, for equal inputs. If so, reports a finding of the kind `what` at the present
        instruction. Returns whether the instruction has such a finding. An instruction that --public names is not asked about."""
        if type(word) is not Node or not word.taint & SECRET:
            return False
        search = self.search
        key = what, self.pc
        if search.world.public.has(self.pc):
            return False
        if key in search.findings:
            return True
        answer, first_model, second_model = search.solver.secret_pair(self.conditions, word, self.public, self.model)
        if answer and first_model is not None:
            search.report(what, self, "", first_model, second_model)
            return True
        if answer is None:
            search.undecided[key] += 1
        return False

    def branch(self, condition: Node, target: int, following: int) -> int:
        """Executes a branch: to `target` if the condition holds, else to the instruction `following`. The path takes the side on which its model is.
        If the other side is possible too, another path takes that side. Returns the next pc."""
        search = self.search
        pc = self.pc
        if self.start_kind == START_MERGED_LOOP and (pc, self.context) in search.heads:
            if self.start_head != pc:
                search.merge_at_head(self)
                raise PathEnded(INCLUDED_IN_MERGED)
            self.start_head = None
        search.endless.at_branch(self)
        is_taken = self.holds(condition)
        is_leak = bool(condition.taint & SECRET) and self.differs("pc", condition)
        search.check_comparison(self, condition)
        if is_taken:
            condition_of_side, next_pc, other_pc = condition, target, following
        else:
            condition_of_side, next_pc, other_pc = not_(condition), following, target
        other_side = pc, not is_taken
        is_other_side_known = other_side in search.sides_taken
        search.sides_taken.add((pc, is_taken))
        if is_leak and is_other_side_known:
            search.left_after_leak[pc] += 1
        else:
            answer, model = search.solver.satisfiable(self.conditions, not_(condition_of_side), self.model)
            if answer is False:  # the conditions imply this side
                self.count_implied()
                if self.start_kind == START_MERGED_LOOP:
                    self.conditions.append(condition_of_side)  # a later, wider bound of the merged state may not imply this side
                return next_pc
            if answer:
                self.leave_other_side(condition_of_side, model, other_pc)
            else:
                search.undecided["branch", pc] += 1
        self.conditions.append(condition_of_side)
        return next_pc

    def count_implied(self) -> None:
        """Counts how often only one side of the present branch was possible, as in a loop whose end is not possible any more. After TRIAL_ROUNDS and
        --bound rounds, tries with numbers whether the loop is endless."""
        search = self.search
        key = -self.pc, self.context  # the negative pc distinguishes this count in `branch_counts`
        count = self.branch_counts[key] = self.branch_counts.get(key, 0) + 1
        if count == search.options.bound or count in TRIAL_ROUNDS:
            search.endless.try_numbers(self, search.trial_counts)
            if count >= search.options.bound and ("stuck", self.pc) in search.findings and not self.is_base:
                raise PathEnded(FINDING_REPORTED)

    def leave_other_side(self, condition: Node, model: dict[str, int], other_pc: int) -> None:
        """Adds a path for the other side of a branch, unless a loop has had too many rounds: then merges or cuts the loop. `condition` is that of the
        side which this path takes. `model` has values for the other side, which goes on at `other_pc`."""
        search = self.search
        key = self.pc, self.context
        key_of_total = self.pc, ~self.context  # see `PathState.branch_counts`
        count = self.branch_counts[key] = self.branch_counts.get(key, 0) + 1
        total = self.branch_counts[key_of_total] = self.branch_counts.get(key_of_total, 0) + 1
        if count in TRIAL_ROUNDS:
            search.endless.try_numbers(self, search.trial_counts)
        if count <= search.options.bound and total <= search.options.bound * NESTED_ROUNDS_FACTOR:
            is_trap = bool(other_pc & 3)  # a branch to a misaligned address traps: the other path executes the branch again
            other_path = self.fork(self.pc if is_trap else other_pc, is_again=is_trap)
            other_path.model = model
            other_path.start_head = self.pc if is_trap and key in search.heads else None
            other_path.conditions.append(not_(condition))
            search.add_divided_path(other_path)
        elif search.options.loops and search.merger:
            search.heads.add(key)
            search.merge_at_head(self)
            if not self.is_base:
                raise PathEnded(INCLUDED_IN_MERGED)
        else:
            search.cut_loops[self.pc] += 1
            search.endless.try_numbers(self, search.trial_counts)
            if not self.is_base:
                raise PathEnded("bound")

    def concretize(self, word: Word, what: str = "pc") -> int:
        """Restricts the path to the value that a word has in its model, and returns this number. If other values are possible, adds a path that
        executes the step again for them. `what` is the kind of the finding that is reported if the value depends on the secret."""
        if type(word) is int:
            return word
        search = self.search
        value = self.value(word)
        is_leak = bool(word.taint & SECRET) and self.differs(what, word)
        tried_count = self.values_tried()
        has_other_value = differ(word, value)
        answer, model = search.solver.satisfiable(self.conditions, has_other_value, self.model)
        if answer is None:
            search.undecided["value", self.pc] += 1
        elif answer and is_leak:
            search.left_after_leak[self.pc] += 1
        elif answer and tried_count >= MAX_FOLLOWED_VALUES:
            search.words_with_many_values[self.pc] += 1
        elif answer:
            self.add_path_again(has_other_value, model, tried_count + 1, evaluate(word, model))
        self.assume(eq(word, value))
        return value

    def add_path_again(self, condition: Node, model: dict[str, int], tried_count: int, value: int) -> None:
        """Adds a path that executes this step again under a further condition, which holds in `model`. `tried_count` is how many values of the word
        other paths have in this step, and `value` is the value on the new path."""
        new_path = self.fork(self.pc, is_again=True)
        new_path.model = model
        new_path.values_followed = new_path.steps_before, tried_count
        new_path.start_head = self.start_head
        new_path.value_followed = value
        new_path.conditions.append(condition)
        self.search.add_divided_path(new_path)
