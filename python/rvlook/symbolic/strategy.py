"""The order of the searches of `verify`: each is a search over all paths with other means, until one of them is complete or the time is over.

1. Exact: paths are joined without loss. Most enclaves are done after this.
2. Rare branches first, to find violations: one activation with long messages, and then all activations. The search is left out if few paths divide.
3. Any number of rounds: paths are merged at the heads of loops.
4. Sequences of activations, if a violation exists only in a merged state.
5. The exact search is continued."""
from __future__ import annotations

import time
from math import inf
from typing import Dict, List, Set, Tuple, TYPE_CHECKING

from rvlook.symbolic import questions
from rvlook.symbolic.confirm import confirm
from rvlook.symbolic.means import Means
from rvlook.symbolic.record import IN_MERGED
from rvlook.symbolic.search import Search
from rvlook.symbolic.translate import leave_out_old

if TYPE_CHECKING:
    from rvlook.output.progress import Progress
    from rvlook.symbolic.options import VerifyOptions
    from rvlook.symbolic.world import World

# The part of the remaining time that a search may use, from 0 to 1.
EXACT_PART = .25  # the exact search
LOOPS_PART = .8  # each search with merged loops
SEQUENCES_PART = .4  # the search for sequences of activations
MOST_PART = .8  # any search, if the exact search has ended; and a search with merged loops, if few paths divide
FIRST_FAR = Means(is_rare_first=True, is_far=True, merges=False, activations=1)  # one activation with long messages
RARE_FIRST = Means(is_rare_first=True, merges=False)  # all activations
RARE_SEARCHES = (FIRST_FAR, .35), (RARE_FIRST, .4)  # the searches for rare branches, each with its part of the time
ALL_PART = 1  # a search that is continued at the end

LONGEST_FIRST = 30  # seconds of the exact search before the others
LONGEST_RARE = 15  # seconds of each search for rare branches
# The time at the end in which findings are replayed: the less of a number of seconds and a part of --seconds.
LONGEST_REPLAYS = 1
REPLAYS = .1

STEPS_OF_A_HASH = 1000  # steps for each division of a path; a search with more steps computes, as in a hash, and has no rare branches
LOOPS_FROM = 1, 3  # the head of a loop is merged after so many divisions of a path in it: first after 1, and if that decides too little, after 3
LOOP_SEARCHES = Means(loops_from=LOOPS_FROM[0], is_rough=True), *(Means(loops_from=count) for count in LOOPS_FROM)  # the searches with merged loops
MORE_ROUNDS = 16  # a search for sequences of activations follows so many times more rounds of a loop
MOST_ACTIVATIONS = 12  # the longest sequence of activations that is searched
MOST_STARTS = 60  # how often a search with the same means begins again, to merge more loops or to propose facts about more words


class Strategy:
    """The searches over the paths of an enclave, and what they share."""

    def __init__(self, world: World, options: VerifyOptions) -> None:
        leave_out_old()
        self.world = world
        self.options = options
        exact_search = Search(world, options)
        self.deadline = time.perf_counter() + options.seconds  # the end of all searches and replays, by time.perf_counter()
        self.exact_search = self.with_deadline(exact_search)
        self.searches: List[Search] = [self.exact_search]  # all searches so far
        self.heads: Dict[int, Set[Tuple[int, int]]] = {count: set() for count in LOOPS_FROM}  # the heads that are merged (pc and context), by
        # the number of divisions after which they are merged

    def go(self, progress: Progress) -> None:
        """Searches until one search is complete, something is found, or the time is over."""
        self.run(self.exact_search, EXACT_PART, progress, LONGEST_FIRST)
        if not self.is_done() and not self.exact_search.findings:
            self.search_otherwise(progress)
        if not self.is_done():
            self.run(self.exact_search, ALL_PART, progress)

    def search_otherwise(self, progress: Progress) -> None:
        """Searches with other means (see the list of searches in this module), after the exact search was not complete and found nothing."""
        is_computing = self.exact_search.steps >= STEPS_OF_A_HASH * self.exact_search.divisions
        if self.has_paths_left() and not is_computing:
            for means, part in RARE_SEARCHES[:self.exact_search.activations]:
                self.run(self.add_search(means), part, progress, LONGEST_RARE)
        for search in self.searches:
            self.heads[LOOPS_FROM[0]] |= search.divided
        if self.options.merges:
            for means in LOOP_SEARCHES:
                self.search_merged(means, MOST_PART if is_computing else LOOPS_PART, progress)
        if not self.is_done() and self.has_doubt_in_merged():
            self.run(self.add_search(Means(merges=False, activations=MOST_ACTIVATIONS, rounds=MORE_ROUNDS)), SEQUENCES_PART, progress)

    def search_merged(self, means: Means, part: float, progress: Progress) -> None:
        """Searches with merged loops, and begins again if a search has to merge more loops. If a search has decided everything so far and is in its
        last pass, it is continued for all of the remaining time."""
        for _ in range(MOST_STARTS):
            if self.is_done():
                break
            search = self.run(self.add_search(means), part, progress)
            if search.loops.is_final and not search.undecided and not self.is_done():
                self.run(search, ALL_PART, progress)
            if not search.is_outgrown:
                break

    def add_search(self, means: Means) -> Search:
        """Adds and returns a further search, which shares the findings and the results of replays with the exact search."""
        exact = self.exact_search
        search = self.with_deadline(Search(self.world, self.options, means))
        search.findings = exact.findings
        search.wrong_replays = exact.wrong_replays
        search.replays = exact.replays
        search.wanted_places = exact.wanted_places
        search.indices = exact.indices
        search.loaded = exact.loaded
        search.written_before = set().union(*(earlier.written for earlier in self.searches))
        if means.loops_from:
            search.heads = self.heads[means.loops_from]
        self.searches.append(search)
        return search

    def with_deadline(self, search: Search) -> Search:
        """Sets the end of the whole run for the queries and the replays of a search, and returns the search. Queries end earlier, so that some time
        is left to replay the findings."""
        search.solver.deadline = self.deadline - min(LONGEST_REPLAYS, self.options.seconds * REPLAYS)
        search.replayer.deadline = self.deadline
        return search

    def run(self, search: Search, part: float, progress: Progress, longest: float = inf) -> Search:
        """Continues a search for a part of the time that is left, at most for `longest` seconds, and replays its findings. Returns the search."""
        if search is not self.exact_search and not self.has_paths_left():
            part = MOST_PART
        now = time.perf_counter()
        search.deadline = now + min(longest, part * (search.solver.deadline - now))
        search.go(progress)
        self.confirm(search)
        return search

    def has_paths_left(self) -> bool:
        """Returns whether the exact search has not explored all of its paths."""
        return bool(self.exact_search.queue or self.exact_search.merge_queue)

    def confirm(self, search: Search) -> None:
        """Replays the findings of a search that were not replayed yet."""
        for example in search.findings.values():
            example.answer = example.answer or confirm(search, example)

    def is_done(self) -> bool:
        """Returns whether there is nothing more to search for: the time is over, a replay was wrong, or a search is complete."""
        if time.perf_counter() >= self.exact_search.solver.deadline or self.exact_search.wrong_replays:
            return True
        return any(search.means.is_whole and questions.is_complete(search) for search in self.searches)

    def has_doubt_in_merged(self) -> bool:
        """Returns whether a violation was found only in a merged state."""
        reasons = [reason for search in self.searches for texts in search.reasons.values() for reason in texts]
        return any(IN_MERGED in reason for reason in reasons)

    def result(self) -> Search:
        """Returns the search whose results are printed. This is a complete search, else one that has left out no path. Else it is a search that has
        ended and has questions which are not decided, provided that nothing was found. Else it is the exact search."""
        whole = [search for search in self.searches if search.means.is_whole]
        for search in whole:
            if questions.is_complete(search):
                return search
        for search in whole:
            if not questions.reasons_not_covered(search):
                return search
        if not self.exact_search.findings:
            for search in whole:
                is_unfinished = search.queue or search.merge_queue or search.is_outgrown or search.cut_loops
                if search.undecided and not is_unfinished:
                    return search
        return self.exact_search
