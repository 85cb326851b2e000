"""The means of a search: the method by which it explores paths."""
from __future__ import annotations

from dataclasses import dataclass, replace
from typing import Optional, TYPE_CHECKING

if TYPE_CHECKING:
    from rvlook.symbolic.options import VerifyOptions


@dataclass(frozen=True)
class Means:
    """The method of a search. The default values are those of the exact search."""
    is_rare_first: bool = False  # whether the branches that the fewest paths take come first, and paths are not joined
    is_far: bool = False  # whether larger values of inputs are tried early, so that messages are long (`guess.solutions`)
    loops_from: int = 0  # after so many divisions of a path in a loop, paths are merged at its head; 0 for never
    is_rough: bool = False  # whether facts of merged states do not depend on the contents of large tables
    merges: Optional[bool] = None  # whether the states of stops are merged, whatever --each says; None to follow --each
    activations: int = 0  # the number of activations of a path, in place of --activations; 0 to follow --activations
    rounds: int = 1  # the factor by which more rounds of a loop are followed than --bound says

    @property
    def is_whole(self) -> bool:
        """Returns whether the search answers the questions of the options, for all activations that they ask about."""
        return self.merges is None

    def options(self, options: VerifyOptions) -> VerifyOptions:
        """Returns the options of a run of `verify` as this search uses them."""
        merges = options.merges if self.merges is None else self.merges
        bound = self.rounds * options.bound
        return replace(options, merges=merges, activations=self.activations or options.activations, bound=bound)
