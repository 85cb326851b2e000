"""Decides for `leak`, for all values of a secret, whether the host can observe the secret in one run.

The path of the run itself is executed with the secret as expressions, and with the inputs that the host gives in this run. The secret is hidden if no
pc, address, operand of a division, byte of the window or answer depends on it."""
from __future__ import annotations

from typing import List, Optional, Sequence, TYPE_CHECKING

from rvlook.errors import RvlookError
from rvlook.finders.secrets import IN_IMAGE
from rvlook.image.variables import Variables
from rvlook.output.progress import Progress
from rvlook.symbolic.fields import EXITED, STOPPED, PathEnded
from rvlook.symbolic.nodes import Byte, Word
from rvlook.symbolic.options import VerifyOptions
from rvlook.symbolic.search import Search
from rvlook.symbolic.state import State
from rvlook.symbolic.world import World

if TYPE_CHECKING:
    from rvlook.finders.leak_search import Leak
    from rvlook.protocol.run import Setup

MAX_PATH_STEPS = 400000  # the most steps of the path
DEFAULT_SECONDS = 60.0  # the time limit in seconds, unless the option --seconds gives one
SECRET_FREE_FINDINGS = ("fault", "assertion", "older")  # kinds of findings that do not depend on the secret
OBJECT_DOUBTS = ("load", "store", "jump", "return")  # kinds of doubts about objects, after which the path goes on as the run does
STEP_COMMANDS = ("step", "run", "sched")  # commands of a script that execute steps
CHANGE_COMMANDS = ("poke", "setreg", "timer")  # commands of a script that change the machine
SYMBOLIC_ADDRESS = "open"  # the reason for the end of a path that loads or stores the window at an expression


class BaseRunState(State):
    """The state of the path of the run itself. It loads from the window what the host gives in the run, or what the enclave has stored there."""
    __slots__ = ()

    def load_window(self, number: int, width: int, address: Word) -> List[Byte]:
        """Returns `width` bytes of the window at the address `number`. Ends the path if `address` is an expression."""
        if type(address) is not int:
            raise PathEnded(SYMBOLIC_ADDRESS)
        base = self.search.world.window[0]
        return [self.calm_window.get(number + n, self.window_memory[number + n - base]) for n in range(width)]

    def store_window(self, number: int, width: int, value: Word, address: Word) -> None:
        """Stores to the window, whose bytes may be loaded again. Ends the path if `address` is an expression."""
        if type(address) is not int:
            raise PathEnded(SYMBOLIC_ADDRESS)
        super().store_window(number, width, value, address)


class OwnPath(Search):
    """The search that follows the path of the run itself alone."""
    state_type = BaseRunState

    def __init__(self, world: World, options: VerifyOptions) -> None:
        super().__init__(world, options)
        self.is_divided = False  # whether another secret may take another path
        self.last_state: Optional[State] = None  # the state at the end of the path, or where the search has stopped

    def add_path(self, state: State) -> None:
        """Queues the path of the run itself to continue it. Any other path is not followed: it shows that another secret may take another path."""
        if state.is_base:
            super().add_path(state)
        else:
            self.is_divided = True

    def check_output(self, state: State, output: Sequence[Byte], places: Sequence[Optional[int]], what: str) -> None:
        """Checks bytes that the host can read. Unlike `verify`, does not take them to be equal for two secrets afterwards: --public allows that they
        differ."""
        super().check_output(state, output, places, what)
        state.public.clear()

    def check_answer(self, state: State, value: Word) -> None:
        """Checks the answer `value` with which the enclave leaves. Does not take it to be equal for two secrets afterwards."""
        super().check_answer(state, value)
        state.public.clear()

    def is_late(self) -> bool:
        """Returns whether the time is over, or the path has shown that the secret may not be hidden."""
        return self.is_divided or bool(self.harm()) or super().is_late()

    def harm(self) -> List[str]:
        """Returns the kinds of findings and undecided questions that do not exclude that the host observes the secret."""
        harmful = [what for what, _ in self.findings if what not in SECRET_FREE_FINDINGS]
        return harmful + [what for what, pc in self.undecided if what not in OBJECT_DOUBTS or (what, pc) not in self.reasons]

    def explore(self, state: State) -> None:
        """Explores the path, and keeps its last state."""
        super().explore(state)
        self.last_state = state

    def is_hidden(self) -> bool:
        """Returns whether the whole run is one path, which is the same for all secrets."""
        last = self.last_state
        activations = self.world.own_activations
        if last is None or self.queue or self.is_divided or self.harm():
            return False
        if self.assumed_inside or self.words_with_many_values or self.changed_code:
            return False
        if self.paths != 1 or self.end_counts[EXITED] + self.end_counts[STOPPED] != 1 or len(last.answers) != len(activations):
            return False
        return last.all_pcs() == [pc for activation in activations for pc in activation.pcs]


def changes_later(setup: Setup) -> bool:
    """Returns whether a script changes a byte, a register or the timer line after a step. The path does not include such changes."""
    names = [line.text.split()[0] for line in setup.lines if line.text.split()]
    first = next((n for n, name in enumerate(names) if name in STEP_COMMANDS), len(names))
    return any(name in CHANGE_COMMANDS for name in names[first:])


def is_hidden(leak: Leak) -> bool:
    """Returns whether `verify` shows that no secret of the same length changes what the host observes, with the inputs of the run. Returns False
    without z3, for two harts, and for a secret outside the region."""
    options = leak.options
    setup = leak.run.setup
    if not setup.monitor or setup.harts > 1 or options.at.startswith(IN_IMAGE) or changes_later(setup):
        return False
    secret = leak.secret(len(options.values[0]) if options.values else None)
    if secret.register:
        return False
    place = "%x:%d" % (secret.at, len(secret.bytes))
    own_options = VerifyOptions(options.slot, [place], options.public, calm=True, merges=False, replay=0, seconds=options.seconds or DEFAULT_SECONDS,
                                path_steps=MAX_PATH_STEPS)
    try:
        world = World(leak.run, leak.symbols, Variables(), own_options)
        search = OwnPath(world, own_options)
    except RvlookError:  # z3 is missing, or the secret is outside the region
        return False
    with Progress() as progress:
        search.go(progress)
    return search.is_hidden()
