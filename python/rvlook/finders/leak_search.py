"""The search of `leak`: runs a program with one pair of secrets, or with many, and compares what a host observes. It prints nothing."""
from __future__ import annotations

import time
from dataclasses import dataclass, field
from functools import partial
from typing import Callable, List, NamedTuple, Optional, Sequence

from rvlook.errors import RvlookError
from rvlook.finders.leak import CHANNELS, Comparison, Observation, observe, public_of
from rvlook.finders.secrets import WORD, Pair, Secret, drawn_pairs, secret_of
from rvlook.output.printer import counted
from rvlook.output.progress import Progress
from rvlook.protocol.jobs import results_of, uninterrupted
from rvlook.protocol.run import Run

MAX_GUESSES = 8  # values of the host near which secrets are drawn


class LeakOptions(NamedTuple):
    """The options of `leak`."""
    at: str  # the place of the secret
    slot: int = 0  # the slot of the enclave
    public: Sequence[str] = ()  # what may differ
    is_strict: bool = False  # whether operands of divisions are compared
    values: Sequence[bytes] = ()  # two secrets, or empty if pairs are drawn
    tries: Optional[int] = None  # number of drawn pairs; None if `values` is given
    first: int = 1  # number of the first pair that is run
    last: Optional[int] = None  # number of the last one; None: the last drawn one
    seed: int = 0  # the seed of the drawn pairs
    seconds: Optional[float] = None  # the most seconds; None: no limit
    jobs: int = 1  # number of processes


class Leak:
    """A run with its secret, and how runs are compared."""
    def __init__(self, run: Run, options: LeakOptions, is_hidden: Callable[[Leak], bool] = lambda _: False) -> None:
        # `cut`: why an observation ended early; `is_hidden` decides whether no secret changes what the host observes
        self.run, self.symbols, self.options, self.cut, self.is_hidden = run, run.setup.symbols, options, "", is_hidden
        self.public, self.is_strict = public_of(options.public, self.symbols), options.is_strict
        not_compared = {*([] if self.is_strict else ["operand"]), *([] if run.setup.monitor else ["answer", "window"])}
        self.channels = [channel for channel in CHANNELS if channel not in not_compared]  # the channels that are compared

    def secret(self, size: int | None = None) -> Secret:
        """Returns the secret that the options name; `size` is its length in bytes."""
        return secret_of(self.options.at, self.symbols, self.run, self.options.slot, size)

    def observe(self, secret: Secret) -> Observation:
        """Returns the observations of the run with a secret. Sets `cut` if --steps ends the run too early."""
        observation = observe(self.run.with_lines(secret.step, secret.lines()), secret, self.is_strict)
        if observation.is_cut and not self.cut:
            what_ran = "the enclave in slot %d was running" % secret.slot if self.run.setup.monitor else "it was running"
            self.cut = "--steps %d ended the run while %s" % (self.run.setup.limit, what_ran)
        return observation

    def compared(self, one: Observation, two: Observation, secret: Secret) -> Comparison:
        """Compares the observations of two runs. `secret` has the place of the secrets; its value does not matter."""
        return Comparison(one, two, secret, self.public, self.is_strict)


class ComparedPair(NamedTuple):
    """The result of comparing two runs with a pair of secrets."""
    number: int  # the number of the pair, from 1
    secrets: Sequence[Secret]  # the two secrets
    is_own: bool  # whether the first secret is that of the program
    answers: Sequence[object]  # what the enclave answered with each secret; empty if the secrets were given
    channels: Sequence[str]  # the channels in which the runs differ
    result: Optional[Comparison]  # None for a drawn pair that does not differ, or that another process compared
    observations: Sequence[Observation]  # the observations of the two runs; empty if `result` is None

    @property
    def comparison(self) -> Comparison:
        """Returns the comparison of a pair that has one."""
        assert self.result is not None
        return self.result


@dataclass
class TriedPairs:
    """The result of drawn pairs."""
    pairs: List[ComparedPair] = field(default_factory=list)  # the pairs that were compared
    again: Callable[[ComparedPair], ComparedPair] = lambda it: it  # returns a pair with its comparison; repeats it if another process did it
    cut: str = ""  # why some pairs were left out; empty if all were compared
    is_interrupted: bool = False  # whether Ctrl-C ended the search

    @property
    def verdicts(self) -> set[int]:
        """Returns the numbers of the pairs that differ with a verdict: the program answers its own secret one way, and each other secret another.
        Other differences of such a pair may follow from the answer. If the answer has a part of the secret, other secrets have several answers."""
        own_answers = {pair.answers[0] for pair in self.pairs if pair.is_own}
        # without the answer to the own secret, which is the first one if `is_own`
        other_answers = {answer for pair in self.pairs for answer in pair.answers[pair.is_own:]}
        secrets = {secret.bytes for pair in self.pairs for secret in pair.secrets[pair.is_own:]}
        is_verdict = len(own_answers) == len(other_answers) == 1 and own_answers != other_answers and len(secrets) > 1
        return {pair.number for pair in self.pairs if pair.is_own} if is_verdict else set()

    @property
    def differing(self) -> dict[int, ComparedPair]:
        """Returns the pairs that differ and are not in `verdicts`, by number."""
        verdicts = self.verdicts
        return {pair.number: pair for pair in self.pairs if pair.channels and pair.number not in verdicts}


def compare_given(leak: Leak) -> ComparedPair:
    """Compares the runs with the two secrets that the options give. Raises RvlookError if the secrets differ in length."""
    values = leak.options.values
    if len(values[0]) != len(values[1]):
        raise RvlookError("the two secrets differ in length")
    secret = leak.secret(len(values[0]))
    secrets = [secret.with_bytes(value) for value in values]
    with Progress() as progress:
        progress.show("running with %s", values[0].hex())
        one, two = (leak.observe(secret) for secret in secrets)
    result = leak.compared(one, two, secret)
    return ComparedPair(1, secrets, is_own=False, answers=(), channels=result.channels(), result=result, observations=(one, two))


def compare_drawn(leak: Leak, heard: Callable[[ComparedPair], None] = lambda it: None) -> TriedPairs:
    """Compares the run with runs that have drawn secrets. Calls `heard` with each compared pair."""
    options, tried = leak.options, TriedPairs()
    zeros = leak.secret()
    own = zeros.with_bytes(zeros.bytes_in(leak.run))
    end_time = None if options.seconds is None else time.monotonic() + options.seconds
    try:
        with Progress() as progress:
            base = leak.observe(own)  # of the run with the secret of the program
            tries = options.tries or 0
            pairs = drawn_pairs(own.bytes, guesses_of(base, len(own.bytes)), options.seed, options.first, min(tries, options.last or tries))
            tried.again = lambda it: it if it.result else try_pair(leak, own, base, pairs[it.number - pairs[0].number])
            for pair, cut in results_of(partial(compare_indexed, leak, own, base, pairs), len(pairs), options.jobs):
                leak.cut = leak.cut or cut
                with uninterrupted():
                    tried.pairs.append(pair)
                    heard(pair)
                progress.bar(len(tried.pairs), len(pairs), "%d differ" % sum(bool(pair.channels) for pair in tried.pairs))
                if end_time is not None and time.monotonic() > end_time and len(tried.pairs) < len(pairs):
                    tried.cut = "--seconds ended leak after %d of %s" % (len(tried.pairs), counted(len(pairs), "pair"))
                    break
    except KeyboardInterrupt:
        tried.is_interrupted = True
    return tried


def compare_indexed(leak: Leak, own: Secret, base: Observation, pairs: Sequence[Pair], index: int) -> tuple[ComparedPair, str]:
    """Compares the pair at an index; returns the result, and why an observation was cut. With several processes omits the large observations."""
    pair = try_pair(leak, own, base, pairs[index])
    return (pair if leak.options.jobs == 1 else pair._replace(result=None, observations=())), leak.cut


def guesses_of(base: Observation, size: int) -> list[bytes]:
    """Returns guesses of the host for a secret of `size` bytes: aligned bytes of the window that the enclave loads. `base` is the run itself."""
    guesses: dict[bytes, None] = {}
    for activation in base.activations:
        loaded = {at for op in activation.operations if op.kind == "r" for at in range(op.address, op.address + op.width)}
        for offset in range(0, len(activation.before) - size + 1, min(size, WORD)):
            if loaded.issuperset(range(activation.enclave.window + offset, activation.enclave.window + offset + size)):
                guesses[activation.before[offset:offset + size]] = None
    return list(guesses)[:MAX_GUESSES]


def try_pair(leak: Leak, own: Secret, base: Observation, pair: Pair) -> ComparedPair:
    """Compares the runs with the two secrets of a pair. `own` is the secret of the program, and `base` the observation of its run."""
    is_own = pair.first is None
    secrets = (own if pair.first is None else own.with_bytes(pair.first)), own.with_bytes(pair.second)
    observations = (base if is_own else leak.observe(secrets[0])), leak.observe(secrets[1])
    result = leak.compared(*observations, own)
    channels = result.channels()
    answers = [tuple((activation.ended_by, activation.answer) for activation in observation.activations) for observation in observations]
    details = (result, observations) if channels else (None, ())  # equal runs need no details
    return ComparedPair(pair.number, secrets, is_own, answers, channels, *details)


def values_in(texts: Sequence[str]) -> list[bytes]:
    """Returns secrets that are given as hexadecimal digits. Raises RvlookError if a text is not pairs of digits."""
    try:
        return [bytes.fromhex(text) for text in texts]
    except ValueError:
        raise RvlookError("a secret must consist of pairs of hexadecimal digits") from None
