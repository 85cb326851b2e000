"""The options of `verify` (docs/VERIFY.md)."""
from __future__ import annotations

from dataclasses import dataclass
from typing import Optional, Sequence


@dataclass(frozen=True)
class VerifyOptions:
    """The options of `verify`. A *place* is a text PLACE or PLACE:BYTES with an address or a symbol."""
    slot: int = 0  # the slot of the enclave
    at: Sequence[str] = ()  # the places of the secrets in the region
    public: Sequence[str] = ()  # what may depend on the secret
    must_know: Sequence[str] = ()  # the places of bytes that the host must know
    must_matter: Sequence[str] = ()  # the places of bytes of the secret on which some output must depend
    wiped: bool = False  # whether nothing may depend on the secret at a stop
    given: Sequence[str] = ()  # the places in the window whose bytes are those of the run itself
    length: Sequence[str] = ()  # places in the window, each with the largest value of a load: PLACE:N
    allow: Sequence[str] = ()  # the places of instructions whose accesses are taken to be right
    calm: bool = False  # whether the host changes the window only between two activations
    merges: bool = True  # whether the states of all stops are merged, for any number of activations; False with --each
    activations: Optional[int] = None  # the number of activations of a path; None: as many as the run itself has
    bound: int = 64  # rounds of a loop that are followed
    loops: bool = False  # whether paths are merged at the heads of loops whose number of rounds the host chooses
    seconds: float = 60  # the seconds of the whole run of `verify`
    timeout: int = 5000  # milliseconds of a query to z3
    replay: int = 10  # so that every 10th path is replayed; 0: only findings are replayed
    path_steps: int = 2000000  # the most steps of a path
    scripts: Optional[str] = None  # the folder for the inputs of findings
    symbols: Optional[str] = None  # the file of the symbols, if the image has none
