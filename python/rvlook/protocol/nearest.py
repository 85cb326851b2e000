"""Finds the known name that is most similar to an unknown one, in bounded time."""
from __future__ import annotations

from difflib import get_close_matches
from heapq import nlargest
from typing import Iterable

MIN_SIMILARITY = 0.6  # similarity by difflib, from 0 to 1
MAX_COMPARED = 100  # names that difflib compares, which takes some 50 microseconds each
MAX_PAIRS = 12  # of an unknown name with more pairs of adjacent characters, only 12 to 23 pairs are searched in each of many names
MAX_NAME_LENGTH = 120  # characters of an unknown name; a longer one has no suggestion


def meant(name: str, known: Iterable[str], otherwise: str = "") -> str:
    """Returns the end of a message about an unknown name: the most similar known name, or another remedy if no name is similar."""
    near = nearest(name, known)
    return "; did you mean '%s'?" % near if near else otherwise and "; " + otherwise


def nearest(name: str, known: Iterable[str]) -> str | None:
    """Returns the known name most similar to an unknown one, or None. If there are many names, only those with the most common pairs are compared."""
    if not name or len(name) > MAX_NAME_LENGTH:
        return None
    longest = len(name) * (2 / MIN_SIMILARITY - 1)  # characters; the similarity to a longer name is less than MIN_SIMILARITY
    candidates = [name for name in known if len(name) <= longest]
    if len(candidates) > MAX_COMPARED:
        distance = max(1, (len(name) - 1) // MAX_PAIRS)
        pairs = {name[start:start + 2] for start in range(0, len(name) - 1, distance)} or {name}
        candidates = nlargest(MAX_COMPARED, candidates, key=lambda it: sum(pair in it for pair in pairs))
    matches = get_close_matches(name, candidates, n=1, cutoff=MIN_SIMILARITY)
    return matches[0] if matches else None
