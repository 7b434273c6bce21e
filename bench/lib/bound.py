"""Which stale edits a landing tries within a bound of processor minutes, and in which order.

First come crates that the landing changed: their files or their edits are others, and that isn't owed from before. Then those owed the
longest; of one commit, those that changed themselves before those of which only what is below changed. The rest is by the commit's
hash. A crate is begun where what it is expected to take is left of the bound: by what others have taken so far, since machines differ. One
that takes more than the whole bound is tried in part, its edits by the commit's hash.
"""
import hashlib
import math
import threading
from dataclasses import dataclass
from functools import cached_property

from lib import samples

BOUND_MINUTES = 60
# So many minutes count as tried beforehand that took what was expected, so that the first crate to end doesn't decide alone.
FIRST_MINUTES = 5


@dataclass
class Try:
    """A crate of which these edits are tried, and how many processor minutes that is expected to take on the machine of samples.py."""

    crate: object
    edits: list

    @cached_property
    def minutes(self):
        return samples.expected_minutes(self.crate, self.edits)


class Minutes:
    """What is left of a bound. What a crate is expected to take is held while it runs; what it took is used when it ends."""

    def __init__(self, bound):
        self.bound, self.held, self.used, self.expected = bound, 0.0, 0.0, 0.0
        self.lock = threading.Lock()

    @property
    def speed(self):
        """How many minutes an expected one takes here."""
        return (self.used + FIRST_MINUTES) / (self.expected + FIRST_MINUTES)

    @property
    def left(self):
        return self.bound - self.used - self.held * self.speed

    def begin(self, expected):
        """Returns whether so much is left, and holds it."""
        with self.lock:
            # (what was chosen by what is left now must not fail by how numbers are rounded)
            is_left = expected * self.speed <= self.left + 1e-6
            self.held += expected if is_left else 0.0
            return is_left

    def end(self, expected, used):
        with self.lock:
            self.held -= expected
            self.expected += expected
            self.used += used


def shuffled(seed, it):
    """Returns what a commit's hash puts a name in order by."""
    return hashlib.sha256(f"{seed} {it}".encode()).digest()


def in_order(stale, owed, age_of, seed):
    """Returns what is tried one after the other. `stale` has each crate's stale edits with what changed, `owed` since when an edit is owed."""

    def key(crate):
        parts = stale[crate]
        since = {it: owed[crate.name, it.name] for it in parts if (crate.name, it.name) in owed}
        is_new = any(part == "own" and it not in since for it, part in parts.items())
        age = max((age_of.get(it, math.inf) for it in since.values()), default=-1)
        return not is_new, -age, "own" not in parts.values(), shuffled(seed, crate.name)

    return [Try(it, [*stale[it]]) for it in sorted(stale, key=key)]


def part_of(whole, minutes, seed):
    """Returns as many of a crate's edits as are expected to take so many minutes, by the commit's hash."""
    part = Try(whole.crate, [])
    for edit in sorted(whole.edits, key=lambda it: shuffled(seed, it.name)):
        more = Try(whole.crate, [*part.edits, edit])
        if more.minutes <= minutes:
            part = more
    return part


def next_ones(order, minutes, seed):
    """Returns those of what waits that fit into the minutes that are left, in order."""
    chosen, left = [], minutes.left / minutes.speed
    for it in order:
        if it.minutes * minutes.speed > minutes.bound:
            it = part_of(it, left, seed)
        if it.edits and it.minutes <= left:
            chosen.append(it)
            left -= it.minutes
    return chosen


def try_within(order, minutes, seed, side_by_side):
    """Tries what fits into the minutes. `side_by_side` tries some and returns what was found of each crate, or None of one that it didn't begin."""
    found = {}
    while True:
        chosen = next_ones([it for it in order if it.crate not in found], minutes, seed)
        if not chosen:
            return found
        found |= {crate: it for crate, it in side_by_side(chosen).items() if it is not None}


def try_stale(order, seed, minutes, side_by_side):
    """Tries stale edits within the minutes. Returns what was found of each crate, records and minutes, and each crate's edits that are left."""
    found = try_within(order, minutes, seed, side_by_side)
    tried = {(crate, it.name) for crate, (records, _) in found.items() for it in records}
    left = {one.crate: [it for it in one.edits if (one.crate, it.name) not in tried] for one in order}
    return found, {crate: edits for crate, edits in left.items() if edits}
