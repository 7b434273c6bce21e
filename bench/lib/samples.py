"""Which crates' edits a landing tries again though their records aren't stale."""
import hashlib
import subprocess

from lib.checks import How
from lib.edits import rounds_of
from lib.kit import TOP, lines_of

# Measured from nothing: a batch proves what the edited functions call, and then searches for each edit; a further round loads
# the libraries below once more.
MINUTES_A_LINE = 0.0014
MINUTES_AN_EDIT = 0.06
MINUTES_A_FURTHER_ROUND = 2.0


def commit():
    """Returns the commit that is tried, or nothing where there is none."""
    ran = subprocess.run(["git", "-C", TOP, "rev-parse", "HEAD"], capture_output=True, text=True)
    return ran.stdout.strip()


def ages():
    """Returns of each commit how many came after it."""
    ran = subprocess.run(["git", "-C", TOP, "rev-list", "HEAD"], capture_output=True, text=True)
    return {commit: age for age, commit in enumerate(ran.stdout.split())}


def expected_minutes(crate, edits):
    """Returns about how many processor minutes it takes to try these edits of a crate from nothing."""
    rounds = len(rounds_of([it for it in edits if not it.why], How.most))
    return MINUTES_A_LINE * lines_of(crate) + MINUTES_AN_EDIT * len(edits) + MINUTES_A_FURTHER_ROUND * max(0, rounds - 1)


def picked(edits_of, seed, minutes):
    """Returns the crates that a seed picks, of those that have edits: as many as fit into so many processor minutes, and at least one."""
    order = sorted(edits_of, key=lambda it: hashlib.sha256(f"{seed} {it.name}".encode()).digest())
    chosen, left = order[:1], minutes
    for crate in order:
        left -= expected_minutes(crate, edits_of[crate])
        if left >= 0 and crate not in chosen:
            chosen.append(crate)
        elif left < 0:
            left += expected_minutes(crate, edits_of[crate])
    return chosen
