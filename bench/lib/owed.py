"""The list of owed edits, crates/OWED: those whose record is stale and that no landing has tried since, each with the commit since when.

What is owed follows from the records; the list adds since when, by which the longest owed are tried first.
"""
import collections
import re

from lib.kit import TOP

FILE = f"{TOP}/crates/OWED"
HEAD = "# The wrong bodies that no landing has tried since the commit that made their records stale; bench/wrong_bodies --owe writes it.\n"


def read(file=FILE):
    """Returns since which commit each edit is owed, by the names of its crate and its own."""
    try:
        with open(file, encoding="utf-8") as it:
            found = re.findall(r"(?m)^(\S+) (\S+\.edit) (\w+)$", it.read())
    except OSError:
        return {}
    return {(crate, edit): commit for crate, edit, commit in found}


def of_today(stale, known, commit):
    """Returns what is owed now: each stale edit, since when the list says, or since this commit."""
    names = [(crate.name, edit.name) for crate, edits in stale.items() for edit in edits]
    return {it: known.get(it, commit) for it in names}


def write(owed, file=FILE):
    with open(file, "w", encoding="utf-8") as it:
        it.write(HEAD + "".join(f"{crate} {edit} {commit}\n" for (crate, edit), commit in sorted(owed.items())))


def told(owed, known):
    """Returns a line for each crate of which something is owed, with how many edits since when, and one line on all. `known` is the list as it stands."""
    crates = {}
    for (crate, edit), commit in owed.items():
        since = commit[:12] if (crate, edit) in known else "now"
        crates.setdefault(crate, collections.Counter())[since] += 1
    lines = [f"owed: {crate}: {', '.join(f'{number} since {since}' for since, number in counts.items())}" for crate, counts in crates.items()]
    return [*lines, f"owed: {len(owed)} edits of {len(crates)} crates"]
