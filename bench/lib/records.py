"""What edits were tried on, as sums, and the records of it beside them.

An edit is refused or not by three things, so its record has three sums: of the edit's text; of the sources, specs and proofs of its
crate; and of what is below, which is the kit's logic and what a proof above can see of each crate below: its specs, its lemmas, and
its sources without the bodies of functions. A record is stale where one of them isn't today's.

Which of the libraries below a crate lists in crates.txt is in no sum: a text that hasn't changed names the same things as before or
doesn't compile, and search takes what a text names and the contracts of what it calls. A library that comes or goes below changes the
third sum.
"""
import hashlib
import os
import re
from dataclasses import dataclass, field

from lib.checks import Verdict
from lib.edits import FUNCTION, body_of, end_of
from lib.kit import logic_line, rt

RECORD = "TRIED"
HEAD = """# What each edit of this folder was tried on, and what refused it; bench/wrong_bodies writes it.
# The sums are of the edit, of the crate, and of what is below (bench/lib/records.py).
"""
LINE = re.compile(r"(\S+\.edit) (\S+) (\w+) (\w+) (\w+): (.*)")
LEFT_OUT = re.compile(r" *(?://|#\[(?:inline|cold|tactic)\b)")


def without_bodies(text):
    """Returns a source file as a proof above it can see it, by the layout of rt fmt: without comments, the bodies of functions, and
    functions that no other crate can name."""
    lines, kept, at = text.split("\n"), [], 0
    while at < len(lines):
        line = lines[at]
        if FUNCTION.match(line) and not line.rstrip().endswith((";", "}")):
            end = end_of(lines, at)
            is_own = line.startswith(("fn ", "pub(", "const fn "))
            kept += [] if is_own else lines[at : body_of(lines, at, end) + 1]
            at = end + is_own
        else:
            kept += [line] if line and not LEFT_OUT.match(line) else []
            at += 1
    return "\n".join(kept)


def files_of(folder, parts):
    """Returns the files of these folders of a crate, in order, each with its path in the crate."""
    for part in parts:
        for at, folders, names in os.walk(f"{folder}/{part}"):
            folders.sort()
            for name in sorted(names):
                yield os.path.relpath(f"{at}/{name}", folder), f"{at}/{name}"


def text_of(file):
    with open(file, encoding="utf-8", errors="replace") as it:
        return it.read()


def seen_above(crate):
    """Returns what a proof above a crate can see of it, file by file."""
    for path, file in files_of(crate.folder, ("src", "specs", "proofs")):
        if path.startswith("src/"):
            yield path, without_bodies(text_of(file))
        elif path.startswith("specs/") or os.path.dirname(path) == "proofs":
            yield path, text_of(file)


def sum_over(parts):
    """Returns a short sum of names and their texts."""
    sums = hashlib.sha256()
    for part in parts:
        for it in part:
            sums.update(f"{len(it.encode())} ".encode() + it.encode())
    return sums.hexdigest()[:16]


@dataclass(frozen=True)
class Record:
    """A line of a record: an edit's name and function, its three sums, and the verdict with what the prover said."""

    name: str
    function: str
    sums: tuple
    said: str

    def __str__(self):
        return f"{self.name} {self.function} {' '.join(self.sums)}: {self.said}"

    @property
    def is_refused(self):
        verdict = self.said.partition(": ")[0]
        return any(it.is_refused for it in Verdict if it.value == verdict)


@dataclass
class Today:
    """The sums of what stands now. Those of a crate are made once, so one of these holds only while no file changes."""

    own: dict = field(default_factory=dict)
    seen: dict = field(default_factory=dict)
    below: dict = field(default_factory=dict)

    def of(self, edit):
        """Returns the three sums of an edit."""
        crate = edit.crate
        if crate.name not in self.own:
            self.own[crate.name] = sum_over((path, text_of(file)) for path, file in files_of(crate.folder, rt.rtlib.PARTS))
            names = sorted(crate.below(), key=lambda it: it.name)
            self.below[crate.name] = sum_over([("logic", logic_line()), *((it.name, self.seen_of(it)) for it in names)])
        return sum_over([(edit.name, text_of(edit.file))]), self.own[crate.name], self.below[crate.name]

    def seen_of(self, crate):
        if crate.name not in self.seen:
            self.seen[crate.name] = sum_over(seen_above(crate))
        return self.seen[crate.name]

    def record(self, edit, verdict, why):
        """Returns the record of an edit that has just been tried."""
        return Record(edit.name, edit.function or "none", self.of(edit), f"{verdict.value}: {why}")

    def stale(self, edits, records):
        """Returns those of a crate's edits whose record is stale, each with what changed: 'own', the edit or its crate, or 'below'."""
        found = {}
        for edit in edits:
            known, sums = records.get(edit.name), self.of(edit)
            if not known or known.sums[:2] != sums[:2]:
                found[edit] = "own"
            elif known.sums != sums:
                found[edit] = "below"
        return found


def sum_of(crate, edits):
    """Returns the sums of these edits of a crate as its files are now."""
    return [Today().of(it) for it in edits]


def read_line(line):
    """Returns the record of a line, or None where it is none."""
    found = LINE.fullmatch(line.rstrip("\n"))
    return Record(found[1], found[2], found.groups()[2:5], found[6]) if found else None


def records_of(folder):
    """Returns the records of a folder by the names of their edits."""
    try:
        found = [read_line(it) for it in text_of(f"{folder}/{RECORD}").split("\n")]
    except OSError:
        return {}
    return {it.name: it for it in found if it}


def write_records(folder, tried, names):
    """Writes what these tries found in the place of what the records said of them. One that wasn't refused, or is no edit of the folder, has none."""
    records = {**records_of(folder), **{it.name: it for it in tried}}
    kept = [records[it] for it in sorted(records) if it in names and records[it].is_refused]
    with open(f"{folder}/{RECORD}", "w", encoding="utf-8") as file:
        file.write(HEAD + "".join(f"{it}\n" for it in kept))


def take(log, edits_of, today):
    """Writes the records that a log has, of edits that stand as they were tried. Returns how many those are, and how many it has."""
    said, taken = re.findall(r"wrong_bodies: record of (\S+): (.*)", log), 0
    for crate, edits in edits_of.items():
        sums = {it.name: today.of(it) for it in edits}
        records = [read_line(line) for name, line in said if name == crate.name]
        good = [it for it in records if it and sums.get(it.name) == it.sums]
        taken += len(good)
        if good:
            write_records(f"{crate.folder}/wrong", good, {*sums})
    return taken, len(said)
