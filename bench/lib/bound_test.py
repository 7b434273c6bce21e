"""Landings over small crates that no prover sees: what is tried, in which order, what is owed then, and what the records and the list say."""
import os
import tempfile

from lib import bound, owed
from lib.checks import Verdict
from lib.edits import edits_in
from lib.kit import crates
from lib.records import Today, records_of, take, write_records

CRATES = {"low": "", "middle": "low", "upper": "middle", "large": "low"}
SOURCE = """//! A crate of the test.

pub fn one() -> u32
    ensures { result ≡ 1 }
{
    1
}

pub fn two() -> u32
    ensures { result ≡ 2 }
{
    2
}
"""
EDITS = {"one": "old:     1\nnew:     3", "two": "old:     2\nnew:     3"}
# (edits of one function take a round each, so that these alone are expected to take more than the bound)
ROUNDS = {f"one_{number}": f"old:     1\nnew:     {number}" for number in range(3, 40)}
AGES = {"new": 1, "older": 5, "oldest": 9}


def write(path, text):
    os.makedirs(os.path.dirname(path), exist_ok=True)
    with open(path, "w", encoding="utf-8") as file:
        file.write(text)


def folder_of(crate):
    return f"{crate.folder}/wrong"


def make(top):
    """Writes the crates and their edits. Returns each crate's edits."""
    write(f"{top}/crates.txt", "".join(f"{name}: {below}\n" for name, below in CRATES.items()))
    for name in CRATES:
        write(f"{top}/crates/{name}/src/lib.rt", SOURCE)
        for edit, lines in (ROUNDS if name == "large" else EDITS).items():
            write(f"{top}/crates/{name}/wrong/{edit}.edit", f"file: src/lib.rt\n{lines}\n")
    known = crates(top)
    return {known[it]: edits_in(known[it], folder_of(known[it]))[0] for it in CRATES}


def records(edits, today, verdict=Verdict.REFUSED):
    return [today.record(it, verdict, "by the test") for it in edits]


def record_all(edits_of):
    """Writes a record of each edit."""
    for crate, edits in edits_of.items():
        write_records(folder_of(crate), records(edits, Today()), {it.name for it in edits})


def stale_of(edits_of):
    """Returns the stale edits of each crate that has some, each with what changed."""
    today = Today()
    found = {it: today.stale(edits, records_of(folder_of(it))) for it, edits in edits_of.items()}
    return {it: edits for it, edits in found.items() if edits}


def names_of(edits_of):
    return {it.name: len(edits) for it, edits in edits_of.items()}


def lander(slowness):
    """Returns a stand-in for checks side by side that tries one after the other and takes so many times what is expected, and the names that it tried."""
    tried = []

    def side_by_side(chosen, minutes):
        found = {}
        for it in chosen:
            found[it.crate] = None
            if minutes.begin(it.minutes):
                tried.append(it.crate.name)
                minutes.end(it.minutes, slowness * it.minutes)
                found[it.crate] = records(it.edits, Today()), slowness * it.minutes
        return found

    return side_by_side, tried


def landed(stale, since, most, slowness=1.0):
    """Returns in which order a landing with such a bound tries crates, what it found, what is left, and the minutes."""
    minutes, (side_by_side, tried) = bound.Minutes(most), lander(slowness)
    found, left = bound.try_stale(bound.in_order(stale, since, AGES, "seed"), "seed", minutes, lambda chosen: side_by_side(chosen, minutes))
    return tried, found, left, minutes


def told_of_records(edits_of):
    """Yields what must be so of records that are a line an edit."""
    low, middle, upper, large = edits_of
    record_all(edits_of)
    yield "no record is stale once all are written", not stale_of(edits_of)
    write(edits_of[middle][0].file, f"file: src/lib.rt\n{EDITS['one']} + 1\n")
    stale = [(it.name, *parts.values()) for it, parts in stale_of(edits_of).items()]
    yield "an edit that changes makes its own record stale alone", stale == [("middle", "own")]
    write(f"{middle.folder}/src/lib.rt", SOURCE.replace("    2\n", "    1 + 1\n"))
    yield "a body makes its crate's records stale and none above", names_of(stale_of(edits_of)) == {"middle": 2}
    write(f"{middle.folder}/src/lib.rt", SOURCE)
    write_records(folder_of(middle), records(edits_of[middle][:1], Today()), {"one.edit"})
    yield "an edit that is gone has no record", [*records_of(folder_of(middle))] == ["one.edit"]
    write_records(folder_of(middle), records(edits_of[middle][:1], Today(), Verdict.PROVED), {"one.edit"})
    yield "one that isn't refused has none either", not records_of(folder_of(middle))
    record_all(edits_of)
    write(f"{low.folder}/src/lib.rt", SOURCE.replace("result ≡ 2", "result ≡ 1 + 1"))
    parts = {it.name: {*parts.values()} for it, parts in stale_of(edits_of).items()}
    yield "a contract makes stale what stands on it", parts == {"low": {"own"}, "middle": {"below"}, "upper": {"below"}, "large": {"below"}}


def told_of_landings(edits_of):
    """Yields what must be so of landings after a contract of the lowest crate changed."""
    low, middle, upper, large = edits_of
    stale = stale_of(edits_of)
    small = {it: parts for it, parts in stale.items() if it is not large}
    tried, found, left, minutes = landed(small, {}, 60)
    yield "what fits is all tried, what changed itself first", tried[0] == "low" and len(tried) == 3 and not left
    since = {("upper", "one.edit"): "older", ("middle", "one.edit"): "new", ("middle", "two.edit"): "oldest"}
    yield "then the longest owed", landed(small, since, 60)[0] == ["low", "middle", "upper"]
    since["upper", "two.edit"] = "of no history"
    yield "a commit that isn't known is the oldest", landed(small, since, 60)[0] == ["low", "upper", "middle"]
    since["low", "one.edit"] = since["low", "two.edit"] = "new"
    yield "what was owed before doesn't come first for having changed", landed(small, since, 60)[0] == ["upper", "middle", "low"]
    most = 2.5 * bound.Try(low, edits_of[low]).minutes
    tried, found, left, minutes = landed(small, since, most)
    yield "the bound is kept, and what doesn't fit is left", tried == ["upper", "middle"] and names_of(left) == {"low": 2} and minutes.used <= most
    slow = landed(small, {}, 12 * most, 40.0)
    yield "on a slow machine fewer are begun", len(slow[0]) == 1 and len(slow[2]) == 2
    tried, found, left, minutes = landed({large: stale[large]}, {}, 60)
    number = len(found[large][0])
    yield "a crate that is too large is tried in part", 0 < number < len(ROUNDS) and names_of(left) == {"large": len(ROUNDS) - number}
    yield "within the bound", minutes.used <= 60


def told_of_lists(edits_of, top):
    """Yields what must be so of the list of what is owed, and of records that are taken from a log."""
    low, middle, upper, large = edits_of
    file, today = f"{top}/crates/OWED", Today()
    before = {("low", "one.edit"): "older", ("gone", "two.edit"): "older"}
    owed.write(before, file)
    yield "the list is read as it was written", owed.read(file) == before
    now = owed.of_today({it: parts for it, parts in stale_of(edits_of).items() if it in (low, upper)}, before, "head")
    wanted = {("low", "one.edit"): "older", ("low", "two.edit"): "head", ("upper", "one.edit"): "head", ("upper", "two.edit"): "head"}
    yield "an owed edit keeps its commit, a new one gets the last, one that is gone goes", now == wanted
    lines = ["owed: low: 1 since older, 1 since now", "owed: upper: 2 since now", "owed: 4 edits of 2 crates"]
    yield "what is owed is told by the crate", owed.told(now, before) == lines
    one, two = records(edits_of[low], today)
    other = str(two).replace(two.sums[1], "0" * 16)
    log = f"wrong_bodies: record of low: {one}\nelse\nwrong_bodies: record of low: {other}\nwrong_bodies: record of gone: {two}\n"
    yield "of a log the records of what stands are taken", take(log, edits_of, today) == (1, 3)
    yield "and what they say is no longer stale", [it.name for it in stale_of(edits_of)[low]] == ["two.edit"]


def run():
    """Makes the landings. Returns how many things were as they must be, and how many not."""
    with tempfile.TemporaryDirectory(prefix="wrong-bodies-bound-") as top:
        edits_of = make(top)
        results = [*told_of_records(edits_of), *told_of_landings(edits_of), *told_of_lists(edits_of, top)]
    for what, is_right in results:
        print(f"wrong_bodies: {'as it must be' if is_right else 'WRONG'}: {what}", flush=True)
    passed = sum(is_right for _, is_right in results)
    return passed, len(results) - passed
