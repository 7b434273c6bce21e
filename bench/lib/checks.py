"""Rounds of edits, each tried by one check, and what a check says of each edit.

A caller is proved against its callee's contract and never its body, so an edit changes no goal but those of its own function,
and a check of several edits in different functions tells of each by itself.

An edit with a line 'refuted: CLAUSE' is refused only where this clause is open and its right twin is proved: a proof by hand that
doesn't fit the edited body fails whatever the clause says. Where one doesn't fit the twin either, or hides what becomes of the
clause, both are tried once more without the answers that don't fit, so that a search is asked for these goals.
"""
import enum
import os
import re
import shutil
import subprocess
import tempfile
from dataclasses import dataclass, field

from lib.edits import clause_of, rounds_of
from lib.kit import rt


class Verdict(enum.Enum):
    """What a check says of an edit."""

    REFUSED = "refused"
    # a proof file names what went with the edit, so the contract wasn't asked
    BY_NAMES = "refused, but only by a name that a proof file has"
    PROVED = "NOT REFUSED"
    UNREAD = "BAD EDIT"
    # something is open, but not the clause that the edit says it breaks
    OTHER = "refused, but not at the clause that it names"
    # what is right with the same ways out isn't proved either, so what is open says nothing of the clause
    TWIN = "refused, but its right twin isn't proved"
    # the function isn't proved since it calls one that isn't
    CALLER = "NOT REFUSED by itself"
    UNKNOWN = "not judged"

    @property
    def is_refused(self):
        return self in (Verdict.REFUSED, Verdict.BY_NAMES)


@dataclass
class Outcome:
    """What was found of a crate's edits, each a verdict with what the prover said, the processor seconds, and how many checks it took."""

    found: dict = field(default_factory=dict)
    seconds: float = 0.0
    checks: int = 0


@dataclass
class How:
    """How checks are made: jobs each, whether over kept work, a folder for logs, and the most edits in a check."""

    jobs: int = 1
    kept: bool = True
    log: str = ""
    most: int = 1000


@dataclass
class Said:
    """What a check said, how it ended, and its processor seconds."""

    status: int
    text: str
    seconds: float


def leave_out(file, goals):
    """Takes the answers to these goals out of a file of answers."""
    if not goals:
        return
    kept, leaves = [], False
    with open(file, encoding="utf-8") as it:
        for line in it:
            begun = re.match(r"(?:pub )?([^\s(]+) :", line)
            leaves = begun[1] in goals if begun else leaves
            kept += [] if leaves else [line]
    with open(file, "w", encoding="utf-8") as it:
        it.write("".join(kept))


def run_check(crate, edits, texts, how, kept):
    """Checks a copy of the crate with these texts: the edited functions and what they call, over kept work where there is some."""
    with tempfile.TemporaryDirectory(prefix="wrong-bodies-") as room:
        for part in rt.rtlib.PARTS:
            if os.path.isdir(f"{crate.folder}/{part}"):
                shutil.copytree(f"{crate.folder}/{part}", f"{room}/{part}")
        for path, text in texts.items():
            with open(f"{room}/{path}", "w", encoding="utf-8") as file:
                file.write(text)
        for edit in edits:
            leave_out(f"{room}/{edit.proofs}Answers.antt", edit.left_out)
        only = [word for edit in edits for word in ("--only", edit.function)]
        words = crate.words(["--jobs", str(how.jobs), *only], keeps=False)
        words = [*rt.rtlib.guarded(), rt.rtlib.RATTLE, "check", *words, "--incremental", kept]
        pipes = {"stdin": subprocess.DEVNULL, "stdout": subprocess.PIPE, "stderr": subprocess.STDOUT}
        with subprocess.Popen(words, cwd=room, text=True, errors="replace", **pipes) as started:
            text = started.stdout.read()
            _, ended, used = os.wait4(started.pid, 0)
            started.returncode = os.waitstatus_to_exitcode(ended)
        return Said(started.returncode, text, used.ru_utime + used.ru_stime)


def unread(crate, edits, said, texts):
    """Returns why a check says nothing of its edits, where it couldn't read them or didn't end as it must."""
    lines = said.text.rstrip("\n").split("\n")
    bad = next((it for it in lines if rt.unread(it, texts)), "")
    if bad:
        return f"the prover can't read the edited text: {bad[:200]}"
    if rt.rtlib.STALE.search(said.text):
        return "the kept work of a library can't be used"
    if said.status not in (0, 1, 3) or not re.fullmatch(r"only=\d+ proved=\d+", lines[-1]):
        return f"the check did not reach the prover: {' / '.join(lines[-3:])[:300]}"
    edited = {f"{crate.name}::{it.function}" for it in edits}
    others = [it for it in re.findall(r"(?m)^fn (\S+): not proved", said.text) if it not in edited]
    return f"{others[0]} isn't proved, and no edit changes it" if others else ""


OF_NAMES = re.compile(r"has no field|is not in scope|has no `|that can be named from here|was not admitted|\(nearest: ")
PLACED = re.compile(r"(?:note: )?(?:\./)?(\S+?):(\d+):\d+: (.*)")
OPEN = re.compile(r"it is not proved|.*may overflow|.*not proved")


GOAL = re.compile(r"(?:\(|error: )`([^`]+)`")


def goal_of(line):
    """Returns the goal that a line of a check speaks of."""
    found = GOAL.search(line)
    return found[1] if found else ""


def complaints(edit, text):
    """Returns the lines in which a check complains of the edited function itself: its open goals, and errors of its proof."""
    for line in text.split("\n"):
        at = PLACED.match(line)
        if not at:
            continue
        in_body = line.startswith("note: ") and at[1] == edit.path and edit.first <= int(at[2]) <= edit.last
        if in_body and OPEN.match(at[3]) or at[1].startswith(edit.proofs) and at[3].startswith("error"):
            yield line


def judge(edit, text):
    """Returns the verdict on one edit by what a check said of its function, and the line that says so."""
    name = f"{edit.crate.name}::{edit.function}"
    line = re.search(rf"(?m)^fn {re.escape(name)}: (.*)", text)
    if not line:
        return Verdict.UNKNOWN, f"the check has no line on {name}"
    if line[1].startswith("proved"):
        return Verdict.PROVED, "the function is still proved"
    if not re.match(r"not proved|no proof", line[1]):
        return Verdict.UNKNOWN, line[0][:200]
    own = [*complaints(edit, text)]
    edit.misfits.update(goal_of(it) for it in own if f"{edit.proofs}Answers.antt:" in it)
    goals = [it for it in own if it.startswith("note: ") or not OF_NAMES.search(it)]
    search = re.search(r"`search` did not prove .*?(?=; it calls|$)", line[1])
    if edit.refuted and (own or search):
        goals = [it for it in goals if clause_of(goal_of(it)) == edit.refuted]
        return (Verdict.REFUSED, goals[0][:200]) if goals else (Verdict.OTHER, (own[0] if own else search[0])[:200])
    if goals or search:
        return Verdict.REFUSED, (goals[0] if goals else search[0])[:200]
    if own:
        return Verdict.BY_NAMES, own[0][:200]
    return Verdict.CALLER, line[1][:200]


def try_round(crate, edits, texts, how, kept):
    """Returns what one check says of each of these edits, and its processor seconds."""
    said = run_check(crate, edits, texts, how, kept)
    if said.status < 0:
        # (killed, most likely for memory)
        said = run_check(crate, edits, texts, how, kept)
    if how.log:
        with open(f"{how.log}/{crate.name}", "a", encoding="utf-8") as file:
            file.write(f"## {' '.join(it.name for it in edits)}\n{said.text}## status {said.status}, {said.seconds:.1f} s\n")
    why = unread(crate, edits, said, texts)
    if not why:
        return {it: judge(it, said.text) for it in edits}, said.seconds
    # an error of the front end names its place, or the function that isn't there: those edits are the bad ones
    missing = re.findall(r"has no function `([^`]+)`", said.text)
    places = {(it[1], int(it[2])) for it in re.finditer(r"(?m)^(?:\./)?(src/\S+?):(\d+):\d+: error", said.text)}
    is_bad = lambda it: it.function in missing or any(path == it.path and it.first <= line <= it.last for path, line in places)
    bad = [it for it in edits if is_bad(it)] or edits
    return {it: (Verdict.UNREAD, why) if it in bad else (Verdict.UNKNOWN, "another edit of the check can't be read") for it in edits}, said.seconds


def kept_work(crate, how, room):
    """Returns the folder of checked modules that checks start from: a copy of what the crate's own checks kept, or an empty one."""
    kept = f"{room}/kept"
    if how.kept and os.path.isdir(f"{crate.folder}/out/incremental"):
        shutil.copytree(f"{crate.folder}/out/incremental", kept)
    else:
        os.makedirs(kept)
    return kept


def try_in_rounds(crate, edits, how, kept, outcome):
    """Tries edits of a crate: all at once, then those that a check left open once more without the others, and at last alone."""
    left, alone, found = edits, [], {}
    for most in (how.most, how.most, 1):
        if most == 1:
            left, alone = [*left, *alone], []
        open_ones = []
        for batch, texts in rounds_of(left, most):
            told, seconds = try_round(crate, batch, texts, how, kept)
            found.update(told)
            outcome.seconds += seconds
            outcome.checks += 1
            for edit, (verdict, _) in told.items():
                if len(batch) > 1 and verdict in (Verdict.CALLER, Verdict.UNKNOWN):
                    open_ones.append(edit)
                elif len(batch) > 1 and verdict is Verdict.UNREAD:
                    alone.append(edit)
        left = open_ones
    return found


def told_by_both(edit, twin, found):
    """Returns the verdict on an edit by what was found of it and of its twin, and what says so."""
    verdict, why = found[edit]
    if twin and verdict in (Verdict.REFUSED, Verdict.OTHER) and found[twin][0] is not Verdict.PROVED:
        return Verdict.TWIN, f"{why}; its twin: {found[twin][0].value}: {found[twin][1]}"
    if not twin and verdict is Verdict.REFUSED and edit.refuted in {clause_of(it) for it in edit.left_out}:
        return Verdict.OTHER, f"without its answers by hand: {why}"
    return verdict, why


def try_edits(crate, edits, how):
    """Tries a crate's edits and their twins, and once more without the answers that don't fit where those tell nothing of a clause."""
    outcome = Outcome({it: (Verdict.UNREAD, it.why) for it in edits if it.why})
    good = [it for it in edits if not it.why]
    twins = {it: it.twin() for it in good if it.rights}
    with tempfile.TemporaryDirectory(prefix="wrong-bodies-kept-") as room:
        kept = kept_work(crate, how, room)
        found = try_in_rounds(crate, [*good, *twins.values()], how, kept, outcome)
        again = []
        for edit in good:
            both = [edit, twins[edit]] if edit in twins else [edit]
            misfits = set().union(*(it.misfits for it in both))
            if misfits and told_by_both(edit, twins.get(edit), found)[0] in (Verdict.OTHER, Verdict.TWIN):
                again += both
                for it in both:
                    it.left_out = misfits
        found.update(try_in_rounds(crate, again, how, kept, outcome))
    outcome.found.update({it: told_by_both(it, twins.get(it), found) for it in good})
    return outcome
