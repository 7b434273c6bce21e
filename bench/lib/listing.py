"""Edits by their function and by the clause that their record says was left open, so that two that teach the same are seen side by side."""
import re

from lib.edits import BLOCK, FUNCTION, source_of

# A goal's name in what the prover said: behind the place of an error in a proof, or at the end of a note on the source.
GOAL = re.compile(r"error: `([^`]+)`|\(`([^`]+)`\)|did not prove `([^`]+)`")


def goal_of(said):
    """Returns the goal that a record says was left open, or nothing where it names none."""
    found = GOAL.search(said)
    return next(it for it in found.groups() if it) if found else ""


def subject_of(goal):
    """Returns what a goal is of: a clause by its name, or another part of a contract."""
    if "-requires" in goal:
        return f"requires of {goal.partition('-requires')[0]}"
    if goal.startswith("returns"):
        named = re.search(r"-clause-(\w+)", goal)
        return named[1] if named else "ensures"
    kinds = {"loop": "a loop's invariant", "invariant_of": "invariant", "": "no goal is recorded"}
    first = goal.partition("-")[0]
    return kinds.get(first, first)


def is_public(edit):
    """Returns whether the edited function is public by its text: 'pub fn', or one of an impl of a trait."""
    lines = source_of(edit).split("\n")
    begin = next(it for it in range(edit.first - 1, edit.last) if FUNCTION.match(lines[it]))
    if re.match(r" *pub (const |unsafe )*fn", lines[begin]):
        return True
    indent = len(FUNCTION.match(lines[begin])[1])
    above = ((at, BLOCK.match(lines[at])) for at in range(begin, -1, -1))
    block = next((at for at, found in above if found and len(found[1]) < indent), begin)
    head = " ".join(lines[block:begin]).partition("{")[0]
    return bool(re.match(r" *(unsafe )?impl\b.* for ", head))


def by_function(edits, records):
    """Returns lines on a crate's edits: each function, and under it the clauses with the edits that leave them open."""
    groups = {}
    for edit in sorted((it for it in edits if not it.why), key=lambda it: (it.path, it.first)):
        record = records.get(edit.name)
        goal = goal_of(record.said) if record else ""
        clauses = groups.setdefault((edit.function, is_public(edit)), {})
        clauses.setdefault(subject_of(goal), []).append((edit.name.removesuffix(".edit"), goal))
    for (function, public), clauses in groups.items():
        yield f"  {'pub ' if public else ''}{function}"
        for clause, its in clauses.items():
            yield f"    {clause}: {', '.join(f'{name} ({goal})' if goal else name for name, goal in its)}"
