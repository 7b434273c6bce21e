"""The kinds of random runs: texts and a script, by a seed."""
from dataclasses import dataclass

from second.def_reader import read_statements
from second.edits import Splice
from second.library import Library
from second.lef_reader import read_lef
from second.random.script_lines import ScriptLines, text_line
from second.random.small_designs import CrowdDesigns, FenceDesigns, RowDesigns, WireDesigns
from second.random.spoiling import LEF_POOL, POOL, Spoiler
from second.script import Session, run_script
from second.tokens import Fault

ASKING = ("check", "length", "box", "cell", "pcell")
INVALID = 0.004


@dataclass
class Run:
    """What a run is given: LEF texts, a DEF text and a script."""

    lefs: list
    design: bytes
    script: bytes


def encoded(text):
    return text.encode("latin-1")


def script_of(lines):
    return b"".join(it + b"\n" for it in lines)


def texts_of(made):
    """Returns random LEF texts, of which there may be two, and a random DEF text."""
    lefs = [encoded(made.lef()) for _ in range(1 + made.chance(0.15))]
    return lefs, encoded(made.design())


def asked(made):
    return [encoded(it) for it in made.questions()]


def opened(seed):
    """A design that is asked for all that it answers."""
    made = ScriptLines(seed)
    lefs, design = texts_of(made)
    return Run(lefs, design, script_of(asked(made)))


def invalid(seed):
    """A design in whose LEF or DEF some numbers are none, or beyond a limit, and some names stand twice."""
    made = ScriptLines(seed)
    which = made.one("lef", "def", "def")
    made.invalid = INVALID if which == "lef" else 0.0
    lefs = [encoded(made.lef())]
    made.invalid = INVALID if which == "def" else 0.0
    design = encoded(made.design())
    made.invalid = 0.0
    return Run(lefs, design, script_of(asked(made)))


def spoilt_def(seed):
    """A design whose DEF has some words or bytes changed."""
    made = ScriptLines(seed)
    lefs, design = texts_of(made)
    return Run(lefs, Spoiler(made.rng).spoilt(design, POOL), b"check\nlength\n")


def spoilt_lef(seed):
    """A design whose last LEF has some words or bytes changed."""
    made = ScriptLines(seed)
    lefs, design = texts_of(made)
    return Run([*lefs[:-1], Spoiler(made.rng).spoilt(lefs[-1], LEF_POOL)], design, script_of(asked(made)))


def edited(seed):
    """A design that lines of all kinds edit and ask."""
    made = ScriptLines(seed)
    lefs, design = texts_of(made)
    lines = made.questions() if made.chance(0.5) else []
    for _ in range(made.between(5, 40)):
        lines.append(made.any_line())
        lines += ["check"] * made.chance(0.6)
        lines += made.questions() if made.chance(0.2) else []
    lines += made.questions()
    return Run(lefs, design, encoded("\n".join(lines) + made.one("\n", "")))


def is_faulty(text):
    try:
        read_statements(text)
    except Fault:
        return True
    return False


def text_edited(seed):
    """A design whose text is edited, so that it mostly still reads."""
    made = ScriptLines(seed)
    lefs, design = texts_of(made)
    lines, text, spoiler = [], design, Spoiler(made.rng)
    for count in range(made.between(5, 30)):
        splice = spoiler.edit_of_text(text, encoded(made.net(f"nX{count}", made.chance(0.5))) + b"\n")
        new = splice.made(text)
        if not is_faulty(new):
            text = new
        elif made.chance(0.6):
            continue
        lines.append(text_line(splice))
        lines += [b"check"] * made.chance(0.7)
        lines += asked(made) if made.chance(0.1) else []
    return Run(lefs, design, script_of([*lines, b"check"]))


def replaced(seed):
    """Designs of which each takes the place of the one before, with one library."""
    made = ScriptLines(seed)
    lefs, design = texts_of(made)
    lines, size = asked(made), len(design)
    for _ in range(made.between(1, 25)):
        new = encoded(made.design())
        lines += [text_line(Splice(0, size, new)), *asked(made)]
        size = size if is_faulty(new) else len(new)
    return Run(lefs, design, script_of(lines))


def followed(made, rounds, edits):
    """Designs of a kind, of which each is edited and asked, and then takes the place of the one before."""
    lef, design = encoded(made.lef()), encoded(made.design())
    library = Library()
    read_lef(lef, library)
    lines, text = [], design
    for turn in range(rounds):
        changing = []
        for _ in range(made.between(*edits)):
            changing += made.edited() + (made.asked() if made.chance(0.8) else [])
        lines += map(encoded, [*made.asked(), *changing])
        session = Session(library, text)
        run_script(session, script_of(encoded(it) for it in changing if it.split()[0] not in ASKING))
        if turn < rounds - 1:
            text = encoded(made.design())
            lines.append(text_line(Splice(0, len(session.design.text), text)))
    return Run([lef], design, script_of([*lines, *map(encoded, made.asked())]))


def rows(seed):
    """Small designs of components in rows."""
    return followed(RowDesigns(seed), 10, (0, 5))


def fences(seed):
    """Small designs of components in fences."""
    return followed(FenceDesigns(seed), 10, (0, 5))


def wires(seed):
    """Small designs of wires that lie close together."""
    return followed(WireDesigns(seed), 5, (0, 5))


def crowds(seed):
    """A design of forty components on thirty nets."""
    return followed(CrowdDesigns(seed), 1, (5, 12))


KINDS = {
    "open": opened,
    "invalid": invalid,
    "spoilt-def": spoilt_def,
    "spoilt-lef": spoilt_lef,
    "edit": edited,
    "text": text_edited,
    "replace": replaced,
    "rows": rows,
    "fences": fences,
    "wires": wires,
    "crowds": crowds,
}


def made(kind, seed, number):
    """Returns the run of a kind, a seed and a number."""
    return KINDS[kind](f"{kind} {seed} {number}")
