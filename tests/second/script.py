"""A run of a script: its lines, what each answers, and the text in the end."""
import re
from dataclasses import dataclass, field

from second import edits, measures
from second.clauses import SECTIONS
from second.design import Design
from second.diagnostics import diagnostics
from second.edits import Refused, refuse_if
from second.geometry import ORIENTS
from second.lef_reader import read_lef
from second.library import Library
from second.nets import nets_of
from second.tokens import Fault, whole_number

ESCAPED = {b"n": b"\n", b"r": b"\r", b"t": b"\t", b"\\": b"\\"}
TEXT_LINE = re.compile(rb"[ \t]*text[ \t]+([^ \t]+)[ \t]+([^ \t]+)")
ROUTE_LINE = re.compile(rb"[ \t]*route[ \t]+[^ \t]+[ \t]+")


class Bad(Exception):
    """The line is none of a script."""


def require(is_so):
    if not is_so:
        raise Bad


@dataclass
class Line:
    """A line of a script: its number from 1 on, its bytes, and its words."""

    number: int
    text: bytes
    words: list = field(init=False)

    def __post_init__(self):
        self.words = [it for it in re.split(rb"[ \t]+", self.text) if it]

    @property
    def command(self):
        return self.words[0]

    def arguments(self, *counts):
        """Returns the words after the command, of which there must be one of these counts."""
        require(len(self.words) - 1 in counts)
        return self.words[1:]


def lines_of(script):
    """Returns the lines of a script that ask something. A carriage return before a line feed belongs to the end of its line."""
    texts = script.split(b"\n")
    ended = [it.removesuffix(b"\r") for it in texts[:-1]]
    numbered = enumerate([*ended, texts[-1]], 1)
    return [Line(number, it) for number, it in numbered if it.strip(b" \t") and not it.startswith(b"#")]


def unescaped(text):
    """Returns the bytes that a text line puts."""
    require(re.fullmatch(rb"(?:[^\\]|\\[nrt\\])*", text, re.S))
    return re.sub(rb"\\(.)", lambda found: ESCAPED[found[1]], text)


class Session:
    """A design that the lines of a script ask of and edit."""

    def __init__(self, library, text):
        self.library = library
        self.design = Design(library, text)

    def answer(self, line):
        """Returns the answer to a line: its lines, without their ends."""
        command = line.command.decode("latin-1")
        ask = getattr(self, f"ask_{command}", None)
        if ask is not None:
            return ask(line)
        edit = getattr(self, f"edit_{command}", None)
        require(edit is not None)
        text = edit(line)
        self.design = Design(self.library, text)
        return [b"ok %d" % line.number]

    # ---- What is asked

    def ask_check(self, line):
        line.arguments(0)
        found = diagnostics(self.design)
        return [*found, b"diagnostics %d" % len(found)]

    def ask_show(self, line):
        section, name = line.arguments(2)
        require(section in SECTIONS)
        entry = self.design.entry(section, name)
        refuse_if(entry is None, "E1")
        return [self.design.text[entry.begin : entry.end]]

    def net(self, name):
        found = nets_of(self.design).get(name)
        refuse_if(found is None, "E1")
        return found

    def ask_length(self, line):
        names = line.arguments(0, 1)
        if not names:
            return [b"total %d" % measures.total_length(self.design)]
        return [b"length %s %d" % (names[0], self.net(names[0]).length)]

    def ask_box(self, line):
        (name,) = line.arguments(1)
        found = measures.box_of(self.net(name))
        return [b"box %s none" % name if found is None else b"box %s %d %d %d %d" % (name, *found)]

    def cell(self, column, row):
        """Returns the numbers of a cell of the grid, and the cell."""
        column, row = whole_number(column), whole_number(row)
        refuse_if(column is None or row is None, "E5")
        found = measures.cell(self.design, column, row)
        refuse_if(found is None, "E9")
        return column, row, found

    def ask_cell(self, line):
        column, row, layer = line.arguments(3)
        refuse_if(layer not in self.library.layers, "E1")
        column, row, cell = self.cell(column, row)
        return [b"cell %d %d %s %d" % (column, row, layer, measures.area_of_shapes(self.design, cell, layer))]

    def ask_pcell(self, line):
        column, row, cell = self.cell(*line.arguments(2))
        return [b"pcell %d %d %d" % (column, row, measures.area_of_components(self.design, cell))]

    # ---- Edits, each of which returns the new text

    def spliced(self, splices):
        return edits.spliced(self.design.text, splices)

    def edit_place(self, line):
        name, x, y, orient = line.arguments(4)
        require(orient in ORIENTS)
        return self.spliced(edits.place(self.design, name, whole_number(x), whole_number(y), orient))

    def edit_unplace(self, line):
        return self.spliced(edits.unplace(self.design, *line.arguments(1)))

    def edit_add(self, line):
        return self.spliced(edits.add(self.design, *line.arguments(2)))

    def edit_remove(self, line):
        return self.spliced(edits.remove(self.design, *line.arguments(1)))

    def edit_remaster(self, line):
        return self.spliced(edits.remaster(self.design, *line.arguments(2)))

    def edit_connect(self, line):
        return self.spliced(edits.connect(self.design, *line.arguments(3)))

    def edit_disconnect(self, line):
        return self.spliced(edits.disconnect(self.design, *line.arguments(3)))

    def edit_route(self, line):
        """Gives a net the wiring that stands behind its name, up to the end of the line."""
        require(len(line.words) > 2)
        wiring = line.text[ROUTE_LINE.match(line.text).end() :]
        return self.spliced(edits.route(self.design, line.words[1], wiring))

    def edit_unroute(self, line):
        return self.spliced(edits.unroute(self.design, *line.arguments(1)))

    def edit_block(self, line):
        words = line.arguments(4, 5)
        layer = words[0] if len(words) == 5 else None
        return self.spliced(edits.block(self.design, layer, [whole_number(it) for it in words[-4:]]))

    def edit_text(self, line):
        """Puts bytes in the place of a range. They begin one byte after the second number."""
        found = TEXT_LINE.match(line.text)
        require(found)
        put = unescaped(line.text[found.end() + 1 :])
        begin, end = whole_number(found[1]), whole_number(found[2])
        refuse_if(begin is None or end is None, "E5")
        text = self.design.text
        refuse_if(not 0 <= begin <= end <= len(text), "E9")
        text = edits.Splice(begin, end, put).made(text)
        refuse_if(len(text) > edits.LONGEST_TEXT, "E11")
        try:
            Design(self.library, text)
        except Fault as fault:
            raise Refused(f"E10 F{fault.number} {fault.place}") from None
        return text


@dataclass
class Outcome:
    """What comes out of a run: its status, standard output, standard error, and the text in the end, where there is one."""

    status: int
    answers: bytes = b""
    complaint: bytes = b""
    text: bytes | None = None


def run_script(session, script):
    """Runs the lines of a script one after the other."""
    outcome = Outcome(0)
    for line in lines_of(script):
        try:
            told = session.answer(line)
        except Refused as refused:
            told = [b"refused %d %s" % (line.number, refused.reason.encode())]
            outcome.status = 1
        except Bad:
            told = [b"bad %d" % line.number]
            outcome.status = 1
        outcome.answers += b"".join(it + b"\n" for it in told)
    outcome.text = session.design.text
    return outcome


def run(lefs, text, script):
    """Returns what must come out of a run on LEF texts, a DEF text and a script."""
    library = Library()
    for number, lef in enumerate(lefs, 1):
        try:
            read_lef(lef, library)
        except Fault as fault:
            return Outcome(3, complaint=f"LEF {number}: {fault}\n".encode())
    try:
        session = Session(library, text)
    except Fault as fault:
        return Outcome(3, complaint=f"DEF: {fault}\n".encode())
    return run_script(session, script)
