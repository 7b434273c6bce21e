"""The statements of DEF: entries of sections, and what stands outside of them.

LEF/DEF 5.8 Language Reference, "Components", "Regions", "Groups", "Nets", "Blockages", "Units",
"Die Area", "Rows", "Tracks" and "GCell Grid"; the limits are own.
"""
from dataclasses import dataclass, field

from second.clauses import KEPT_SECTIONS, SECTIONS, Clause, Placing, clauses
from second.geometry import Point, Rectangle, box
from second.matcher import NoForm
from second.tokens import GREATEST, Token, is_word

MOST_LINES = 100000
MOST_UNITS = 100000


@dataclass
class Statement:
    """A statement of which nothing is known but its tokens, and the base of all others."""

    tokens: list = field(default_factory=list, kw_only=True)

    @property
    def begin(self):
        return self.tokens[0].begin

    @property
    def end(self):
        return self.tokens[-1].end


@dataclass
class Units(Statement):
    """How many database units a micron has."""

    per_micron: int


@dataclass
class DieArea(Statement):
    """The die area: two corners, or the points of a polygon."""

    points: list


@dataclass
class Row(Statement):
    """A row of sites: columns and rows of them, and how far one is from the next, where that is said."""

    name: bytes
    site: bytes
    at: Point
    orient: bytes
    columns: int = 1
    rows: int = 1
    step: Point | None = None


@dataclass
class GridLines(Statement):
    """Lines of the grid of cells, across X or Y."""

    axis: bytes
    places: list


@dataclass
class Header(Statement):
    """The header of a section: how many entries it says, and the token that says so."""

    section: bytes
    said: int
    number: Token


@dataclass
class SectionEnd(Statement):
    """The END of a section."""

    section: bytes


@dataclass
class Properties(Statement):
    """The begin of PROPERTYDEFINITIONS."""


@dataclass
class DesignEnd(Statement):
    """END DESIGN, behind which nothing may stand."""


@dataclass
class Entry(Statement):
    """An entry of a section. One of a kept section, of BLOCKAGES, and a MUSTJOIN have no name."""

    section: bytes
    name: bytes | None = None
    clauses: list = field(default_factory=list)

    def first(self, *words):
        """Returns the first clause of these words that has their form, or None."""
        return next((it for it in self.clauses if it.has_form(*words)), None)

    @property
    def end_of_clauses(self):
        """The offset right after the last token before the ; of the entry."""
        return self.tokens[-2].end

    @property
    def placing_clause(self) -> Clause | None:
        return self.first(b"PLACED", b"FIXED", b"COVER", b"UNPLACED")

    @property
    def placing(self) -> Placing | None:
        found = self.placing_clause
        return None if found is None or found.word == b"UNPLACED" else found.value


@dataclass
class Component(Entry):
    macro: bytes = b""
    macro_token: Token | None = None


@dataclass
class Region(Entry):
    rectangles: list = field(default_factory=list)


@dataclass
class Group(Entry):
    patterns: list = field(default_factory=list)


@dataclass
class Terminal:
    """A terminal that an entry of a net lists. The component is * for all, PIN for a pin of the design, or VPIN."""

    component: bytes
    pin: bytes
    begin: int
    end: int

    def names(self, component, pin):
        """Returns whether it names this very pin."""
        return (self.component, self.pin) == (component, pin) and component not in (b"*", b"VPIN")


@dataclass
class NetEntry(Entry):
    name_token: Token | None = None
    terminals: list = field(default_factory=list)

    @property
    def is_special(self):
        return self.section == b"SPECIALNETS"


@dataclass
class Blockage(Entry):
    """A blockage of a layer, or of placement where it has none. One without the form has neither words nor shapes."""

    has_form: bool = False
    layer: bytes | None = None
    words: list = field(default_factory=list)
    rectangles: list[Rectangle] = field(default_factory=list)
    polygons: int = 0


def component(it):
    entry = Component(b"COMPONENTS", it.name(), macro=it.name())
    entry.macro_token = it.last()
    it.rest()
    return entry


def region(it):
    entry = Region(b"REGIONS", it.name())
    points = it.further_points([])
    if len(points) < 2 or len(points) % 2:
        raise NoForm
    entry.rectangles = [box(a, b) for a, b in zip(points[::2], points[1::2])]
    return entry


def group(it):
    entry = Group(b"GROUPS", it.name())
    while not it.is_at_end():
        entry.patterns.append(it.word())
    return entry


def terminal(it):
    it.take(b"(")
    begin = it.last().begin
    owner = b"*" if it.may_take(b"*") else it.name()
    pin = it.name()
    if it.may_take(b"+"):
        it.take(b"SYNTHESIZED")
    it.take(b")")
    return Terminal(owner, pin, begin, it.last().end)


def net(section):
    """Returns the form of entries of a section of nets, up to their clauses."""

    def matched(it):
        entry = NetEntry(section, it.name())
        entry.name_token = it.last()
        while it.peek() == b"(":
            entry.terminals.append(terminal(it))
        return entry

    return matched


def plain(section):
    """Returns the form of entries that have a name and clauses alone."""
    return lambda it: Entry(section, it.name())


def blockage_words(it):
    """Goes over the clauses of a blockage, and returns their words. None has the word of a shape."""
    words = []
    while it.may_take(b"+"):
        words.append(it.word())
        if words[-1] in (b"RECT", b"POLYGON"):
            raise NoForm
        while it.peek() not in (b"+", b";", b"RECT", b"POLYGON"):
            it.skip()
    return words


def blockage_shapes(it, entry):
    """Matches the shapes of a blockage, of which there must be one, up to its end."""
    while it.peek() in (b"RECT", b"POLYGON"):
        if it.token().text == b"RECT":
            entry.rectangles.append(it.rectangle())
        else:
            if len(it.further_points([])) < 3:
                raise NoForm
            entry.polygons += 1
    if not entry.rectangles and not entry.polygons:
        raise NoForm
    it.take(b";")


def blockage(it):
    """Matches an entry of BLOCKAGES. One without the form is kept."""
    begin = it.at
    try:
        entry = Blockage(b"BLOCKAGES", has_form=True)
        if it.one_of((b"LAYER", b"PLACEMENT")) == b"LAYER":
            entry.layer = it.name()
        entry.words = blockage_words(it)
        blockage_shapes(it, entry)
        return entry
    except NoForm:
        it.at, it.invalid = begin, []
        it.skip_all()
        return Blockage(b"BLOCKAGES")


ENTRIES = {
    b"COMPONENTS": component,
    b"REGIONS": region,
    b"GROUPS": group,
    b"NETS": net(b"NETS"),
    b"SPECIALNETS": net(b"SPECIALNETS"),
    **{section: plain(section) for section in (b"VIAS", b"NONDEFAULTRULES", b"PINS")},
}


def entry(it, section):
    """Matches an entry of a section."""
    it.take(b"-")
    if section in KEPT_SECTIONS:
        it.skip_all()
        return Entry(section)
    if section == b"BLOCKAGES":
        return blockage(it)
    if section == b"NETS" and it.peek() == b"MUSTJOIN":
        it.skip_all()
        return NetEntry(section)
    found = ENTRIES[section](it)
    found.clauses = clauses(it, section)
    it.take(b";")
    return found


# ---- What stands outside of sections

def units(it):
    it.take(b"DISTANCE")
    it.take(b"MICRONS")
    found = Units(it.number(1, MOST_UNITS))
    it.take(b";")
    return found


def die_area(it):
    found = DieArea(it.further_points([it.point()]))
    if len(found.points) < 2:
        raise NoForm
    it.take(b";")
    return found


def row(it):
    found = Row(it.name(), it.name(), Point(*it.numbers(2)), it.orient())
    if it.may_take(b"DO"):
        found.columns = it.number(least=0)
        it.take(b"BY")
        found.rows = it.number(least=0)
        if it.may_take(b"STEP"):
            found.step = Point(*it.numbers(2))
    while it.may_take(b"+"):
        it.word()
        it.rest()
    it.take(b";")
    return found


def tracks(it):
    it.one_of((b"X", b"Y"))
    it.number()
    it.take(b"DO")
    it.number()
    it.take(b"STEP")
    it.number()
    it.skip_all()
    return Statement()


def grid_lines(it):
    """Matches GCELLGRID. Lines that go on too far are told at their number."""
    axis = it.one_of((b"X", b"Y"))
    start = it.number()
    it.take(b"DO")
    count = it.number(1, MOST_LINES)
    number = it.last()
    it.take(b"STEP")
    step = it.number(least=0)
    it.take(b";")
    if start + (count - 1) * step > GREATEST:
        it.invalid.append(number.begin)
    return GridLines(axis, [start + k * step for k in range(count)])


def header(it, section):
    said = it.number(least=0)
    found = Header(section, said, it.last())
    it.take(b";")
    return found


def extension(it):
    it.skip_all()
    return Statement()


def design_end(it):
    it.take(b"DESIGN")
    return DesignEnd()


TOP_STATEMENTS = {
    b"UNITS": units,
    b"DIEAREA": die_area,
    b"ROW": row,
    b"TRACKS": tracks,
    b"GCELLGRID": grid_lines,
    b"PROPERTYDEFINITIONS": lambda it: Properties(),
    b"BEGINEXT": extension,
    b"END": design_end,
    b";": lambda it: Statement(),
}


def top_statement(it):
    """Matches a statement outside of sections. One whose first word has no form is kept."""
    word = it.token().text
    if word in SECTIONS:
        return header(it, word)
    if word in TOP_STATEMENTS:
        return TOP_STATEMENTS[word](it)
    if not is_word(word) or word in (b"-", b"+", b"(", b")"):
        raise NoForm
    it.skip_all()
    return Statement()
