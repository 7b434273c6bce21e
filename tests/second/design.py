"""A design: its DEF text as it reads, with a library, and what is looked up in both."""
from dataclasses import dataclass, field

from second import entries
from second.clauses import SECTIONS
from second.def_reader import read_statements
from second.geometry import SIDEWAYS, Point, Rectangle, box, moved, turned
from second.tokens import in_units


@dataclass
class Sections:
    """The entries of each section, those with a name by it too, and where the section begins and ends, where it is there."""

    entries: dict = field(default_factory=lambda: {it: [] for it in SECTIONS})
    named: dict = field(default_factory=lambda: {it: {} for it in SECTIONS})
    headers: dict = field(default_factory=dict)
    ends: dict = field(default_factory=dict)


class Design:
    """A DEF text, read with a library. It never changes: an edit makes another design of another text."""

    def __init__(self, library, text):
        self.library, self.text = library, text
        self.units, self.die, self.rows = 1, None, []
        self.sections = Sections()
        lines = {b"X": set(), b"Y": set()}
        for it in read_statements(text):
            if isinstance(it, entries.Units):
                self.units = it.per_micron
            elif isinstance(it, entries.DieArea):
                self.die = it.points
            elif isinstance(it, entries.Row):
                self.rows.append(it)
            elif isinstance(it, entries.GridLines):
                lines[it.axis].update(it.places)
            else:
                self.take(it)
        self.columns, self.lines = sorted(lines[b"X"]), sorted(lines[b"Y"])

    def take(self, it):
        """Takes a statement of a section."""
        if isinstance(it, entries.Header):
            self.sections.headers[it.section] = it
        elif isinstance(it, entries.SectionEnd):
            self.sections.ends[it.section] = it
        elif isinstance(it, entries.Entry):
            self.sections.entries[it.section].append(it)
            if it.name is not None:
                self.sections.named[it.section][it.name] = it

    def entries(self, *sections):
        return [it for section in sections for it in self.sections.entries[section]]

    def entry(self, section, name):
        return self.sections.named[section].get(name)

    def component(self, name):
        return self.entry(b"COMPONENTS", name)

    def components(self):
        return self.entries(b"COMPONENTS")

    def net_entries(self):
        """Returns the entries of both sections of nets that have a name."""
        return [it for it in self.entries(b"NETS", b"SPECIALNETS") if it.name is not None]

    def net_entry(self, name):
        """Returns the entry that an edit of a net is of: that of NETS where there is one."""
        return self.entry(b"NETS", name) or self.entry(b"SPECIALNETS", name)

    # ---- The library, in the units of the design

    def length(self, distance):
        return in_units(distance, self.units)

    def lengths(self, distances):
        return [self.length(it) for it in distances]

    def size(self, it):
        """Returns the width and the height of a site or a macro, which are 0 where it gives none."""
        return Point(0, 0) if it is None or it.size is None else Point(*self.lengths(it.size))

    def rectangle(self, corners):
        return box(*(self.lengths(it) for it in corners))

    def type_of(self, layer):
        found = self.library.layers.get(layer)
        return found and found.type

    def is_routing(self, layer):
        return self.type_of(layer) == b"ROUTING"

    def on_wired_layers(self, shapes):
        """Returns the shapes on layers of TYPE ROUTING or CUT, which are those that nets have."""
        return [it for it in shapes if self.type_of(it.layer) in (b"ROUTING", b"CUT")]

    def macro(self, component):
        return self.library.macros.get(component.macro)

    # ---- Components

    def boundary(self, macro):
        """Returns the boundary of a macro as it is before it is turned."""
        return Rectangle(0, 0, *self.size(macro))

    def placed_boundary(self, component):
        """Returns the boundary of a component where it is placed: its lower left corner is at the point of its placing."""
        corner = turned(component.placing.orient, self.boundary(self.macro(component)))
        at = component.placing.at
        return moved(corner, at.x - corner.left, at.y - corner.bottom)

    def takes_part(self, component):
        """Returns whether lines on components, and their areas in cells, are of a component: it is PLACED or FIXED, its macro is
        defined, and isn't of CLASS COVER."""
        clause, macro = component.placing_clause, self.macro(component)
        is_placed = clause is not None and clause.word in (b"PLACED", b"FIXED")
        return is_placed and macro is not None and macro.macro_class != b"COVER"

    def site_size(self, row):
        """Returns the width and the height of the sites of a row, as the row turns them."""
        size = self.size(self.library.sites.get(row.site))
        return Point(size.y, size.x) if row.orient in SIDEWAYS else size
