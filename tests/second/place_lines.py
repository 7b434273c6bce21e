"""The lines of `check` on components: overlaps, rows, the die area, blockages of placement, and fences.

LEF/DEF 5.8 Language Reference, "Rows", "Die Area", "Regions", "Groups" and "Blockages".
"""
import re
from dataclasses import dataclass
from itertools import combinations

from second.clauses import region_of_group
from second.geometry import Rectangle, box, is_covered, overlaps

MIRRORED = {b"N": b"FN", b"S": b"FS", b"W": b"FW", b"E": b"FE"}
MIRRORED |= {other: it for it, other in MIRRORED.items()}
# A blockage with one of these words blocks nothing.
WEAK_WORDS = (b"SOFT", b"PARTIAL", b"SLOTS", b"FILLS", b"COMPONENT")


@dataclass
class Placed:
    """A component that takes part, where it is placed."""

    component: object
    macro: object
    boundary: Rectangle

    @property
    def name(self):
        return self.component.name


@dataclass
class GroupRegion:
    """A region, and the patterns of the names of components that belong to it."""

    region: bytes | None
    patterns: list


def is_weak(blockage):
    return any(it in WEAK_WORDS for it in blockage.words)


def placed_components(design):
    taking = [it for it in design.components() if design.takes_part(it)]
    return [Placed(it, design.macro(it), design.placed_boundary(it)) for it in taking]


def matches(pattern, name):
    """Returns whether a pattern is a name, where each * stands for any bytes."""
    return re.fullmatch(b".*".join(re.escape(it) for it in pattern.split(b"*")), name, re.S) is not None


def is_on_step(place, start, count, step):
    """Returns whether a place is one of so many, from a start on and so far apart."""
    if step == 0:
        return place == start and count > 0
    return (place - start) % step == 0 and 0 <= (place - start) // step < count


def fences_of(design):
    """Returns the rectangles of each fence by its name: a region whose first TYPE is FENCE."""
    fences = {}
    for it in design.entries(b"REGIONS"):
        kind = it.first(b"TYPE")
        if kind is not None and kind.value == b"FENCE":
            fences[it.name] = it.rectangles
    return fences


def group_regions(design):
    """Returns the region of each group that has one."""
    found = [GroupRegion(region_of_group(it), it.patterns) for it in design.entries(b"GROUPS")]
    return [it for it in found if it.region is not None]


class PlaceLines:
    """Collects the lines on components."""

    def __init__(self, design, lines):
        self.design, self.lines = design, lines
        self.fences = fences_of(design)
        self.groups = group_regions(design)
        blocking = [it for it in design.entries(b"BLOCKAGES") if it.has_form and it.layer is None and not is_weak(it)]
        self.blocked = [rectangle for it in blocking for rectangle in it.rectangles]

    def collect(self):
        placed = placed_components(self.design)
        for a, b in combinations(placed, 2):
            if overlaps(a.boundary, b.boundary):
                self.lines.say(b"overlap", *sorted((a.name, b.name)))
        for it in placed:
            self.in_rows(it)
            self.in_die(it)
            for rectangle in self.blocked:
                if overlaps(it.boundary, rectangle):
                    self.lines.say(b"blocked", it.name, *rectangle)
            self.in_fences(it)

    def holds(self, row, size, step, boundary):
        """Returns whether a row of sites holds a boundary: it begins on a line of the row, and lies between its ends."""
        if row.columns == 0 or not is_on_step(boundary.bottom, row.at.y, row.rows, step.y):
            return False
        ends = (row.at.x, row.at.x + (row.columns - 1) * step.x)
        return min(ends) <= boundary.left and boundary.right <= max(ends) + size.x

    def in_rows(self, it):
        """Tells a component that no row of its sites holds, or that stands on no site of such a row, or is turned otherwise."""
        is_held = is_on_site = is_turned_so = False
        for row in self.design.rows:
            if row.site not in it.macro.sites:
                continue
            size = self.design.site_size(row)
            step = row.step or size
            if self.holds(row, size, step, it.boundary):
                is_held = True
                if is_on_step(it.boundary.left, row.at.x, row.columns, step.x):
                    is_on_site = True
                    is_turned_so |= it.component.placing.orient in (row.orient, MIRRORED[row.orient])
        if not is_held:
            if it.macro.macro_class in (b"CORE", b"ENDCAP") and it.macro.sites:
                self.lines.say(b"offrow", it.name)
        elif not is_on_site:
            self.lines.say(b"offsite", it.name)
        elif not is_turned_so:
            self.lines.say(b"flip", it.name)

    def in_die(self, it):
        """Tells a component that isn't within the die area. One of more points than two isn't looked at."""
        die = self.design.die
        if die is not None and len(die) == 2 and not is_covered(it.boundary, [box(*die)]):
            self.lines.say(b"outside", it.name)

    def in_fences(self, it):
        """Tells a component that its fence doesn't cover, and one that overlaps a fence to which it doesn't belong."""
        own = {group.region for group in self.groups if any(matches(pattern, it.name) for pattern in group.patterns)}
        region = it.component.first(b"REGION")
        if region is not None:
            own.add(region.value)
        for name, rectangles in self.fences.items():
            if name in own:
                if not is_covered(it.boundary, rectangles):
                    self.lines.say(b"fence", it.name, name)
            elif any(overlaps(it.boundary, rectangle) for rectangle in rectangles):
                self.lines.say(b"intruder", it.name, name)
