"""What wires draw: the pieces of their paths, each on the layer to which the vias before it lead.

LEF/DEF 5.8 Language Reference, "Regular Wiring Statement", "Special Wiring Statement" and "Nondefault Rules".
"""
from dataclasses import dataclass, field

from second import wiring
from second.geometry import Point, Rectangle, Shape, moved, moved_shapes, turned_shapes
from second.vias import joined_layers, via_named


@dataclass
class Drawn:
    """What a wire or a clause of wiring draws: parts, each of the shapes that belong together; the length of its segments; and what
    else is told of it."""

    parts: list = field(default_factory=list)
    length: int = 0
    # the number of segments that are neither level nor upright
    diagonals: int = 0
    # the vias that it names, and of those that are defined each that doesn't lead on from the layer where it stands
    vias: list = field(default_factory=list)
    off_layer: list = field(default_factory=list)

    def add(self, other):
        self.parts += other.parts
        self.length += other.length
        self.diagonals += other.diagonals
        self.vias += other.vias
        self.off_layer += other.off_layer


def layer_width(design, layer):
    """Returns the WIDTH of a layer, which is 0 where it isn't given."""
    found = design.library.layers.get(layer)
    return 0 if found is None or found.width is None else design.length(found.width)


def rule_width(design, rule, layer):
    """Returns the width that a nondefault rule gives a layer, or None. A rule of the DEF comes before one of the LEF texts."""
    entry = design.entry(b"NONDEFAULTRULES", rule)
    if entry is not None:
        widths = [it.value.width for it in entry.clauses if it.has_form(b"LAYER") and it.value.layer == layer]
        return widths[0] if widths else None
    if rule in design.library.rules:
        width = design.library.rules[rule].widths.get(layer)
        return None if width is None else design.length(width)
    return None


def wire_width(design, entry, wire, layer):
    """Returns how wide a wire is on a layer: in NETS as its own rule or that of its net says, and else as the layer does."""
    if entry.is_special:
        return wire.width
    rule = wire.rule
    if rule is None and not wire.is_tapered:
        clause = entry.first(b"NONDEFAULTRULE")
        rule = clause and clause.value
    width = None if rule is None else rule_width(design, rule, layer)
    return layer_width(design, layer) if width is None else width


def segment(a, b, width, extensions):
    """Returns the rectangle of a segment between two points on a level or upright line. Of an odd width the greater half lies above
    the line, or right of it."""
    below = width // 2
    (low, before), (high, after) = sorted(zip((a, b), extensions), key=lambda it: it[0])
    if a.y == b.y:
        return Rectangle(low.x - before, low.y - below, high.x + after, low.y + width - below)
    return Rectangle(low.x - below, low.y - before, low.x + width - below, high.y + after)


class Walk:
    """Goes along the path of a wire. The place and the extension are those of the last point, the layer that of the last via."""

    def __init__(self, design, entry, wire):
        self.design, self.entry, self.wire = design, entry, wire
        self.layer = wire.layer
        self.place = self.extension = None
        self.drawn = Drawn()

    def along(self):
        steps = {
            wiring.PathPoint: self.point,
            wiring.VirtualPoint: self.virtual_point,
            wiring.PathRectangle: self.rectangle,
            wiring.PathVia: self.via,
        }
        for part in self.wire.path:
            steps[type(part)](part)
        return self.drawn

    def place_of(self, it):
        """Returns the place of a point, of which each coordinate may be that of the point before."""
        return Point(self.place.x if it.x is None else it.x, self.place.y if it.y is None else it.y)

    def point(self, it):
        place = self.place_of(it)
        if self.place is not None:
            self.draw_segment(place, it.extension)
        self.place, self.extension = place, it.extension

    def draw_segment(self, place, extension):
        """Draws a segment to a point. Where no extension is given it goes half a width further in NETS, and in SPECIALNETS not."""
        if self.place.x != place.x and self.place.y != place.y:
            self.drawn.diagonals += 1
            return
        width = wire_width(self.design, self.entry, self.wire, self.layer)
        usual = 0 if self.entry.is_special else width // 2
        extensions = [usual if it is None else it for it in (self.extension, extension)]
        self.drawn.length += abs(self.place.x - place.x) + abs(self.place.y - place.y)
        self.drawn.parts.append([Shape(self.layer, segment(self.place, place, width, extensions))])

    def virtual_point(self, it):
        self.place, self.extension = self.place_of(it), None

    def rectangle(self, it):
        self.drawn.parts.append([Shape(self.layer, moved(it.rectangle, *self.place))])

    def via(self, it):
        """Draws a via, or each of an array. One that joins two ROUTING layers, of which one is that of the wire, leads to the other."""
        self.drawn.vias.append(it.name)
        via = via_named(self.design, it.name)
        if via is None:
            return
        layers = joined_layers(self.design, via)
        if len(layers) == 2 and self.layer in layers:
            self.layer = layers[1] if self.layer == layers[0] else layers[0]
        else:
            self.drawn.off_layer.append(it.name)
        shapes = moved_shapes(turned_shapes(it.orient, via.shapes), *self.place)
        for column in range(it.columns):
            for row in range(it.rows):
                self.drawn.parts.append(moved_shapes(shapes, column * it.step.x, row * it.step.y))


def drawn_of_clause(design, entry, clause):
    """Returns what a clause of wiring draws."""
    drawn = Drawn()
    if isinstance(clause.value, wiring.Wires):
        for wire in clause.value.wires:
            drawn.add(Walk(design, entry, wire).along())
    elif isinstance(clause.value, wiring.LayerRectangle):
        drawn.parts.append([Shape(clause.value.layer, clause.value.rectangle)])
    elif isinstance(clause.value, wiring.ViaAt):
        drawn.vias.append(clause.value.via)
        via = via_named(design, clause.value.via)
        for at in clause.value.points if via else []:
            drawn.parts.append(moved_shapes(turned_shapes(clause.value.orient, via.shapes), *at))
    return drawn


def drawn_of_entry(design, entry):
    """Returns what all wiring of an entry of a net draws."""
    drawn = Drawn()
    for clause in entry.clauses:
        if clause.is_wiring:
            drawn.add(drawn_of_clause(design, entry, clause))
    return drawn
