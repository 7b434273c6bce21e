"""The forms of wiring in NETS and SPECIALNETS: wires with their paths, vias, rectangles and polygons.

LEF/DEF 5.8 Language Reference, "Regular Wiring Statement" and "Special Wiring Statement".
"""
from dataclasses import dataclass, field

from second.geometry import Point, Rectangle, box
from second.matcher import NoForm

MOST_IN_ARRAY = 1000000


@dataclass
class PathPoint:
    """A point of a path. None stands for the coordinate of the point before, and for no extension."""

    x: int | None
    y: int | None
    extension: int | None


@dataclass
class VirtualPoint:
    """A point that a path goes to without a wire. None stands for the coordinate of the point before."""

    x: int | None
    y: int | None


@dataclass
class PathRectangle:
    """A rectangle of a path, by its distances from the point before."""

    rectangle: Rectangle


@dataclass
class PathVia:
    """A via of a path: one, or an array of columns and rows that are so far apart."""

    name: bytes
    orient: bytes
    columns: int = 1
    rows: int = 1
    step: Point = Point(0, 0)


@dataclass
class Wire:
    """A wire of a net. Its width is given in SPECIALNETS, and else is that of a rule or a layer."""

    layer: bytes
    width: int | None = None
    # whether it is of the width of its layer, and the rule that it names in the place of its net's
    is_tapered: bool = False
    rule: bytes | None = None
    has_style: bool = False
    path: list = field(default_factory=list)


@dataclass
class Wires:
    """A clause of wires, and of SHIELD the net that they shield."""

    wires: list
    shielded: bytes | None = None


@dataclass
class LayerRectangle:
    layer: bytes
    rectangle: Rectangle


@dataclass
class LayerPolygon:
    layer: bytes


@dataclass
class ViaAt:
    """A via at points."""

    via: bytes
    points: list
    orient: bytes = b"N"


def coordinate_of_path(it):
    return None if it.may_take(b"*") else it.number()


def path_point(it, is_first):
    it.take(b"(")
    x, y = it.numbers(2) if is_first else (coordinate_of_path(it), coordinate_of_path(it))
    extension = None if it.peek() == b")" else it.number(least=0)
    it.take(b")")
    return PathPoint(x, y, extension)


def virtual_point(it):
    it.take(b"(")
    found = VirtualPoint(coordinate_of_path(it), coordinate_of_path(it))
    it.take(b")")
    return found


def path_rectangle(it):
    it.take(b"(")
    left, bottom, right, top = it.numbers(4)
    it.take(b")")
    return PathRectangle(box((left, bottom), (right, top)))


def path_via(it, is_special):
    """Matches a via of a path. An array may stand in SPECIALNETS alone; one of too many is told at its number of columns."""
    via = PathVia(it.name(), it.may_orient())
    if is_special and it.may_take(b"DO"):
        number = it.at
        via.columns = it.number(least=1)
        it.take(b"BY")
        via.rows = it.number(least=1)
        it.take(b"STEP")
        if via.columns * via.rows > MOST_IN_ARRAY:
            it.invalid.append(it.tokens[number].begin)
        via.step = Point(*it.numbers(2))
    return via


def path(it, is_special):
    """Matches a path: a point, and then points, vias and rectangles as far as they go."""
    it.may_mask()
    parts = [path_point(it, True)]
    while it.peek() is not None:
        if it.peek() == b"MASK":
            it.may_mask()
        elif it.peek() == b"(":
            parts.append(path_point(it, False))
        elif it.may_take(b"VIRTUAL"):
            parts.append(virtual_point(it))
        elif it.may_take(b"RECT"):
            parts.append(path_rectangle(it))
        elif it.peek() in (b"NEW", b"DO", b";", b")", b"+", b"-", b"*") or it.peek().startswith(b'"'):
            break
        else:
            parts.append(path_via(it, is_special))
    return parts


def net_wire(it):
    """Matches a wire of NETS."""
    wire = Wire(it.name())
    if it.may_take(b"TAPER"):
        wire.is_tapered = True
    elif it.may_take(b"TAPERRULE"):
        wire.rule = it.name()
    if it.may_take(b"STYLE"):
        it.number()
        wire.has_style = True
    wire.path = path(it, False)
    return wire


def special_wire(it):
    """Matches a wire of SPECIALNETS."""
    wire = Wire(it.name(), it.number(least=0))
    while it.may_take(b"+"):
        word = it.one_of((b"SHAPE", b"MASK", b"STYLE"))
        if word == b"STYLE":
            it.number()
            wire.has_style = True
        else:
            it.word()
    wire.path = path(it, True)
    return wire


def wires_of(it, wire):
    found = [wire(it)]
    while it.may_take(b"NEW"):
        found.append(wire(it))
    return found


def net_wires(it):
    return Wires(wires_of(it, net_wire))


def special_wires(it):
    """Matches wires of SPECIALNETS, of which there may be none."""
    return Wires([] if it.is_at_end() else wires_of(it, special_wire))


def shield_wires(it):
    shielded = it.name()
    wires = special_wires(it)
    wires.shielded = shielded
    return wires


def vias_at_points(it):
    """Matches VIA of SPECIALNETS."""
    via, orient = it.name(), it.may_orient()
    return ViaAt(via, it.further_points([it.point()]), orient)


def layer_rectangle(it):
    return LayerRectangle(it.name(), it.rectangle())


def layer_polygon(it):
    """Matches POLYGON of SPECIALNETS, which has three points or more."""
    layer = it.name()
    if len(it.further_points([it.point()])) < 3:
        raise NoForm
    return LayerPolygon(layer)
