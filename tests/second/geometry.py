"""Points, rectangles, and what the orientations of DEF do to them.

LEF/DEF 5.8 Language Reference, "Specifying Orientation".
"""
from typing import NamedTuple

ORIENTS = (b"N", b"S", b"E", b"W", b"FN", b"FS", b"FE", b"FW")
# Those that turn a rectangle onto its side.
SIDEWAYS = (b"E", b"W", b"FE", b"FW")


class Point(NamedTuple):
    x: int
    y: int


class Rectangle(NamedTuple):
    left: int
    bottom: int
    right: int
    top: int


class Shape(NamedTuple):
    """A rectangle on a layer."""

    layer: bytes
    rectangle: Rectangle


def box(a, b):
    """Returns the rectangle between two corners, whichever they are."""
    return Rectangle(min(a[0], b[0]), min(a[1], b[1]), max(a[0], b[0]), max(a[1], b[1]))


def turned_point(orient, x, y):
    """Returns a point that is turned about the origin, and for the orientations with F mirrored first."""
    return {
        b"N": (x, y),
        b"W": (-y, x),
        b"S": (-x, -y),
        b"E": (y, -x),
        b"FN": (-x, y),
        b"FS": (x, -y),
        b"FW": (y, x),
        b"FE": (-y, -x),
    }[orient]


def turned(orient, it):
    """Returns a rectangle that is turned about the origin."""
    return box(turned_point(orient, it.left, it.bottom), turned_point(orient, it.right, it.top))


def moved(it, x, y):
    return Rectangle(it.left + x, it.bottom + y, it.right + x, it.top + y)


def turned_shapes(orient, shapes):
    return [Shape(layer, turned(orient, it)) for layer, it in shapes]


def moved_shapes(shapes, x, y):
    return [Shape(layer, moved(it, x, y)) for layer, it in shapes]


def placed_shapes(shapes, boundary, orient, at):
    """Returns shapes turned, and then moved so that the lower left corner of the turned boundary is at a point."""
    corner = turned(orient, boundary)
    return moved_shapes(turned_shapes(orient, shapes), at.x - corner.left, at.y - corner.bottom)


def meets(a, b):
    """Returns whether two rectangles have a point in common."""
    return a.left <= b.right and b.left <= a.right and a.bottom <= b.top and b.bottom <= a.top


def common(a, b):
    """Returns the rectangle that two which meet have in common."""
    return Rectangle(max(a.left, b.left), max(a.bottom, b.bottom), min(a.right, b.right), min(a.top, b.top))


def overlaps(a, b):
    """Returns whether two rectangles have an area in common."""
    both = common(a, b)
    return both.left < both.right and both.bottom < both.top


def area(it):
    return (it.right - it.left) * (it.top - it.bottom)


def area_within(rectangle, cell):
    """Returns the area that a rectangle has in a cell."""
    return area(common(rectangle, cell)) if overlaps(rectangle, cell) else 0


def contains(outer, inner):
    return outer.left <= inner.left and outer.bottom <= inner.bottom and outer.right >= inner.right and outer.top >= inner.top


def is_covered(it, rectangles):
    """Returns whether rectangles together cover one: each piece between two edges in a row must lie in one of them. A rectangle
    without an area has no such piece."""
    across = sorted({it.left, it.right, *(edge for by in rectangles for edge in (by.left, by.right) if it.left < edge < it.right)})
    upward = sorted({it.bottom, it.top, *(edge for by in rectangles for edge in (by.bottom, by.top) if it.bottom < edge < it.top)})
    for left, right in zip(across, across[1:]):
        for bottom, top in zip(upward, upward[1:]):
            piece = Rectangle(left, bottom, right, top)
            if not any(contains(by, piece) for by in rectangles):
                return False
    return True
