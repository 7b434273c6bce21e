"""What LEF texts define: layers, sites, vias, nondefault rules and macros. Distances are as `tokens.distance` gives them."""
from dataclasses import dataclass, field

from second.geometry import Point


@dataclass
class Layer:
    type: bytes | None = None
    width: int | None = None


@dataclass
class Site:
    """A site. The size is a width and a height."""

    size: Point | None = None


@dataclass
class LefRectangle:
    """A rectangle on a layer, by two corners in distances."""

    layer: bytes
    corners: list


@dataclass
class LefVia:
    """A via: the layers that it names, its rectangles, the number of its polygons, and the first value of each of its other words."""

    layers: list = field(default_factory=list)
    rectangles: list = field(default_factory=list)
    polygons: int = 0
    values: dict = field(default_factory=dict)


@dataclass
class Pin:
    """A pin of a macro. Shapes that aren't looked at are counted."""

    rectangles: list = field(default_factory=list)
    unchecked: int = 0


@dataclass
class Port:
    """A port of a pin, with the layer that was named last."""

    pin: Pin
    layer: bytes | None = None


@dataclass
class Macro:
    macro_class: bytes | None = None
    origin: Point | None = None
    size: Point | None = None
    sites: list = field(default_factory=list)
    pins: dict = field(default_factory=dict)


@dataclass
class RuleWidth:
    """The width that a nondefault rule gives wires on a layer."""

    width: int | None = None


@dataclass
class Rule:
    widths: dict = field(default_factory=dict)


@dataclass
class Library:
    """The definitions of all LEF texts by their names. Of one name the first definition counts."""

    layers: dict = field(default_factory=dict)
    sites: dict = field(default_factory=dict)
    vias: dict = field(default_factory=dict)
    rules: dict = field(default_factory=dict)
    macros: dict = field(default_factory=dict)
