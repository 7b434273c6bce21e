"""The shapes of vias: those that a via lists, and those of a via that a VIARULE generates.

LEF/DEF 5.8 Language Reference, "Vias" and "Via".
"""
from dataclasses import dataclass

from second.geometry import Shape, box, moved
from second.wiring import LayerPolygon, LayerRectangle

NEEDED = (b"CUTSIZE", b"LAYERS", b"CUTSPACING", b"ENCLOSURE")


@dataclass
class Via:
    """A via, in the units of the design: its shapes, and the layers that it names."""

    shapes: list
    layers: list


def via_of_entry(entry):
    """Returns the via of an entry of VIAS, and the first value of each of its words that give numbers or names."""
    via, values = Via([], []), {}
    for clause in entry.clauses:
        if isinstance(clause.value, (LayerRectangle, LayerPolygon)):
            via.layers.append(clause.value.layer)
        if isinstance(clause.value, LayerRectangle):
            via.shapes.append(Shape(clause.value.layer, clause.value.rectangle))
        elif clause.value is not None:
            values.setdefault(clause.word, clause.value)
    return via, values


def via_of_library(design, defined):
    """Returns the via of a LEF text, and its values, in the units of the design."""
    via = Via([Shape(it.layer, design.rectangle(it.corners)) for it in defined.rectangles], list(defined.layers))
    is_kept = lambda word: word in (b"VIARULE", b"LAYERS", b"ROWCOL")
    return via, {word: it if is_kept(word) else design.lengths(it) for word, it in defined.values.items()}


def generated_shapes(values):
    """Returns the shapes of a generated via: its cuts, taken together as one rectangle about the origin, and on the layers below and
    above this rectangle made larger by the enclosures and moved by the offsets. ORIGIN moves them all."""
    if any(word not in values for word in NEEDED):
        return []
    width, height = values[b"CUTSIZE"]
    across, upward = values[b"CUTSPACING"]
    rows, columns = values.get(b"ROWCOL", (1, 1))
    all_width = columns * width + (columns - 1) * across
    all_height = rows * height + (rows - 1) * upward
    left, bottom = -(all_width // 2), -(all_height // 2)
    cut = box((left, bottom), (left + all_width, bottom + all_height))
    enclosures, offsets = values[b"ENCLOSURE"], values.get(b"OFFSET", (0, 0, 0, 0))

    def metal(x, y, offset):
        return moved(box((cut.left - x, cut.bottom - y), (cut.right + x, cut.top + y)), *offset)

    below, between, above = values[b"LAYERS"]
    found = [
        Shape(below, metal(*enclosures[:2], offsets[:2])),
        Shape(between, cut),
        Shape(above, metal(*enclosures[2:], offsets[2:])),
    ]
    return [Shape(layer, moved(it, *values.get(b"ORIGIN", (0, 0)))) for layer, it in found]


def via_named(design, name):
    """Returns the via of a name, or None where there is none. One of the DEF comes before one of the LEF texts; where it has a
    VIARULE, its rectangles mean nothing."""
    entry = design.entry(b"VIAS", name)
    if entry is not None:
        via, values = via_of_entry(entry)
    elif name in design.library.vias:
        via, values = via_of_library(design, design.library.vias[name])
    else:
        return None
    if b"VIARULE" in values:
        return Via(generated_shapes(values), list(values.get(b"LAYERS", [])))
    return via


def joined_layers(design, via):
    """Returns the ROUTING layers that a via names, each once."""
    return sorted({it for it in via.layers if design.is_routing(it)})
