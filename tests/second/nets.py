"""Nets: the pins and the drawn parts of all entries of a name.

LEF/DEF 5.8 Language Reference, "Nets", "Special Nets" and "Pins".
"""
from dataclasses import dataclass, field
from functools import lru_cache
from typing import NamedTuple

from second.geometry import Shape, moved_shapes, placed_shapes, turned_shapes
from second.vias import via_named
from second.wires import drawn_of_entry


class Pin(NamedTuple):
    """A pin of a component, or of the design where there is none."""

    component: bytes | None
    name: bytes


@dataclass
class PinShapes:
    """The shapes of a pin that is placed, and whether it has shapes at all, placed or not."""

    has_shapes: bool
    placed: list


@dataclass
class Net:
    """A net: the shapes of its pins, each pin once, and its drawn parts, of which each has shapes that belong together."""

    pins: dict = field(default_factory=dict)
    parts: list = field(default_factory=list)
    length: int = 0
    is_power: bool = False

    def shapes(self):
        lists = [*(it.placed for it in self.pins.values()), *self.parts]
        return [shape for shapes in lists for shape in shapes]


def ports_of(entry):
    """Returns the clauses of each port of a pin of the design. Those before the first PORT make a port too."""
    ports = [[]]
    for clause in entry.clauses:
        if clause.has_form(b"PORT"):
            ports.append([])
        else:
            ports[-1].append(clause)
    return ports


def shapes_of_design_pin(design, entry):
    """Returns the shapes of a pin of the design. Each port is placed by its first placing; one that isn't lies nowhere."""
    found = PinShapes(False, [])
    for clauses in ports_of(entry):
        placing, shapes = None, []
        for clause in clauses:
            if clause.has_form(b"PLACED", b"FIXED", b"COVER"):
                placing = placing or clause.value
            elif clause.has_form(b"LAYER"):
                shapes.append(Shape(clause.value.layer, clause.value.rectangle))
            elif clause.has_form(b"VIA"):
                via = via_named(design, clause.value.via)
                shapes += moved_shapes(via.shapes, *clause.value.points[0]) if via else []
        shapes = design.on_wired_layers(shapes)
        found.has_shapes = found.has_shapes or bool(shapes)
        if placing:
            found.placed += moved_shapes(turned_shapes(placing.orient, shapes), *placing.at)
    return found


def shapes_of_component_pin(design, component, name):
    """Returns the shapes of a pin of a component, or None where its macro has no such pin. ORIGIN of the macro moves them, and then
    the component's placing, whichever word it has."""
    macro = design.macro(component)
    if macro is None or name not in macro.pins:
        return None
    shapes = design.on_wired_layers([Shape(it.layer, design.rectangle(it.corners)) for it in macro.pins[name].rectangles])
    shapes = moved_shapes(shapes, *design.lengths(macro.origin or (0, 0)))
    placing = component.placing
    if placing is None:
        return PinShapes(bool(shapes), [])
    return PinShapes(bool(shapes), placed_shapes(shapes, design.boundary(macro), placing.orient, placing.at))


def add_design_pin(design, net, name):
    entry = design.entry(b"PINS", name)
    if entry is not None:
        net.pins[Pin(None, name)] = shapes_of_design_pin(design, entry)


def add_component_pin(design, net, component, name):
    shapes = component and shapes_of_component_pin(design, component, name)
    if shapes is not None:
        net.pins[Pin(component.name, name)] = shapes


def add_terminal(design, net, terminal):
    """Adds the pins that a terminal names. VPIN names none, and * the pin of each component whose macro has it."""
    if terminal.component == b"PIN":
        add_design_pin(design, net, terminal.pin)
    elif terminal.component == b"*":
        for component in design.components():
            add_component_pin(design, net, component, terminal.pin)
    elif terminal.component != b"VPIN":
        add_component_pin(design, net, design.component(terminal.component), terminal.pin)


def add_entry(design, net, entry):
    for terminal in entry.terminals:
        add_terminal(design, net, terminal)
    use = entry.first(b"USE")
    if use is not None and use.value in (b"POWER", b"GROUND"):
        net.is_power = True
    drawn = drawn_of_entry(design, entry)
    net.length += drawn.length
    net.parts += filter(None, (design.on_wired_layers(it) for it in drawn.parts))


@lru_cache(maxsize=1)
def nets_of(design):
    """Returns all nets by their names. A pin of the design belongs to the net of its first NET too. (Those of the design that was
    asked for last are kept.)"""
    nets = {}
    for entry in design.net_entries():
        add_entry(design, nets.setdefault(entry.name, Net()), entry)
    for entry in design.entries(b"PINS"):
        of = entry.first(b"NET")
        if of is not None and of.value in nets:
            add_design_pin(design, nets[of.value], entry.name)
    return nets
