"""The lines of `check` on what nets draw: shorts, blockages of layers, and pins and wires that aren't joined."""
from dataclasses import dataclass
from itertools import combinations

from second.geometry import common, meets, overlaps
from second.nets import nets_of
from second.place_lines import is_weak


@dataclass
class Group:
    """Shapes that belong together: those of a pin, or of a drawn part."""

    is_pin: bool
    shapes: list


def by_layer(shapes):
    """Returns the rectangles of shapes by their layers."""
    layers = {}
    for layer, rectangle in shapes:
        layers.setdefault(layer, []).append(rectangle)
    return layers


def touches(a, b):
    """Returns whether a shape of one group and one of another meet on a layer."""
    return any(one.layer == other.layer and meets(one.rectangle, other.rectangle) for one in a.shapes for other in b.shapes)


def joined_groups(groups):
    """Returns the groups in classes: two that touch are in one, and so are those that others join."""
    classes = []
    for group in groups:
        touching, apart = [], []
        for it in classes:
            (touching if any(touches(group, other) for other in it) else apart).append(it)
        classes = [*apart, [group, *(other for it in touching for other in it)]]
    return classes


class NetLines:
    """Collects the lines on what nets draw."""

    def __init__(self, design, lines):
        self.design, self.lines = design, lines
        self.nets = nets_of(design)

    def collect(self):
        layers = {name: by_layer(net.shapes()) for name, net in self.nets.items()}
        for a, b in combinations(sorted(self.nets), 2):
            self.shorts(a, layers[a], b, layers[b])
        blockages = [it for it in self.design.entries(b"BLOCKAGES") if it.has_form and it.layer is not None and not is_weak(it)]
        for name, net in self.nets.items():
            for it in blockages:
                if not (net.is_power and b"EXCEPTPGNET" in it.words):
                    self.blocked(name, net, it)
            self.unjoined(name, net)

    def shorts(self, name, layers, other_name, other_layers):
        """Tells each pair of shapes of two nets that meet, with what they have in common."""
        for layer in layers.keys() & other_layers.keys():
            for a in layers[layer]:
                for b in other_layers[layer]:
                    if meets(a, b):
                        self.lines.say(b"short", name, other_name, layer, *common(a, b))

    def blocked(self, name, net, blockage):
        """Tells each drawn shape that overlaps a rectangle of a blockage of its layer."""
        for part in net.parts:
            for layer, rectangle in part:
                for blocked in blockage.rectangles if layer == blockage.layer else []:
                    if overlaps(rectangle, blocked):
                        self.lines.say(b"routeblock", name, layer, *common(rectangle, blocked))

    def unjoined(self, name, net):
        """Tells a net whose pins aren't joined with each other, and one that has drawn parts which no pin joins."""
        pins = [Group(True, it.placed) for it in net.pins.values() if it.has_shapes]
        classes = joined_groups([*pins, *(Group(False, it) for it in net.parts)])
        with_pin = sum(any(it.is_pin for it in groups) for groups in classes)
        if with_pin > 1:
            self.lines.say(b"open" if net.parts else b"unrouted", name, with_pin)
        if len(classes) > with_pin:
            self.lines.say(b"floating", name, len(classes) - with_pin)
