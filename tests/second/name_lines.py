"""The other lines of `check`: counts in headers, names that aren't defined, vias off their layer, and what isn't looked at."""
from typing import NamedTuple

from second.clauses import Kind, region_of_group
from second.wires import drawn_of_entry
from second.wiring import LayerPolygon, LayerRectangle, ViaAt, Wires


class Owner(NamedTuple):
    """Where a name stands: the section, and the name of the entry in it."""

    section: bytes
    name: bytes


def owner_of(entry):
    return Owner(entry.section, entry.name)


class NameLines:
    """Collects the lines on names and counts."""

    def __init__(self, design, lines):
        self.design, self.library, self.lines = design, design.library, lines

    def collect(self):
        self.headers()
        self.floor()
        self.components()
        self.groups()
        self.pins()
        self.blockages()
        self.vias()
        self.rules()
        for entry in self.design.net_entries():
            self.terminals(entry)
            self.wiring(entry)
        self.definitions()

    # ---- Each of these tells a name that isn't defined

    def unknown(self, kind, name, owner):
        self.lines.say(b"unknown", kind, name, *owner)

    def layer(self, name, owner):
        if name not in self.library.layers:
            self.unknown(b"LAYER", name, owner)

    def via(self, name, owner):
        if self.design.entry(b"VIAS", name) is None and name not in self.library.vias:
            self.unknown(b"VIA", name, owner)

    def rule(self, name, owner):
        if self.design.entry(b"NONDEFAULTRULES", name) is None and name not in self.library.rules:
            self.unknown(b"RULE", name, owner)

    def net(self, name, owner):
        if self.design.net_entry(name) is None:
            self.unknown(b"NET", name, owner)

    def region(self, name, owner):
        if self.design.entry(b"REGIONS", name) is None:
            self.unknown(b"REGION", name, owner)

    def unchecked(self, owner, count):
        """Tells how many parts of an entry aren't looked at."""
        if count:
            self.lines.say(b"unchecked", *owner, count)

    # ---- The statements

    def headers(self):
        for section, header in self.design.sections.headers.items():
            count = len(self.design.entries(section))
            if header.said != count:
                self.lines.say(b"count", section, header.said, count)

    def floor(self):
        if self.design.die is not None and len(self.design.die) > 2:
            self.unchecked(Owner(b"DIEAREA", b"-"), 1)
        for row in self.design.rows:
            if row.site not in self.library.sites:
                self.unknown(b"SITE", row.site, Owner(b"ROWS", row.name))

    def components(self):
        for it in self.design.components():
            if self.design.macro(it) is None:
                self.unknown(b"MACRO", it.macro, owner_of(it))
            region = it.first(b"REGION")
            if region is not None:
                self.region(region.value, owner_of(it))

    def groups(self):
        for it in self.design.entries(b"GROUPS"):
            name = region_of_group(it)
            if name is not None:
                self.region(name, owner_of(it))

    def pins(self):
        for it in self.design.entries(b"PINS"):
            net = it.first(b"NET")
            if net is not None:
                self.net(net.value, owner_of(it))
            self.shapes(it)

    def shapes(self, entry):
        """Tells the layers and vias of the shapes of an entry, and counts its polygons."""
        values = [clause.value for clause in entry.clauses]
        for value in values:
            if isinstance(value, (LayerRectangle, LayerPolygon)):
                self.layer(value.layer, owner_of(entry))
            elif isinstance(value, ViaAt):
                self.via(value.via, owner_of(entry))
        self.unchecked(owner_of(entry), sum(isinstance(it, LayerPolygon) for it in values))

    def blockages(self):
        """Tells the layers of blockages, and counts their polygons. One without the form counts once."""
        owner = Owner(b"BLOCKAGES", b"-")
        for it in self.design.entries(b"BLOCKAGES"):
            if it.layer is not None:
                self.layer(it.layer, owner)
            self.unchecked(owner, it.polygons if it.has_form else 1)

    def vias(self):
        """Tells the layers of the shapes of vias, and those of the first LAYERS of each."""
        for it in self.design.entries(b"VIAS"):
            self.shapes(it)
            layers = it.first(b"LAYERS")
            for layer in layers.value if layers else []:
                self.layer(layer, owner_of(it))

    def rules(self):
        """Tells the layers of nondefault rules, each once for a rule."""
        for it in self.design.entries(b"NONDEFAULTRULES"):
            for layer in {clause.value.layer for clause in it.clauses if clause.has_form(b"LAYER")}:
                self.layer(layer, owner_of(it))

    def terminals(self, entry):
        """Tells each terminal whose component or pin isn't there. One of a component without a defined macro isn't looked at."""
        for it in entry.terminals:
            component = self.design.component(it.component)
            if it.component in (b"*", b"VPIN"):
                continue
            if it.component == b"PIN":
                is_known = self.design.entry(b"PINS", it.pin) is not None
            elif component is None:
                self.unknown(b"COMPONENT", it.component, owner_of(entry))
                continue
            else:
                macro = self.design.macro(component)
                is_known = macro is None or it.pin in macro.pins
            if not is_known:
                self.lines.say(b"unknown", b"PIN", it.component, it.pin, *owner_of(entry))

    def wiring(self, entry):
        """Tells what the wiring of an entry names, and counts what of it isn't looked at: clauses without their form, SUBNET,
        polygons, wires with a STYLE, and segments that are neither level nor upright."""
        rule = entry.first(b"NONDEFAULTRULE")
        if rule is not None:
            self.rule(rule.value, owner_of(entry))
        drawn = drawn_of_entry(self.design, entry)
        count = drawn.diagonals
        for clause in entry.clauses:
            count += clause.kind in (Kind.SUBNET, Kind.FORMLESS) or isinstance(clause.value, LayerPolygon)
            if isinstance(clause.value, Wires):
                count += self.wires(clause.value, owner_of(entry))
            elif isinstance(clause.value, (LayerRectangle, LayerPolygon)):
                self.layer(clause.value.layer, owner_of(entry))
        for name in drawn.vias:
            self.via(name, owner_of(entry))
        for name in drawn.off_layer:
            self.lines.say(b"vialayer", name, *owner_of(entry))
        self.unchecked(owner_of(entry), count)

    def wires(self, clause, owner):
        """Tells the layers, the rules and the net that a clause of wires names. Returns how many wires have a STYLE."""
        if clause.shielded is not None:
            self.net(clause.shielded, owner)
        for wire in clause.wires:
            self.layer(wire.layer, owner)
            if wire.rule is not None:
                self.rule(wire.rule, owner)
        return sum(wire.has_style for wire in clause.wires)

    def definitions(self):
        """Counts the parts of macros and vias of the LEF texts that aren't looked at."""
        for name, macro in self.library.macros.items():
            self.unchecked(Owner(b"MACRO", name), sum(it.unchecked for it in macro.pins.values()))
        for name, via in self.library.vias.items():
            self.unchecked(Owner(b"VIA", name), via.polygons)
