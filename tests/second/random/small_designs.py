"""Random designs that are small and of one kind each: rows, fences, wires, or many components on many nets."""
from second.random.net_texts import FORMLESS
from second.random.script_lines import ScriptLines
from second.random.words import USES

BLOCKING = ["", "", "", "+ SOFT", "+ PUSHDOWN", "+ PARTIAL 3", "+ COMPONENT u", "+ EXCEPTPGNET", "+ FILLS", "+ SLOTS", "+ SLOTSX"]
BLOCKING_LAYER = ["", "", "", "+ SOFT", "+ PUSHDOWN", *["+ EXCEPTPGNET"] * 5, "+ FILLS", "+ SPACING 3", "+ MASK EXCEPTPGNET SOFT"]
PATTERNS = ["u*", "*1", "*", "v?", "*/*", "u*1*", "**", "x3", "a/b*", "***", "*u*", "*b4"]
PLACED = ["PLACED", "PLACED", "FIXED"]
UNIT = "UNITS DISTANCE MICRONS 1 ;"


class SmallDesigns(ScriptLines):
    """Makes plain texts at one database unit per micron."""

    is_odd = False
    # whether many coordinates are one of a few
    is_close = True
    macros = ["M", "N", "O", "P", "Q"]

    def __init__(self, seed):
        super().__init__(seed)
        self.far, self.units, self.is_dense = 0.0, 1, self.is_close

    def numbers(self, count, least, most):
        return " ".join(str(self.between(least, most)) for _ in range(count))

    def rectangle(self, least, most):
        return f"( {self.numbers(2, least, most)} ) ( {self.numbers(2, least, most)} )"

    def whole_section(self, name, entries):
        return "\n".join([f"{name} {len(entries)} ;", *entries, f"END {name}"])

    def placed(self, name, words, least, most):
        at = f"( {self.between(least, most)} {self.between(least, most)} )"
        return f"- {name} {self.one(*self.macros)} + {self.one(*words)} {at} {self.orient()}"


class RowDesigns(SmallDesigns):
    """Components in rows of sites."""

    def lef(self):
        parts = []
        for it in "abc":
            parts.append(f"SITE {it}\n{self.often(0.9, f'SIZE {self.between(0, 4)} BY {self.between(0, 4)} ;')}\nEND {it}")
        for it in self.macros:
            kind = self.one("CORE", "CORE WELLTAP", "ENDCAP", "BLOCK", "PAD", "COVER", "COVERS", "RING")
            sites = "".join(f" SITE {self.one(*'aabcd')} ;\n" for _ in range(self.one(0, 1, 1, 1, 2)))
            parts.append(f"MACRO {it}\n CLASS {kind} ;\n SIZE {self.between(0, 6)} BY {self.between(0, 6)} ;\n{sites}END {it}")
        return "\n".join([*parts, ""])

    def row(self):
        text = f"{self.one(*'aaabcd')} {self.numbers(2, -1, 3)} {self.orient()}"
        if self.chance(0.9):
            text += f" DO {self.one(0, 1, 2, 3, 4, 8)} BY {self.one(0, 1, 1, 2, 3)}"
            text += self.often(0.7, f" STEP {self.numbers(2, -3, 4)}")
        return text

    def design(self):
        parts = [UNIT, self.often(0.5, f"DIEAREA {self.rectangle(-2, 12)} ;")]
        parts += [f"ROW r{k} {self.row()} ;" for k in range(self.between(1, 4))]
        parts.append(self.whole_section("COMPONENTS", [f"{self.placed(f'c{k}', PLACED, -2, 9)} ;" for k in range(self.between(1, 8))]))
        return "\n".join([*filter(None, parts), "END DESIGN", ""])

    def asked(self):
        return ["check"]

    def edited(self):
        return [f"place c{self.between(0, 5)} {self.between(-2, 9)} {self.between(-2, 6)} {self.orient()}", "check"]


class FenceDesigns(RowDesigns):
    """Components in fences, groups, blockages and a die area."""

    def region(self):
        rectangles = [self.rectangle(-2, 12) for _ in range(self.between(1, 5))]
        return " ".join([*rectangles, self.one("+ TYPE FENCE", "+ TYPE FENCE", "+ TYPE FENCE", "+ TYPE GUIDE", "")])

    def group(self, name):
        patterns = [self.one(*PATTERNS) for _ in range(self.between(0, 2))]
        return " ".join(["-", name, *patterns, f"+ REGION {self.one(*'FGHX')} ;"])

    def design(self):
        components = []
        for k in range(self.between(1, 8)):
            name = f"{self.one('u', 'v', 'a/b', 'x', chr(233))}{k}"
            components.append(f"{self.placed(name, PLACED, -2, 9)} {self.often(0.4, f'+ REGION {self.one(*self.region_names())}')} ;")
        blockages = []
        for _ in range(self.between(0, 4)):
            shapes = [f"RECT {self.rectangle(-2, 12)}" for _ in range(self.between(1, 3))]
            blockages.append(f"- PLACEMENT {self.one(*BLOCKING)} {' '.join(shapes)} ;")
        parts = [
            UNIT,
            self.often(0.7, f"DIEAREA {self.rectangle(-3, 14)} ;"),
            self.whole_section("REGIONS", [f"- {it} {self.region()} ;" for it in self.some("FGH", 1)]),
            self.whole_section("COMPONENTS", components),
            self.whole_section("GROUPS", [self.group("g1"), self.group("g2")]),
            self.whole_section("BLOCKAGES", blockages),
        ]
        return "\n".join([*filter(None, parts), "END DESIGN", ""])

    def region_names(self):
        return "FGHX"

    def edited(self):
        return [f"place u{self.between(0, 5)} {self.between(-2, 9)} {self.between(-2, 9)} {self.orient()}", "check"]


class WireDesigns(SmallDesigns):
    """Pins, wires and vias of two nets that lie close together."""

    layers = ["m1", "m1", "m1", "m2", "m2", "m3", "v1"]
    vias = ["A", "A", "A", "B", "C", "D", "E"]
    components = ["u1", "u2", "u3"]
    macros = ["M", "N", "O"]
    nets = ["n~", "n\x80"]
    cells = (3, 4)

    def lef(self):
        parts = []
        for it in ("m1", "v1", "m2", "v2", "m3"):
            kind = "ROUTING" if it[0] == "m" else "CUT"
            parts.append(f"LAYER {it}\n TYPE {kind} ;\n{self.often(0.8, f' WIDTH {self.between(0, 3)} ;')}\nEND {it}")
        parts += [self.listed_via("A", "m1 v1 m2"), self.listed_via("B", "m2 v2 m3"), self.listed_via("C", "m1 v1 m2")]
        parts.append(
            f"VIA D\n VIARULE q ;\n CUTSIZE {self.numbers(2, 0, 3)} ;\n LAYERS m1 v1 m2 ;\n CUTSPACING {self.numbers(2, 0, 3)} ;\n"
            f" ENCLOSURE {self.numbers(4, -2, 2)} ;\n ROWCOL {self.numbers(2, 1, 3)} ;\n ORIGIN {self.numbers(2, -2, 2)} ;\n"
            f" OFFSET {self.numbers(4, -2, 2)} ;\nEND D"
        )
        parts += [self.macro(it) for it in self.macros]
        widths = [f" LAYER {it}\n  WIDTH {self.between(0, 5)} ;\n END {it}" for it in ("m1", "m3")]
        return "\n".join([*parts, "NONDEFAULTRULE r1", *widths, "END r1", ""])

    def listed_via(self, name, layers):
        lines = []
        for it in layers.split():
            lines.append(f" LAYER {it} ;")
            lines += [f"  RECT {self.numbers(4, -2, 2)} ;" for _ in range(self.one(0, 1, 1, 1, 2))]
        return "\n".join([f"VIA {name}", *lines, f"END {name}"])

    def macro(self, name):
        lines = [f" CLASS CORE ;\n ORIGIN {self.numbers(2, -2, 2)} ;\n SIZE {self.between(0, 6)} BY {self.between(0, 6)} ;"]
        for pin in "AYZ":
            ports = [self.macro_port() for _ in range(self.one(0, 1, 1, 2))]
            lines.append(self.often(0.85, "\n".join([f" PIN {pin}", *ports, f" END {pin}"])))
        return "\n".join([f"MACRO {name}", *filter(None, lines), f"END {name}"])

    def macro_port(self):
        lines = []
        for _ in range(self.between(1, 2)):
            lines.append(f"   LAYER {self.one('m1', 'm1', 'm2', 'v1', 'q')} ;")
            lines += [f"    RECT {self.numbers(4, -1, 6)} ;" for _ in range(self.between(0, 2))]
        return "\n".join(["  PORT", *lines, "  END"])

    def terminal(self):
        pin = self.one(*"AYZ")
        component = f"( {self.one(*self.components)} {pin} )"
        return self.one(component, component, f"( PIN {self.one(*self.pins)} )", f"( * {pin} )")

    def wired_net(self, name, section):
        parts = ["-", name, *(self.terminal() for _ in range(self.between(0, 3)))]
        parts += [self.wiring(section == "SPECIALNETS") for _ in range(self.between(0, 3))]
        parts += [self.often(share, f"+ USE {self.one(*USES)}") for share in (0.7, 0.3)]
        parts.append(self.often(0.15, self.one(*FORMLESS)))
        if section == "NETS":
            parts.append(self.often(0.3, f"+ NONDEFAULTRULE {self.one('r1', 'r3')}"))
        return self.spaced(" ".join([*parts, ";"]))

    def net_sections(self, least, most):
        """Returns the sections of nets, with so many entries each."""
        found = []
        for section in ("NETS", "SPECIALNETS"):
            entries = [self.wired_net(name, section) for name in self.some(self.nets, least, most)]
            found.append(self.whole_section(section, entries))
        return found

    def layer_blockage(self):
        shapes = [f"RECT {self.rectangle(-2, 12)}" for _ in range(self.between(1, 2))]
        return f"- LAYER {self.layer()} {self.one(*BLOCKING_LAYER)} {' '.join(shapes)} ;"

    def design(self):
        words = ["PLACED", "PLACED", "FIXED", "COVER", "UNPLACED"]
        via = [f"+ RECT {self.one('m1', 'm2', 'v1')} {self.rectangle(-2, 3)}" for _ in range(3)]
        rule = f"- r3 + LAYER m1 WIDTH {self.between(0, 5)} + LAYER m2 WIDTH {self.between(0, 5)} ;"
        parts = [
            UNIT,
            "GCELLGRID X 0 DO 4 STEP 5 ;\nGCELLGRID Y -2 DO 5 STEP 4 ;",
            self.whole_section("NONDEFAULTRULES", [rule]),
            self.whole_section("VIAS", [" ".join(["- E", *via, ";"])]),
            self.whole_section("COMPONENTS", [f"{self.placed(it, words, -2, 12)} ;" for it in self.components]),
            self.section("PINS", self.pin_entries()),
            self.whole_section("BLOCKAGES", [self.layer_blockage() for _ in range(self.between(0, 3))]),
        ]
        parts += self.net_sections(0, 2)
        return "\n".join([*parts, "END DESIGN", ""])

    def asked(self):
        cells = [f"cell {self.between(0, 3)} {self.between(0, 4)} {self.one('m1', 'm2', 'm3', 'v1')}" for _ in range(5)]
        nets = [f"{word} {net}" for word in ("length", "box") for net in self.nets]
        return ["check", "length", *nets, *cells, f"pcell {self.between(0, 2)} {self.between(0, 3)}"]

    def edited(self):
        """Returns the line of an edit."""
        net, component = self.one(*self.nets), self.one(*self.components)
        x, y = self.between(*self.reach), self.between(*self.reach)
        terminal = f"{net} {component} {self.one(*'AYZ')}"
        kinds = {
            f"place {component} {x} {y} {self.orient()}": 30,
            f"route {net} {self.spaced(self.wiring(self.chance(0.4)))}": 25,
            f"unroute {net}": 10,
            f"connect {terminal}": 8,
            f"disconnect {terminal}": 7,
            f"remaster {component} {self.one(*self.macros)}": 5,
            f"unplace {component}": 5,
            f"block {self.one('m1', 'm2')} {self.numbers(4, -2, 12)}": 10,
        }
        return [self.weighted(kinds)]


class CrowdDesigns(WireDesigns):
    """Many components on many nets, some of which take a pin of each component."""

    components = [f"u{k}" for k in range(40)]
    nets = [f"n{k}" for k in range(30)]
    reach = (-10, 150)
    is_close = False

    def wired_net(self, name, section):
        parts = ["-", name]
        parts += [f"( {self.one(*self.components)} {self.one(*'AYZ')} )" for _ in range(self.one(0, 1, 2, 3, 12))]
        parts.append(self.often(0.6, f"( * {self.one(*'AYZ')} )"))
        parts += [self.wiring(section == "SPECIALNETS") for _ in range(self.between(0, 2))]
        return self.spaced(" ".join([*parts, ";"]))

    def design(self):
        words = ["PLACED", "PLACED", "PLACED", "FIXED", "UNPLACED"]
        parts = [
            UNIT,
            "GCELLGRID X 0 DO 8 STEP 20 ;\nGCELLGRID Y 0 DO 8 STEP 20 ;",
            self.whole_section("COMPONENTS", [f"{self.placed(it, words, 0, 150)} ;" for it in self.components]),
            self.whole_section("BLOCKAGES", ["- LAYER m1 RECT ( 0 0 ) ( 50 50 ) ;"]),
        ]
        parts += self.net_sections(22, 22)
        return "\n".join([*parts, "END DESIGN", ""])

    def asked(self):
        net = self.one(*self.nets)
        return ["check", f"length {net}", f"box {net}", f"cell {self.between(0, 6)} {self.between(0, 6)} m1"]

    def edited(self):
        added = f"w{self.between(0, 5)}"
        if self.chance(0.8):
            return super().edited()
        return [self.one(f"add {added} {self.one(*self.macros)}", f"remove {added}")]
