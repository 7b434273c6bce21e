"""Random LEF texts."""
from second.random.words import Words

TYPES = {"m": "ROUTING", "v": "CUT", "o": "OVERLAP", "n": None}
LAYERS = ["m1", "v1", "m2", "v2", "m3", "ov", "nt"]
SITES = ["core", "tall", "nosize", "io"]
OTHER_OF_LAYER = [
    "PITCH 1 ;", "SIZE x ;", "DIRECTION HORIZONTAL ;", 'PROPERTY p "a ; b" ;', "ENCLOSURE ABOVE 1 2 ;",
]
OTHER_OF_MACRO = ["FOREIGN x 0 0 ;", "SYMMETRY X Y ;", "EEQ z ;", 'PROPERTY p "s ;" ;', "FIXEDMASK ;"]
OTHER_OF_PIN = [
    "DIRECTION INPUT ;", "USE POWER ;", "SHAPE ABUTMENT ;", "ANTENNAGATEAREA 0.1 LAYER m1 ;", "MUSTJOIN Y ;", "LAYER m1 ;", "RECT x ;",
]
OTHER_OF_PORT = ["POLYGON x ;", "PATH 0 0 1 0 ;", "VIA 0 0 A ;", "WIDTH 1 ;"]
UNCHECKED_OF_PORT = [
    "RECT ITERATE 0 0 1 1 DO 2 BY 2 STEP 1 1 ;", "RECT MASK 1 ITERATE ;", "POLYGON ;", "PATH ;", "VIA x ;",
]
CLASSES = ["CORE", "CORE", "CORE SPACER", "ENDCAP PRE", "BLOCK", "PAD", "COVER", "COVER BUMP", "COREX", "COVERS", "RING"]
LAYERS_OF_VIA = ["m1 v1 m2", "m1 v1 m2", "m1 v1 m2", "m2 v2 m3", "m1 m2 m3", "m1 v1", "zz m1 m2", "m1 nt m2"]
LAYERS_OF_RULE = ["m1 v1 m2", "m2 v1 m1", "m1 v1 m1", "m2 v2 m3"]


class LefTexts(Words):
    """Makes LEF texts: layers, sites, vias, rules and macros, and blocks that mean nothing."""

    def lef(self):
        parts = [self.lef_head()]
        parts += [self.lef_layer(it) for it in LAYERS for _ in range(self.copies(0.04, 0.08))]
        parts += [self.often(0.2, "SPACING\n SAMENET m1 m2 0.1 ;\nEND SPACING")]
        parts += [self.lef_via(it) for it in [*self.some(self.vias, 3), *self.some(self.vias, 0, 1)]]
        parts += [self.often(0.3, self.lef_via_rule())]
        parts += [self.lef_site(it) for it in SITES if self.chance(0.9)]
        parts += [self.lef_rule(it) for it in ("r1", "r2") if self.chance(0.5)]
        parts += [self.lef_macro(it) for it in self.macros for _ in range(self.copies(0.05, 0.04))]
        parts += [self.often(0.8, "END LIBRARY")]
        return "\n".join(filter(None, parts)) + self.one("\n", "", "\n# end")

    def copies(self, none, two):
        """Returns how often a thing is defined: nearly always once."""
        kind = self.rng.random()
        return 0 if kind < none else 2 if kind < none + two else 1

    def lef_head(self):
        version = "VERSION 5.8 ;\n" + self.one('BUSBITCHARS "[]" ;', 'DIVIDERCHAR "/";', "MANUFACTURINGGRID 0.005 ;", "FIXEDMASK ;")
        parts = [
            self.often(0.3, version),
            self.often(0.3, "UNITS\n DATABASE MICRONS 1000 ;\n TIME NANOSECONDS 1 ;\nEND UNITS"),
            self.often(0.2, "PROPERTYDEFINITIONS\n LAYER x STRING ;\n MACRO y INTEGER ;\nEND PROPERTYDEFINITIONS"),
            self.often(0.1, 'BEGINEXT "t" LAYER x ; END y ; ENDEXT'),
        ]
        return "\n".join(filter(None, parts))

    def lef_block(self, header, statements, end):
        """Returns a block: its header, the statements that aren't empty, in any order, and its end."""
        kept = [it for it in statements if it]
        self.rng.shuffle(kept)
        return "\n".join([self.spaced(header), *(self.spaced(it) for it in kept), end])

    def lef_layer(self, name):
        kind = TYPES[name[0]] if self.chance(0.95) else self.one("ROUTING", "CUT", "MASTERSLICE", "IMPLANT", None)
        return self.lef_block(f"LAYER {name}", [
            f"TYPE {kind} ;" if kind else "",
            self.often(0.1, f"TYPE {self.one('CUT', 'ROUTING')} ;"),
            self.often(0.75, f"WIDTH {self.lengths(1)} {self.one('', '', 'x', chr(34) + 'y' + chr(34))} ;"),
            self.often(0.1, f"WIDTH {self.lengths(1)} ;"),
            self.often(0.4, f"SPACING {self.distances(1)} {self.one('', 'RANGE 1 2')} ;"),
            self.often(0.2, self.one(*OTHER_OF_LAYER)),
        ], f"END {name}")

    def lef_site(self, name):
        size = "" if name == "nosize" else f"SIZE {self.lengths(1)} BY {self.lengths(1)} ;"
        other = self.often(0.2, self.one("SYMMETRY X Y ;", "SIZE 1 BY 2 ;"))
        return self.lef_block(f"SITE {name}", [f"CLASS {self.one('CORE', 'PAD')} ;", size, other], f"END {name}")

    def lef_via_rule(self):
        """Returns a via rule. Words that can't follow its name begin a statement, which may be the one that ends it."""
        if self.invalid and self.chance(0.3):
            return f"VIARULE vr {self.one('DEFAULT DEFAULT', 'DEFAULT GENERATE', 'GENERATE GENERATE')}\nEND vr"
        header = self.spaced("VIARULE vr " + self.one("", "GENERATE", "DEFAULT", "GENERATE DEFAULT"))
        return f"{header}\nLAYER m1 ;\n RECT 0 0 1 1 ;\n VIA x ;\n SIZE z ;\nEND vr"

    def lef_rectangle(self):
        a, b = self.distances(2, -1, 2), self.distances(2, -1, 2)
        if self.chance(0.15):
            a, b = f"( {a} )", f"( {b} )" if self.chance(0.7) else b
        return f"RECT {self.often(0.1, 'MASK ' + self.one('1', 'x'))} {a} {b} ;"

    def lef_via(self, name):
        listed, generated, kind = [], [], self.rng.random()
        for layer in self.one(*LAYERS_OF_VIA).split() if kind < 0.75 else []:
            listed.append(f"LAYER {layer} ;")
            listed += [self.lef_rectangle() for _ in range(self.between(0, 2))]
            listed.append(self.often(0.08, f"POLYGON {self.one('0 0 0 1 1 1', 'x', '')} ;"))
        if kind > 0.68:
            generated = self.lef_generated()
        other = [self.often(0.1, "CUTSIZE 1 1 ;"), self.often(0.1, "RESISTANCE 1 ;")]
        header = f"VIA {name} {self.one('', 'DEFAULT', 'GENERATED', 'DEFAULT TOPOFSTACKONLY')}"
        return f"{self.spaced(header)}\n{self.lines(filter(None, [*listed, *other, *generated]))}\nEND {name}"

    def lef_generated(self):
        """Returns the statements of a generated via, of which one may be missing or given twice."""
        needed = [
            f"CUTSIZE {self.lengths(2)} ;", f"LAYERS {self.one(*LAYERS_OF_RULE)} ;", f"CUTSPACING {self.lengths(2)} ;",
            f"ENCLOSURE {self.distances(4)} ;",
        ]
        found = [it for it in needed if self.chance(0.94)]
        found += [
            self.often(0.6, f"ROWCOL {self.between(1, 3)} {self.between(1, 3)} ;"),
            self.often(0.3, f"ORIGIN {self.distances(2)} ;"),
            self.often(0.3, f"OFFSET {self.distances(4)} ;"),
            self.often(0.2, "PATTERN 2_F ;"),
            self.often(0.1, "ROWCOL 2 2 ;"),
        ]
        self.rng.shuffle(found)
        return ["VIARULE vr ;", *found]

    def lef_rule(self, name):
        parts = []
        for _ in range(self.between(0, 3)):
            layer = self.layer()
            widths = self.often(0.8, f"WIDTH {self.lengths(1)} ;\n") + self.often(0.1, "WIDTH 1 ;\n")
            parts.append(f"LAYER {layer}\n{widths}{self.often(0.3, 'SPACING 1 ;')}\nEND {layer}")
        parts.append(self.often(0.3, self.lef_via(self.one("A", "nd", "x1"))))
        parts.append(self.often(0.2, "SPACING\n SAMENET a b 1 ;\nEND SPACING"))
        parts.append(self.often(0.2, self.one("HARDSPACING ;", "USEVIA A ;", "MINCUTS v1 2 ;")))
        self.rng.shuffle(parts)
        return "\n".join([f"NONDEFAULTRULE {name}", *filter(None, parts), f"END {name}"])

    def lef_macro(self, name):
        origin = self.distances(2)
        statements = [
            self.often(0.92, f"CLASS {self.one(*CLASSES)} ;"),
            self.often(0.07, "CLASS COVER ;"),
            self.often(0.6, f"ORIGIN {origin if self.chance(0.8) else f'( {origin} )'} ;"),
            self.often(0.95, f"SIZE {self.lengths(1)} BY {self.lengths(1)} ;"),
            self.often(0.3, self.one(*OTHER_OF_MACRO)),
        ]
        for _ in range(self.one(0, 1, 1, 1, 2)):
            site = self.one("core", "core", "tall", "nosize", "io", "nosite")
            statements.append(f"SITE {site} {self.one('', '', '0 0 N DO 1 BY 2')} ;")
        blocks = [self.lef_pin(it) for it in self.macro_pins if self.chance(0.7) for _ in range(self.copies(0, 0.06))]
        blocks.append(self.often(0.3, "OBS\nLAYER m1 ;\nRECT 0 0 1 1 ;\nSITE x ;\nEND"))
        blocks.append(self.often(0.1, "DENSITY\nLAYER m1 ;\nRECT x ;\nEND"))
        parts = [*(self.spaced(it) for it in statements if it), *filter(None, blocks)]
        self.rng.shuffle(parts)
        return "\n".join([f"MACRO {name}", *parts, f"END {name}"])

    def lef_pin(self, name):
        parts = [self.often(0.4, self.one(*OTHER_OF_PIN))]
        parts += [self.lef_port() for _ in range(self.one(0, 1, 1, 1, 2))]
        return "\n".join([f"PIN {name}", *filter(None, parts), f"END {name}"])

    def lef_port(self):
        statements = [self.often(0.2, "CLASS CORE ;"), self.often(0.1, self.one(*OTHER_OF_PORT))]
        for _ in range(self.between(1, 2)):
            statements.append(f"LAYER {self.layer()} {self.one('', '', 'SPACING 1', 'EXCEPTPGNET')} ;")
            statements += [self.lef_rectangle() for _ in range(self.between(0, 2))]
            statements.append(self.often(0.1, self.one(*UNCHECKED_OF_PORT)))
        return f"PORT\n{self.lines(filter(None, statements))}\nEND"
