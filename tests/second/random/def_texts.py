"""Random DEF texts."""
from second.clauses import SECTIONS
from second.random.net_texts import NetTexts

HEADS = [
    "VERSION 5.8 ;", 'DIVIDERCHAR "/" ;', "DESIGN top ;", "TECHNOLOGY t ;", "HISTORY a + b ( ;", ";", "NEW x ;", "* ;", "ENDEXT ;",
]
OTHER_OF_COMPONENT = [
    "+ SOURCE DIST", "+ WEIGHT 2", '+ PROPERTY k "a ; b + c"', "+ HALO 1 1 1 1", "+ X", "+ ORIGINAL x", '+ PROPERTY s "\\"" t 1',
    "+ EEQMASTER z", '+ PROPERTY k "v"', '+ PROPERTY k ""',
]
OTHER_OF_PIN = ["+ DIRECTION INPUT", "+ USE SIGNAL", "+ USE POWER", "+ SPECIAL", '+ NETEXPR "a b"', "+ ANTENNAPINGATEAREA 1 LAYER m1"]
PATTERNS = ["u*", "*", "u1", "u?", "*1", "a/*", "u*0", "**", "x\\[*", "nothing", "c*", "*/*", "u1*1", "(", "-"]
GROUP_REGIONS = ["F", "Gd", "H", "noreg", "( 0 0 ) ( 5 5 )", "", "F Gd", "*"]
ODD_BLOCKAGES = [
    "- ;", "- LAYER m1 ;", "- PLACEMENT ;", "- x y ;", "- PLACEMENT RECT ( 0 0 ) ;", "- LAYER m1 RECT ( 0 0 ) ( 9 9 ) + SLOTS ;",
    '- + + "x" ;', "- PLACEMENT + RECT ( 0 0 ) ( 9 9 ) ;", "- LAYER m1 + POLYGON ( 0 0 ) ( 9 9 ) ( 0 9 ) RECT ( 0 0 ) ( 9 9 ) ;",
]
BLOCKAGE_WORDS = [
    "SOFT", "PARTIAL 50", "SLOTS", "FILLS", "COMPONENT u1", "PUSHDOWN", "EXCEPTPGNET", "SPACING 10", "DESIGNRULEWIDTH 5", "MASK 1",
    "PUSHDOWN", "EXCEPTPGNET", "PUSHDOWN SOFT", "SPACING 10 SLOTS", "MASK EXCEPTPGNET", "X COMPONENT FILLS", "SLOTSX", "SOFTER",
    "EXCEPTPGNETS",
]
LAYERS_OF_VIA = ["m1 v1 m2", "m1 v1 m2", "m2 v2 m3", "m1 m2 m3", "m1 v1 zz", "m1"]
OTHER_OF_RULE = ["+ VIA A", "+ VIARULE vr", "+ HARDSPACING", "+ MINCUTS v1 2"]
KEPT_ENTRIES = ["- ;", "- a + PART ;", "- a ;", '- ( "s" ;']
PROPERTIES = 'PROPERTYDEFINITIONS\nCOMPONENTPIN x STRING ;\n- ; END ;\n"a";\nEND PROPERTYDEFINITIONS'
LIMITS_OF_LINES = [
    "2147483646 DO 2 STEP 1", "2147483646 DO 2 STEP 2", "0 DO 100000 STEP 21475", "0 DO 100001 STEP 1", "0 DO 100000 STEP 1",
    "0 DO 2 STEP -1",
]
TRACKS_OF = ["", "LAYER m1", "MASK 1 SAMEMASK LAYER m1", '"x"']


class DefTexts(NetTexts):
    """Makes DEF texts: the floor of a design, and its sections in any order."""

    def design(self):
        floor = [self.often(0.3, self.one(*HEADS)), self.often(0.7, self.spaced(self.die_area()))]
        floor += [self.spaced(self.row()) for _ in range(self.between(0, 4))]
        floor += self.grid()
        floor += [
            self.often(0.2, self.spaced(f"TRACKS {self.one('X', 'Y')} {self.tracks()} {self.one(*TRACKS_OF)} ;")),
            self.often(0.1, PROPERTIES),
            self.often(0.05, 'BEGINEXT "tag" - ; END x ENDEXT'),
        ]
        parts = [it for it in [*floor, *self.sections()] if it]
        if self.chance(0.5):
            self.rng.shuffle(parts)
        units = self.number(self.one(0, 100000, 100001) if self.is_limit() else self.units)
        parts.insert(0 if self.chance(0.8) else self.between(0, len(parts)), self.spaced(f"UNITS DISTANCE MICRONS {units} ;"))
        return "\n".join([*parts, self.spaced("END DESIGN")]) + self.one("\n", "", "\n# tail", "  \n\n")

    def die_area(self):
        further = [self.further_point() for _ in range(self.one(0, 0, 0, 0, 1, 2))]
        return f"DIEAREA {self.corners()} {' '.join(further)} ;"

    def row(self):
        site = self.one("core", "core", "tall", "nosize", "io", "nosite")
        text = f"ROW {self.one('r0', 'r1', 'r2')} {site} {self.coordinates(2)} {self.orient()}"
        if self.chance(0.85):
            text += f" DO {self.number(self.one(0, 1, 1, 2, 5, 20))} BY {self.number(self.one(0, 1, 1, 1, 2, 3))}"
            if self.chance(0.7):
                text += f" STEP {self.number(self.between(-3, 6))} {self.number(self.between(-3, 6))}"
        return text + self.often(0.1, ' + PROPERTY k "v"') + " ;"

    def grid(self):
        found = []
        for axis in "XY":
            for _ in range(self.one(1, 1, 2, 3) if self.is_dense else self.one(0, 1, 1, 2)):
                before, step = self.before[axis], self.one(0, 1, 2, 3, 5, 7, 300)
                start, count = self.between(-5, 12) - before * step, self.one(1, 2, 3, 5, 9) + before
                lines = f"{self.number(start)} DO {self.number(count)} STEP {self.number(step)}"
                if self.is_limit():
                    lines = self.one(*LIMITS_OF_LINES)
                found.append(self.spaced(f"GCELLGRID {axis} {lines} ;"))
        return found

    def tracks(self):
        return f"{self.coordinate()} DO {self.coordinate()} STEP {self.coordinate()}"

    # ---- Sections

    def sections(self):
        """Returns the sections that a design has. One that is dense has nearly all."""
        makers = {
            "COMPONENTS": self.component_entries,
            "PINS": self.pin_entries,
            "REGIONS": self.region_entries,
            "GROUPS": self.group_entries,
            "BLOCKAGES": self.blockage_entries,
            "VIAS": self.via_entries,
            "NONDEFAULTRULES": self.rule_entries,
        }
        shares = {"COMPONENTS": 0.92, "PINS": 0.6, "BLOCKAGES": 0.6}
        more = 0.5 if self.is_dense else 0
        found = [self.section(name, make()) for name, make in makers.items() if self.chance(shares.get(name, 0.4) + more)]
        found += [self.section(it, self.net_entries(it)) for it in ("NETS", "SPECIALNETS") if self.chance(0.95 if self.is_dense else 0.75)]
        for it in SECTIONS[9:]:
            entries = [self.one(*KEPT_ENTRIES) for _ in range(self.between(0, 2))]
            found.append(self.often(0.06, self.section(it.decode(), entries)))
        return found

    def section(self, name, entries):
        """Returns a section, whose header may have a wrong number."""
        count = self.between(0, 9) if self.is_odd and self.chance(0.08) else len(entries)
        header = self.spaced(f"{name} {self.number(count)} ;")
        end = self.spaced(f"END {name}")
        return self.one("\n", "\n", "\n ").join([header, *(self.spaced(it) for it in entries), end])

    def entry_of(self, name, clauses, is_shuffled=True):
        """Returns an entry of the clauses that aren't empty."""
        kept = [it for it in clauses if it]
        if is_shuffled:
            self.rng.shuffle(kept)
        return " ".join(["-", name, *kept, ";"])

    def placing(self):
        kind = self.rng.random()
        if kind < 0.1:
            return f"+ UNPLACED {self.one('', '', '( 0 0 ) N', chr(34) + 's' + chr(34))}"
        return f"+ {'PLACED' if kind < 0.7 else 'FIXED' if kind < 0.9 else 'COVER'} {self.point()} {self.orient()}"

    def component_entries(self):
        found = []
        # (a component may have the name that stands for the design in terminals, and then none names it)
        names = self.some(self.components, 4 if self.is_dense else 0, 9 if self.is_dense else 7)
        for name in [*names, *["PIN"] * self.chance(0.2), *["VPIN"] * self.chance(0.1)]:
            macro = self.one(*self.macros) if self.chance(0.97) else "nomac"
            clauses = [
                self.often(0.9, self.placing()),
                self.often(0.08, self.placing()),
                self.often(0.2, f"+ REGION {self.one(*self.regions, 'noreg')}"),
                self.often(0.05, f"+ REGION {self.one(*self.regions)}"),
                self.often(0.3, self.one(*OTHER_OF_COMPONENT)),
            ]
            found.append(self.entry_of(f"{name} {macro} {self.often(0.08, self.one('A B', '*', chr(34) + 'q' + chr(34)))}", clauses))
        return found

    def port(self):
        placed = f"+ {self.one('PLACED', 'FIXED', 'COVER', 'PLACED')} {self.point()} {self.orient()}"
        clauses = [self.often(0.8, placed), self.often(0.1, f"+ PLACED {self.point()} {self.orient()}")]
        for _ in range(self.between(0, 2)):
            spacing = self.one("", "", "", "SPACING 3", "DESIGNRULEWIDTH -2")
            clauses.append(f"+ LAYER {self.layer()} {self.often(0.1, 'MASK 1')} {spacing} {self.corners()}")
        clauses.append(self.often(0.2, f"+ VIA {self.via()} {self.often(0.1, 'MASK 021')} {self.point()}"))
        clauses.append(self.often(0.1, f"+ POLYGON {self.layer()} {self.point()} {self.point()} {self.point()}"))
        self.rng.shuffle(clauses)
        return clauses

    def pin_entries(self):
        found = []
        for name in self.some(self.pins):
            ports = []
            for _ in range(self.one(1, 1, 1, 2, 3)):
                ports += [*["+ PORT"] * (bool(ports) or self.chance(0.3)), *self.port()]
            of = [
                self.often(0.9, f"+ NET {self.one(*self.nets, 'nonet')}"),
                self.often(0.1, f"+ NET {self.one(*self.nets)}"),
                self.often(0.5, self.one(*OTHER_OF_PIN)),
            ]
            self.rng.shuffle(of)
            found.append(self.entry_of(name, [*of, *ports] if self.chance(0.8) else [*ports, *of], False))
        return found

    def region_entries(self):
        found = []
        for name in self.some(self.regions):
            count = 2 * self.between(1, 3) - self.is_limit()
            points = [self.point(), *(self.further_point() for _ in range(count - 1))]
            clauses = [
                self.often(0.85, f"+ TYPE {self.one('FENCE', 'FENCE', 'FENCE', 'GUIDE')}"),
                self.often(0.1, f"+ TYPE {self.one('FENCE', 'GUIDE')}"),
                self.often(0.2, "+ PROPERTY k 1"),
            ]
            found.append(self.entry_of(f"{name} {' '.join(points)}", clauses))
        return found

    def group_entries(self):
        found = []
        for name in self.some(["g1", "g2", "g3"]):
            patterns = [self.one(*PATTERNS) for _ in range(self.between(0, 2))]
            clauses = [
                self.often(0.8, f"+ REGION {self.one(*GROUP_REGIONS)}"),
                self.often(0.2, f"+ REGION {self.one('F', 'H')}"),
                self.often(0.2, self.one("+ SOFT MAXX 1", '+ PROPERTY a "b"')),
            ]
            found.append(self.entry_of(" ".join([name, *patterns]), clauses, False))
        return found

    def blockage_entries(self):
        return [self.blockage() for _ in range(self.between(0, 4))]

    def blockage(self):
        if self.chance(0.08):
            return self.one(*ODD_BLOCKAGES)
        parts = ["-", "PLACEMENT" if self.chance(0.5) else f"LAYER {self.layer()}"]
        parts += [f"+ {self.one(*BLOCKAGE_WORDS)}" for _ in range(self.one(0, 0, 0, 1, 1, 2))]
        for _ in range(self.between(1, 3)):
            if self.chance(0.85):
                parts.append(f"RECT {self.corners()}")
            else:
                parts.append(f"POLYGON {self.corners()} {self.further_point()} {self.often(0.5, self.further_point())}")
        return " ".join([*parts, ";"])

    def via_entries(self):
        found = []
        for name in self.some(["A", "B", "E", "N", "dv"], 0, 3):
            clauses = self.via_shapes() if self.chance(0.7) else []
            clauses += self.generated_via() if self.chance(0.4) else []
            found.append(self.entry_of(name, clauses))
        return found

    def via_shapes(self):
        clauses = []
        for layer in self.one(*LAYERS_OF_VIA).split():
            clauses += [f"+ RECT {layer} {self.often(0.1, '+ MASK 1')} {self.corners()}" for _ in range(self.between(1, 2))]
        points = self.often(0.8, f"{self.corners()} {self.further_point()}")
        clauses.append(self.often(0.15, f"+ POLYGON {self.layer()} {self.often(0.3, '+ MASK 2')} {points}"))
        return clauses

    def generated_via(self):
        """Returns the clauses of a generated via, of which one may be missing or given twice."""
        clauses = [
            "+ VIARULE vr", f"+ CUTSIZE {self.small()} {self.small()}", f"+ LAYERS {self.one('m1 v1 m2', 'm2 v2 m3', 'm1 v1 zz')}",
            f"+ CUTSPACING {self.small()} {self.small()}", f"+ ENCLOSURE {self.smalls(4, -3, 3)}",
        ]
        return [it for it in clauses if self.chance(0.94)] + [
            self.often(0.6, f"+ ROWCOL {self.between(1, 3)} {self.between(1, 3)}"),
            self.often(0.3, f"+ ORIGIN {self.coordinates(2)}"),
            self.often(0.3, f"+ OFFSET {self.coordinates(4)}"),
            self.often(0.2, "+ PATTERN 2_FF"),
            self.often(0.1, "+ CUTSIZE 1 1"),
        ]

    def rule_entries(self):
        found = []
        for name in self.some(["r1", "r3"]):
            clauses = []
            for _ in range(self.between(0, 3)):
                clauses.append(f"+ LAYER {self.layer()} WIDTH {self.small(0, 9)} {self.one('', 'SPACING 1 WIREEXT 2')}")
            clauses.append(self.often(0.3, self.one(*OTHER_OF_RULE)))
            found.append(self.entry_of(name, clauses, False))
        return found
