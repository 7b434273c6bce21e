"""Random designs of some 200 statements over one library, and random lines of a script about them."""
import random
import re

ORIENTS = ["N", "S", "E", "W", "FN", "FS", "FE", "FW"]
LAYERS = ["met1", "via1", "met2", "via2", "met3"]
WIRED = ["met1", "met2", "met3"]
VIAS = ["M1M2", "M2M3", "D1", "G1"]
MACROS = {"INV": "A Y VDD", "BUF": "A Z VDD", "TALL": "A B Y VDD", "PAD": "P", "BARE": "", "SHIELDING": "A", "RING": "", "COVERS": ""}
SITES = ["core", "tall"]
RULES = ["WIDE", "NARROW"]
USES = ["SIGNAL", "POWER", "GROUND", "TIEOFF", "RESET", "SCAN", "ANALOG", "POWERS"]
# clauses of wiring without their form
FORMLESS = ["ROUTED", "FIXED met1", "COVER", "NOSHIELD met1", "SHIELD", "RECT met1", "VIA M1M2", "SHAPE", "MASK"]
BLOCKING = ["", "", "+ EXCEPTPGNET ", "+ SOFT ", "+ PUSHDOWN ", "+ PUSHDOWN SOFT ", "+ MASK EXCEPTPGNET ", "+ SLOTSX "]

LEF = b"""VERSION 5.8 ;
UNITS
  DATABASE MICRONS 1000 ;
END UNITS
LAYER poly
  TYPE MASTERSLICE ;
END poly
LAYER met1
  TYPE ROUTING ;
  WIDTH 0.14 ;
END met1
LAYER via1
  TYPE CUT ;
END via1
LAYER met2
  TYPE ROUTING ;
  WIDTH 0.14 ;
END met2
LAYER via2
  TYPE CUT ;
END via2
LAYER met3
  TYPE ROUTING ;
  WIDTH 0.3 ;
END met3
VIA M1M2 DEFAULT
  LAYER met1 ;
    RECT -0.1 -0.1 0.1 0.1 ;
  LAYER via1 ;
    RECT -0.05 -0.05 0.05 0.05 ;
  LAYER met2 ;
    RECT -0.1 -0.1 0.1 0.1 ;
END M1M2
VIA M2M3 DEFAULT
  LAYER met2 ;
    RECT -0.1 -0.1 0.1 0.1 ;
  LAYER via2 ;
    RECT -0.05 -0.05 0.05 0.05 ;
  LAYER met3 ;
    RECT -0.15 -0.1 0.15 0.1 ;
END M2M3
NONDEFAULTRULE WIDE
  LAYER met1
    WIDTH 0.28 ;
  END met1
  LAYER met2
    WIDTH 0.28 ;
  END met2
END WIDE
SITE core
  CLASS CORE ;
  SIZE 0.46 BY 2.72 ;
END core
SITE tall
  CLASS CORE ;
  SIZE 0.46 BY 5.44 ;
END tall
MACRO INV
  CLASS CORE ;
  SIZE 0.92 BY 2.72 ;
  SITE core ;
  PIN A
    PORT
      LAYER met1 ;
        RECT 0.1 1 0.3 1.2 ;
    END
  END A
  PIN Y
    PORT
      LAYER met1 ;
        RECT 0.6 1 0.8 1.2 ;
    END
  END Y
  PIN VDD
    PORT
      LAYER met1 ;
        RECT 0 2.48 0.92 2.72 ;
    END
  END VDD
END INV
MACRO BUF
  CLASS CORE ;
  SIZE 1.38 BY 2.72 ;
  SITE core ;
  PIN A
    PORT
      LAYER met1 ;
        RECT 0.1 1 0.3 1.2 ;
    END
  END A
  PIN Z
    PORT
      LAYER met1 ;
        RECT 1.06 1 1.26 1.2 ;
      LAYER met2 ;
        RECT 1.06 0.4 1.26 1.2 ;
    END
  END Z
  PIN VDD
    PORT
      LAYER met1 ;
        RECT 0 2.48 1.38 2.72 ;
    END
  END VDD
END BUF
MACRO TALL
  CLASS ENDCAP PRE ;
  ORIGIN 0.1 0 ;
  SIZE 0.92 BY 5.44 ;
  SITE tall ;
  SITE core ;
  PIN A
    PORT
      LAYER met1 ;
        RECT 0.1 1 0.3 1.2 ;
    END
    PORT
      LAYER met2 ;
        RECT 0.5 3 0.7 3.2 ;
    END
  END A
  PIN B
    PORT
      LAYER poly ;
        RECT 0.1 2 0.3 2.2 ;
    END
  END B
  PIN Y
    PORT
      LAYER met3 ;
        RECT 0.1 4 0.5 4.2 ;
    END
  END Y
  PIN VDD
    PORT
      LAYER met1 ;
        RECT 0 2.48 0.92 2.96 ;
    END
  END VDD
END TALL
MACRO PAD
  CLASS PAD ;
  SIZE 3 BY 3 ;
  PIN P
    PORT
      LAYER met3 ;
        RECT 1 1 2 2 ;
        POLYGON 0 0 1 0 1 1 ;
    END
  END P
END PAD
MACRO BARE
  CLASS CORE ;
  SIZE 0.46 BY 2.72 ;
  SITE core ;
END BARE
MACRO RING
  CLASS RING ;
  SIZE 1 BY 1 ;
  SITE core ;
END RING
MACRO COVERS
  CLASS COVERS ;
  SIZE 1 BY 1 ;
END COVERS
MACRO SHIELDING
  CLASS COVER ;
  SIZE 4 BY 4 ;
  PIN A
    PORT
      LAYER met2 ;
        RECT 0 0 4 0.2 ;
    END
  END A
END SHIELDING
END LIBRARY
"""

# words and blanks that a text edit puts where they may do harm
ODD = [" ", "\n", "#", '"', ";", " ;", " ; ", "- ", " + ", "( ", " )", "END ", "END DESIGN", "NEW ", "*", "0", "-1", "x", "BEGINEXT ", " ENDEXT", "UNITS DISTANCE MICRONS 2000 ;\n", "# a comment\n", '"a string" ']


class Designs:
    """What is random about one design: its names, and where things stand."""

    def __init__(self, seed):
        self.rng = random.Random(seed)
        self.components = [*(f"u{k}" for k in range(self.rng.randint(2, 60))), "u\x80", "U1"]
        self.nets = [*(f"n{k}" for k in range(self.rng.randint(1, 30))), "n\xff", "N1"]
        self.special = [f"s{k}" for k in range(self.rng.randint(0, 4))]
        self.pins = [f"p{k}" for k in range(self.rng.randint(0, 8))]
        self.regions = [f"r{k}" for k in range(self.rng.randint(0, 3))]
        # how many columns of the grid lie left of those that are asked for
        self.before = self.rng.choice([0, 0, 16, 100, 1000])

    def one(self, names, other="nothing"):
        """Returns one of some names, and now and then another one."""
        return self.rng.choice(names) if names and self.rng.random() < 0.93 else other

    def chance(self, part):
        return self.rng.random() < part

    def across(self):
        return self.rng.choice([46, 460, 920]) * self.rng.randint(-1, 16)

    def upward(self):
        return self.rng.choice([100, 2720, 2720]) * self.rng.randint(-1, 4)

    def point(self):
        return f"( {self.across()} {self.upward()} )"

    def section(self, word, entries):
        """Returns a section with these entries, whose header mostly says how many they are."""
        said = len(entries) + (0 if self.chance(0.9) else self.rng.randint(0, 2))
        return [f"{word} {said} ;", *(f"- {it} ;" for it in entries), f"END {word}"]

    def component(self, name):
        cell = self.one([*MACROS])
        placing = self.rng.choice(["PLACED"] * 6 + ["FIXED", "COVER", "UNPLACED", ""])
        clauses = [f"+ {placing} {self.point()} {self.rng.choice(ORIENTS)}" if placing not in ("UNPLACED", "") else placing and "+ UNPLACED"]
        if self.chance(0.1):
            clauses.append(f"+ REGION {self.one(self.regions)}")
        if self.chance(0.1):
            clauses.append(f"+ {self.rng.choice(['SOURCE DIST', 'WEIGHT 3', 'PROPERTY k 1'])}")
        self.rng.shuffle(clauses)
        return " ".join([name, cell, *filter(None, clauses)])

    def terminal(self):
        kind = self.rng.random()
        if kind < 0.08:
            return f"( PIN {self.one(self.pins)} )"
        if kind < 0.1:
            return "( VPIN v )"
        pins = " ".join(MACROS.values()).split()
        return f"( {self.one(self.components)} {self.one(pins)} )"

    def path(self, is_special):
        parts = [self.point()]
        for _ in range(self.rng.randint(0, 4)):
            kind = self.rng.random()
            if kind < 0.6:
                parts.append(self.rng.choice([f"( {self.across()} * )", f"( * {self.upward()} )", self.point()]))
            elif kind < 0.9:
                columns = 18 if self.chance(0.05) else self.rng.randint(1, 3)
                array = f" DO {columns} BY {self.rng.randint(1, 2)} STEP 300 400" if is_special and self.chance(0.3) else ""
                parts.append(self.one(VIAS) + (f" {self.rng.choice(ORIENTS)}" if self.chance(0.2) else "") + array)
            else:
                parts.append(self.rng.choice(["RECT ( -50 -50 50 60 )", "VIRTUAL ( 920 2720 )", "MASK 1", "( * * 0 )"]))
        return " ".join(parts)

    def wiring(self, is_special=False):
        """Returns a wiring clause, or what is nearly one."""
        status = self.rng.choice(["ROUTED"] * 6 + ["FIXED", "COVER", "NOSHIELD" if not is_special else f"SHIELD {self.one(self.nets)}"])
        wires = []
        for _ in range(self.rng.randint(1, 3)):
            if is_special:
                words = self.rng.choice([" 0", " 100", " 280"]) + self.rng.choice(["", "", "", " + SHAPE FILLWIRE", " + SHAPE DRCFILL"])
            else:
                words = self.rng.choice(["", "", "", " TAPER", f" TAPERRULE {self.one(RULES)}", " STYLE 1"])
            wires.append(f"{self.one(WIRED)}{words} {self.path(is_special)}")
        return f"+ {status} " + " NEW ".join(wires)

    def net(self, name, is_special=False):
        star = [f"( * {self.rng.choice(['VDD', 'A', 'P'])} )"] if self.chance(0.5 if is_special else 0.02) else []
        parts = [name, *star, *(self.terminal() for _ in range(self.rng.randint(0, 4)))]
        parts += [f"+ USE {self.rng.choice(USES)}"] * self.chance(0.2)
        parts += [f"+ USE {self.rng.choice(USES)}"] * self.chance(0.1)
        parts += [f"+ {self.rng.choice(FORMLESS)}"] * self.chance(0.03)
        if not is_special and self.chance(0.1):
            parts.append(f"+ NONDEFAULTRULE {self.one(RULES)}")
        if self.chance(0.7):
            parts.append(self.wiring(is_special))
        if is_special and self.chance(0.3):
            parts.append(self.rng.choice([f"+ RECT {self.one(LAYERS)} {self.point()} {self.point()}", f"+ VIA {self.one(VIAS)} {self.point()}"]))
        return " ".join(parts)

    def pin(self, name):
        parts = [name, f"+ NET {self.one(self.nets)}", *["+ USE POWER"] * self.chance(0.2)]
        for _ in range(self.rng.randint(0, 2)):
            parts += ["+ PORT"] * self.chance(0.3)
            parts.append(f"+ LAYER {self.one(LAYERS)} ( -100 0 ) ( 100 200 )")
            parts += [f"+ {self.rng.choice(['PLACED', 'FIXED'])} {self.point()} {self.rng.choice(ORIENTS)}"] * self.chance(0.8)
        return " ".join(parts)

    def blockage(self):
        kind = f"LAYER {self.one(WIRED)}" if self.chance(0.5) else "PLACEMENT"
        return f"{kind} {self.rng.choice(BLOCKING)}" + " ".join(f"RECT {self.point()} {self.point()}" for _ in range(self.rng.randint(1, 2)))

    def blockages(self):
        return [self.blockage() for _ in range(self.rng.randint(0, 4))]

    def special_names(self):
        """Returns the names of SPECIALNETS, each once: now and then that of a net in the place of its own."""
        names = {it: self.one(self.nets, it) if self.chance(0.1) else it for it in self.special}
        return [name if list(names.values()).count(name) == 1 else it for it, name in names.items()]

    def text(self):
        """Returns the text of a design."""
        vias = ["D1 + RECT met1 ( -100 -100 ) ( 100 100 ) + RECT via1 ( -50 -50 ) ( 50 50 ) + RECT met2 ( -100 -100 ) ( 100 100 )",
                "G1 + VIARULE R + CUTSIZE 100 100 + LAYERS met2 via2 met3 + CUTSPACING 100 100 + ENCLOSURE 20 20 30 30 + ROWCOL 1 2"]
        groups = [f"g{k} {self.rng.choice(['u1* u2', '*', 'u3', ''])} + REGION {self.one(self.regions)}" for k in range(self.rng.randint(0, 2))]
        regions = [f"{it} {self.point()} {self.point()}" + self.rng.choice([" + TYPE FENCE", " + TYPE FENCE", " + TYPE GUIDE", ""]) for it in self.regions]
        sections = [
            self.section("VIAS", vias[:self.rng.randint(0, 2)]),
            self.section("NONDEFAULTRULES", ["NARROW + LAYER met1 WIDTH 100 + LAYER met2 WIDTH 60"]),
            self.section("REGIONS", regions),
            self.section("COMPONENTS", [self.component(it) for it in self.components]),
            self.section("PINS", [self.pin(it) for it in self.pins]),
            self.section("BLOCKAGES", self.blockages()),
            self.section("GROUPS", groups),
            self.section("SPECIALNETS", [self.net(it, True) for it in self.special_names()]),
            self.section("NETS", [self.net(it) for it in self.nets]),
        ]
        rows = [f"ROW row{k} {self.one(SITES)} {self.rng.choice([0, 46, 460])} {2720 * k} {self.rng.choice(['N', 'FS'])} DO {self.rng.randint(1, 30)} BY 1 STEP 460 0 ;" for k in range(self.rng.randint(0, 4))]
        grid = [f"GCELLGRID X {-2000 * self.before} DO {6 + self.before} STEP 2000 ;", "GCELLGRID Y 0 DO 4 STEP 2500 ;"]
        floor = [*rows, *grid, "TRACKS X 230 DO 20 STEP 460 LAYER met2 ;"]
        floor += ["DIEAREA ( 0 0 ) ( 14720 10880 ) ;"] * self.chance(0.8)
        sections = [it for it in sections if self.chance(0.95)]
        if self.chance(0.2):
            self.rng.shuffle(sections)
        lines = ["VERSION 5.8 ;", "# a random design", f"UNITS DISTANCE MICRONS {self.rng.choice([1000, 1000, 2000, 100])} ;", *floor]
        for it in sections:
            lines += it
        return "\n".join([*lines, "END DESIGN", ""]).encode("latin-1")

    def edit_of_design(self):
        """Returns the line of an edit of the design."""
        component, pins = self.one(self.components), " ".join(MACROS.values()).split()
        net = self.one([*self.nets, *self.special])
        kinds = {
            "place": (6, lambda: f"place {component} {self.across()} {self.upward()} {self.rng.choice(ORIENTS)}"),
            "unplace": (1, lambda: f"unplace {component}"),
            "remaster": (2, lambda: f"remaster {component} {self.one([*MACROS])}"),
            "add": (2, lambda: f"add {self.new_component()} {self.one([*MACROS])}"),
            "remove": (2, lambda: f"remove {component}"),
            "connect": (4, lambda: f"connect {net} {component} {self.one(pins)}" if self.chance(0.9) else f"connect {net} PIN {self.one(self.pins)}"),
            "disconnect": (2, lambda: f"disconnect {net} {component} {self.one(pins)}"),
            "route": (4, lambda: f"route {net} {self.wiring(net in self.special)}"),
            "unroute": (1, lambda: f"unroute {net}"),
            "block": (1, lambda: f"block {self.one(WIRED) + ' ' if self.chance(0.5) else ''}{self.across()} {self.upward()} {self.across()} {self.upward()}"),
        }
        words = [it for it, (weight, _) in kinds.items() for _ in range(weight)]
        return kinds[self.rng.choice(words)][1]()

    def edit_of_pin(self, text, line):
        """Returns a word of the entry of a pin of the design, and what is put there: mostly another place, net, layer or orientation."""
        words = [(line[0] + it.start(), line[0] + it.end()) for it in re.finditer(rb"\S+", text[slice(*line)])]
        a, b = self.rng.choice(words[2:])
        word = text[a:b].decode("latin-1")
        if word.lstrip("-").isdigit():
            return a, b, b"%d" % self.across()
        for others in (self.nets, LAYERS, ORIENTS):
            if word in others:
                return a, b, self.one(others).encode("latin-1")
        return a, b, text[slice(*self.rng.choice(words))]

    def new_component(self):
        name = f"x{self.rng.randint(0, 40)}"
        if name not in self.components:
            self.components.append(name)
        return name

    def edit_of_text(self, text):
        """Returns a range of bytes of the text, and what is put there: whole statements, words, digits, or anything at all."""
        kind = self.rng.random()
        lines = [it.span() for it in re.finditer(rb"[^\n]*\n", text)]
        words = [it.span() for it in re.finditer(rb"\S+", text)]
        pins = [it.span() for it in re.finditer(rb"- p[0-9]+ [^\n]*\n", text)]
        if kind < 0.1 and pins:
            return self.edit_of_pin(text, self.rng.choice(pins))
        if kind < 0.25 and lines:
            a, b = self.rng.choice(lines)
            return a, b, self.rng.choice([b"", text[a:b] * 2, b"# gone\n"])
        if kind < 0.4 and lines:
            a, _ = self.rng.choice(lines)
            entry = self.rng.choice([self.component(self.new_component()), self.net(self.one(self.nets)), self.blockage(), self.pin(self.one(self.pins, "p9"))])
            return a, a, f"- {entry} ;\n".encode("latin-1")
        if kind < 0.75 and words:
            a, b = self.rng.choice(words)
            others = [text[c:d] for c, d in self.rng.sample(words, min(4, len(words)))]
            return a, b, self.rng.choice([*others, str(self.across()).encode()])
        a = self.rng.randint(0, len(text))
        b = min(len(text), a + self.rng.choice([0, 0, 1, 2, 5, 40]))
        return a, b, self.rng.choice(ODD).encode()

    def questions(self):
        """Returns the lines that are asked after each edit."""
        lines = ["check", "length"]
        for net in [*self.nets[:4], *self.special[:2], "n29", "n\xff"]:
            lines += [f"length {net}", f"box {net}"]
        for component in [*self.components[:3], "x1", "u\x80"]:
            lines.append(f"show COMPONENTS {component}")
        lines += [f"cell {self.before + i} {j} {layer}" for i in (0, 1, 4) for j in (0, 1) for layer in ("met1", "met2")]
        return [*lines, *(f"pcell {self.before + i} {j}" for i, j in ((0, 0), (1, 1), (5, 0)))]


def escaped(put):
    """Returns bytes as a text line writes them."""
    return put.replace(b"\\", b"\\\\").replace(b"\n", b"\\n").replace(b"\r", b"\\r").replace(b"\t", b"\\t")
