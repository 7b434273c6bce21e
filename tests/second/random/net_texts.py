"""Random entries of NETS and SPECIALNETS, and their wiring."""
from second.random.words import USES, Words

FORMLESS = [
    "+ ROUTED", "+ ROUTED m1 x", "+ USE", "+ NONDEFAULTRULE", "+ FIXED m1", "+ ROUTED m1 ( 0 0 ) A DO 1 BY 1",
    "+ SHIELD n1 m1 ( 0 0 )", '+ ROUTED m1 10 ( 0 0 ) ( 5 5 "s" )', "+ RECT m1", "+ VIA A", "+ POLYGON zz ( 0 0 ) ( 5 5 )",
    "+ COVER m1", "+ NOSHIELD", "+ SHIELD", "+ SHAPE", "+ MASK 1 2", "+ FIXED m1 1", "+ USE POWER x",
]
OTHER_CLAUSES = [
    "+ WEIGHT 2", "+ SOURCE DIST", "+ FIXEDBUMP", "+ SHIELDNET VDD", '+ PROPERTY k "v ;"', "+ VOLTAGE 1", "+ VPIN v ( 0 0 )",
    "+ ESTCAP 1", "+ STYLE 1", "+ PATTERN STEINER",
]
SUBNETS = ["+ SUBNET s ( u1 A ) + ROUTED m1 ( 0 0 )", "+ SUBNET", '+ SUBNET "x" + + (']
MUSTJOINS = ["- MUSTJOIN ;", "- MUSTJOIN ( u1 A ) ;", '- MUSTJOIN "x" + ;']


class NetTexts(Words):
    """Makes entries of nets: terminals, wires with their paths, and other clauses."""

    def terminal(self):
        kind = self.rng.random()
        if kind < 0.65:
            named = f"{self.component()} {self.one('A', 'Y', 'VDD', 'z', 'A', 'Y', 'nopin', 'PIN')}"
        elif kind < 0.8:
            named = f"PIN {self.one(*self.pins, 'nopin')}"
        elif kind < 0.93:
            named = f"* {self.one('VDD', 'A', 'z')}"
        else:
            named = "VPIN q"
        return f"( {named} {self.often(0.1, '+ SYNTHESIZED')} )"

    # ---- Paths

    def extension(self):
        return self.often(0.15, self.small(0, 4))

    def within(self):
        """Returns a coordinate of a path."""
        return self.between(*self.reach)

    def path(self, is_special):
        """Returns a path. Most of its segments are level or upright."""
        x, y = self.within(), self.within()
        parts = [self.often(0.06, f"MASK {self.one('1', '2')}"), f"( {self.number(x)} {self.number(y)} {self.extension()} )"]
        for _ in range(self.between(0, 5)):
            kind = self.rng.random()
            if kind < 0.55:
                text, x, y = self.path_point(x, y)
                parts.append(text)
            elif kind < 0.8:
                parts.append(self.path_via(is_special))
            elif kind < 0.86:
                parts.append("RECT ( %s )" % " ".join(self.number(self.between(-3, 4)) for _ in range(4)))
            elif kind < 0.93:
                x, y = self.within(), self.within()
                parts.append(f"VIRTUAL ( {self.one('*', self.number(x))} {self.one('*', self.number(y))} )")
            else:
                parts.append(f"MASK {self.one('1', 'x', '021')}")
        return " ".join(parts)

    def path_point(self, x, y):
        """Returns a point after one at these coordinates, and its own."""
        to_x = self.one(2147483647, -2147483647) if self.chance(self.far) else self.within()
        to_y = self.within()
        across, upward = self.number(to_x), self.number(to_y)
        points = {
            (f"* {upward}", x, to_y): 3,
            (f"{across} *", to_x, y): 3,
            ("* *", x, y): 1,
            (f"{across} {self.number(y)}", to_x, y): 1,
            (f"{self.number(x)} {upward}", x, to_y): 1,
            (f"{across} {upward}", to_x, to_y): 1,
        }
        text, x, y = self.weighted(points)
        return f"( {text} {self.extension()} )", x, y

    def path_via(self, is_special):
        count = f"DO {self.number(self.between(1, 3))} BY {self.number(self.between(1, 3))}"
        if self.chance(0.03):
            count = self.one("DO 17 BY 1", "DO 1 BY 20", "DO 5 BY 4")
        if self.is_limit():
            count = self.one("DO 1001 BY 1000", "DO 1 BY 1000001", "DO 0 BY 1")
        array = f"{count} STEP {self.coordinates(2)}"
        return f"{self.via()} {self.may_orient()} {array if is_special and self.chance(0.25) else ''}"

    # ---- Wiring

    def wire(self):
        taper = self.often(0.15, self.one("TAPER", "TAPERRULE r1", f"TAPERRULE {self.one('r2', 'r3', 'norule')}"))
        return f"{self.layer()} {taper} {self.often(0.06, 'STYLE 1')} {self.path(False)}"

    def special_wire(self):
        words = [self.one("+ SHAPE STRIPE", "+ STYLE 2", "+ MASK 1", "+ SHAPE FILLWIRE", "+ SHAPE DRCFILL") for _ in range(self.one(0, 0, 0, 1, 2))]
        return f"{self.layer()} {self.small(0, 7)} {' '.join(words)} {self.path(True)}"

    def wires(self, wire):
        return " NEW ".join(wire() for _ in range(self.one(1, 1, 1, 2, 3)))

    def wiring(self, is_special):
        """Returns a clause of wiring of either section."""
        if not is_special:
            return f"+ {self.one('ROUTED', 'ROUTED', 'ROUTED', 'FIXED', 'COVER', 'NOSHIELD')} {self.wires(self.wire)}"
        kind = self.rng.random()
        if kind < 0.6:
            word = self.one("ROUTED", "ROUTED", "FIXED", "COVER", f"SHIELD {self.one(*self.nets, 'nonet')}")
            return f"+ {word} {self.often(0.94, self.wires(self.special_wire))}"
        if kind < 0.7:
            return f"+ RECT {self.layer()} {self.corners()}"
        if kind < 0.8:
            points = [self.point(), *(self.further_point() for _ in range(self.between(0, 2)))]
            return f"+ VIA {self.via()} {self.may_orient()} {' '.join(points)}"
        if kind < 0.86:
            return f"+ POLYGON {self.layer()} {self.corners()} {self.further_point()}"
        return self.one("+ SHAPE 1", "+ MASK 1", "+ SHAPE FILLWIRE")

    def net(self, name, is_special):
        """Returns an entry of a net, from its - to its ;"""
        terminals = [self.terminal() for _ in range(self.between(0, 3))]
        clauses = [self.wiring(is_special) for _ in range(self.one(0, 1, 1, 1, 2))]
        clauses += [
            self.often(0.06, self.one(*FORMLESS)),
            self.often(0.35, f"+ USE {self.one(*USES)}"),
            self.often(0.07, f"+ USE {self.one(*USES)}"),
            self.often(0.15, self.one(*OTHER_CLAUSES)),
        ]
        if not is_special:
            clauses.append(self.often(0.2, f"+ NONDEFAULTRULE {self.one('r1', 'r2', 'r3', 'norule')}"))
            clauses.append(self.often(0.04, "+ NONDEFAULTRULE r1"))
        if self.chance(0.4):
            self.rng.shuffle(clauses)
        clauses.append(self.often(0.04, self.one(*SUBNETS)))
        return " ".join(["-", name, *terminals, *clauses, ";"])

    def net_entries(self, section):
        """Returns entries of a section of nets. The nets of both sections are of the same names."""
        entries = [self.net(it, section == "SPECIALNETS") for it in self.some(self.nets, 0, 4)]
        if self.chance(0.06):
            must_join = self.one(*MUSTJOINS) if section == "NETS" else MUSTJOINS[0]
            entries.insert(self.between(0, len(entries)), must_join)
        return entries
