"""Random lines of scripts."""
from second.random.def_texts import DefTexts
from second.random.lef_texts import LefTexts

ODD_WIRING = [
    "+ USE POWER", "+ ROUTED m1 ( 0 0", "+ ROUTED m1 ( 0 0 ) ;", "+ ROUTED m1 ( 0 0 ) # c", '+ ROUTED m1 ( 0 0 ) "s"', "ROUTED m1 ( 0 0 )",
    "+ ROUTED m1 ( x 0 )", "+ ROUTED", "x", "+ ROUTED m1 ( 0 0 ) + X", "+ SUBNET a", "+ ROUTED m1 ( 0 0 ) + USE SIGNAL", "+",
    "+ ROUTED m1 1 ( 0 0 ) \x01", "+ ROUTED m1#x ( 0 0 )", "+ MASK +", "+ SHAPE ;x",
]
ODD_LINES = [
    "undo", "foo", "check x", "place u1 0 0", "", "  ", "# c", " # c", "text 0", "text x 0 y", "text 0 0", "text 5 4 x", "text 0 0 \\q",
    "text 0 99999999 x", "text -1 0", "length a b", "cell x 0 zz", "cell x 0 m1", "cell 0 99 m1", "pcell 0 2147483648", "check\r",
    "check\r\r", "\r\r", "; check", ";", "text 0 0 \\s", "text 0 0 \\N", "cell -1 x m1", "cell x -1 m1", "pcell -1 x", "pcell x -1",
]
SHOWN_SECTIONS = "COMPONENTS NETS SPECIALNETS PINS BLOCKAGES VIAS REGIONS GROUPS SLOTS ROW".split()
NEW_COMPONENTS = ["new1", "new2", "PIN", "VPIN", "-", ";", "#x", '"q', "a\x01", "\xe9", "u~"]
TERMINAL_PINS = ["A", "Y", "VDD", "z", "p1", "p2", "nopin"]


def escaped(text):
    """Returns bytes as a text line writes them."""
    return text.replace(b"\\", b"\\\\").replace(b"\n", b"\\n").replace(b"\r", b"\\r").replace(b"\t", b"\\t")


def text_line(splice):
    """Returns the text line that makes a splice."""
    return b"text %d %d %s" % (splice.begin, splice.end, escaped(splice.put))


class ScriptLines(DefTexts, LefTexts):
    """Makes lines of scripts: edits of each kind, questions, and lines that are bad."""

    def words(self, *words):
        """Returns a line of these words, with any blanks between them."""
        gap = self.one(" ", " ", " ", "  ", "\t") if self.chance(0.1) else " "
        return gap.join(str(it) for it in words)

    def any_line(self):
        kinds = {
            self.place_line: 20,
            self.unplace_line: 4,
            self.add_line: 4,
            self.remove_line: 5,
            self.remaster_line: 4,
            self.connect_line: 7,
            self.disconnect_line: 6,
            self.route_line: 10,
            self.unroute_line: 3,
            self.block_line: 7,
            self.show_line: 5,
            self.length_line: 5,
            self.box_line: 5,
            self.cell_line: 8,
            self.pcell_line: 5,
            self.odd_line: 2,
        }
        return self.weighted(kinds)()

    def odd_line(self):
        return self.one(*ODD_LINES)

    def place_line(self):
        return self.words("place", self.component(), self.coordinate(), self.coordinate(), self.orient())

    def unplace_line(self):
        return self.words("unplace", self.component())

    def add_line(self):
        return self.words("add", self.one(*self.components, *NEW_COMPONENTS), self.one("I", "J", "blk", "nomac"))

    def remove_line(self):
        return self.words("remove", self.one("PIN", "VPIN") if self.chance(0.2) else self.component())

    def remaster_line(self):
        return self.words("remaster", self.component(), self.one("I", "J", "k\xe9", "blk", "MZ", "nomac"))

    def terminal_of_line(self):
        return self.one(self.component(), self.component(), "PIN", "*", "VPIN"), self.one(*TERMINAL_PINS)

    def connect_line(self):
        return self.words("connect", self.net_name(), *self.terminal_of_line())

    def disconnect_line(self):
        return self.words("disconnect", self.net_name(), *self.terminal_of_line())

    def route_line(self):
        is_special = self.chance(0.5)
        wiring = " ".join(" ".join(self.wiring(is_special).split()) for _ in range(self.one(1, 1, 1, 2, 3)))
        return self.words("route", self.net_name(), self.one(*ODD_WIRING) if self.chance(0.25) else wiring) + self.one("", "", " ", "\t", "\r\r")

    def unroute_line(self):
        return self.words("unroute", self.net_name())

    def block_line(self):
        return self.words("block", *[self.layer()] * self.chance(0.5), *(self.coordinate() for _ in range(4)))

    def show_line(self):
        name = self.one(*self.components, *self.nets, *self.pins, "F", "g1", "A")
        return self.words("show", self.one(*SHOWN_SECTIONS), name)

    def length_line(self):
        return self.words("length", *[self.net_name()] * self.chance(0.6))

    def box_line(self):
        return self.words("box", self.net_name())

    def place(self, axis, least, most):
        """Returns the number of a column or a row: mostly between these, from those on that lie before."""
        return self.between(least, most) + (0 if self.chance(0.1) else self.before[axis])

    def cell_line(self):
        return self.words("cell", self.number(self.place("X", -1, 6)), self.number(self.place("Y", -1, 6)), self.layer())

    def pcell_line(self):
        return self.words("pcell", self.number(self.place("X", -1, 6)), self.number(self.place("Y", -1, 6)))

    def questions(self):
        """Returns lines that ask a design for nearly all that it answers."""
        found = ["check", "length"]
        for name in self.nets:
            found += [f"length {name}"] * self.chance(0.5) + [f"box {name}"] * self.chance(0.6)
        for _ in range(self.between(0, 6)):
            found.append(f"cell {self.place('X', 0, 4)} {self.place('Y', 0, 4)} {self.one('m1', 'm1', 'm2', 'v1')}")
        for _ in range(self.between(0, 3)):
            found.append(f"pcell {self.place('X', 0, 4)} {self.place('Y', 0, 4)}")
        return found
