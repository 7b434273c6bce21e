"""Random numbers, names and white space, of which random texts are made."""
import random
import re

ORIENTS = "N S E W FN FS FE FW".split()
TOKEN = re.compile(r'"(?:\\.|[^"\\])*"|\S+')
GAPS = ["  ", "\n", "\t", "\r\n", " # c ; + ( \n", "\n#\n", ' #"\n', "\r", " \n "]
INVALID_NUMBERS = ["2147483648", "-2147483648", "1.0", "1e3", "x", "*", "--1", "+", "(", '"1"', "0x1", "99999999999999999999"]
INVALID_DISTANCES = ["1e3", "x", "1000000.001", "0.1234567890123", "-1", "-", "(", "."]
ODD_DISTANCES = ["1000000", "-1000000", "1000000.0", "999999.999999999999", "0.000000000001", "-0", "-0.0", "+.5", "5.", "00.5", "+0"]
ODD_LENGTHS = ["1000000", "0", "-0", "+.5", "5.", "-0.000", "0.0005", "0.00049999"]
USES = ["SIGNAL", "CLOCK", "ANALOG", "TIEOFF", "RESET", "SCAN", "POWERS", "POWER", "POWER", "POWER", "GROUND", "GROUND"]
FAR = [2147483647, -2147483647, 2147483646, 1000000000, -2000000000]


class Words:
    """Makes what texts consist of, by a seed. Texts are written with one blank between tokens, and `spaced` puts others there."""

    layers = [*["m1"] * 9, *["m2"] * 4, *["v1"] * 2, "v2", "m3", "ov", "nt"]
    odd_layers = ["zz", "MASK", "RECT", "PIN"]
    vias = ["A", "B", "C", "D", "N", "S", "TAPER", "x1", "PLACED"]
    odd_vias = ["nov", "STYLE", "SHAPE"]
    components = ["u1", "u2", "u3", "a/b", "u10", "PIN1", "x\\[1\\]", "c*", "u9", "U1", "u\x80"]
    odd_components = ["nocomp", "PIN", "VPIN"]
    macros = ["I", "J", "k\xe9", "blk", "PAD", "MZ"]
    macro_pins = ["A", "Y", "VDD", "PIN", "z"]
    nets = ["n1", "n2", "n3", "VDD", "p1", "w;x", "ROUTED", "N1", "n\xff"]
    pins = ["p1", "p2", "A", "io[3]"]
    regions = ["F", "Gd", "H"]
    # the least and the greatest coordinate
    reach = (-4, 24)
    # whether numbers have signs and zeros before them, and tokens more than a blank between them
    is_odd = True

    # how often a number is made invalid
    invalid = 0.0

    def __init__(self, seed):
        self.rng = random.Random(seed)
        self.far = 0.03 if self.chance(0.3) else 0.0
        self.is_dense = self.chance(0.7)
        self.units = self.one(1, 2, 10, 10, 10, 100, 1000, 7, 3, 2000, 100000)
        # how many columns and rows of the grid lie before those that are asked for
        self.before = {axis: self.one(0, 0, 0, 0, 0, 0, 16, 100, 1000) for axis in "XY"}

    def one(self, *options):
        return self.rng.choice(options)

    def chance(self, share):
        return self.rng.random() < share

    def between(self, least, most):
        return self.rng.randint(least, most)

    def weighted(self, options):
        """Returns one of the options, which are given with their weights."""
        return self.rng.choices([*options], [*options.values()])[0]

    def some(self, pool, least=0, most=None):
        """Returns some of a pool in any order. Where numbers are made invalid, one may be there twice."""
        count = self.between(least, len(pool) if most is None else min(most, len(pool)))
        found = self.rng.sample(pool, count)
        if found and self.chance(self.invalid):
            found.append(found[0])
        return found

    def often(self, share, text):
        """Returns a text or, in the other cases, none."""
        return text if self.chance(share) else ""

    def is_limit(self):
        """Returns whether something is to be beyond a limit. That it is so is seldom, and only where numbers are made invalid."""
        return self.chance(10 * self.invalid)

    # ---- White space

    def gap(self, after):
        if after.startswith('"') and self.chance(0.5):
            return self.one("", "#g\n")
        return " " if self.chance(0.93) else self.one(*GAPS)

    def spaced(self, text):
        """Returns a text with any white space and comments between its tokens."""
        tokens = TOKEN.findall(text)
        if not self.is_odd:
            return " ".join(tokens)
        return "".join(it + self.gap(it) for it in tokens[:-1]) + tokens[-1]

    def lines(self, texts):
        return "\n".join(self.spaced(it) for it in texts)

    # ---- Numbers

    def number(self, value):
        """Returns a number as it may be written."""
        if self.chance(self.invalid):
            return self.one(*INVALID_NUMBERS)
        if not self.is_odd:
            return str(value)
        sign = "-" if value < 0 else self.often(0.06, "+")
        if value == 0 and self.chance(0.05):
            sign = "-"
        return sign + self.often(0.06, "0" * self.between(1, 3)) + str(abs(value))

    def coordinate(self):
        if self.chance(self.far):
            return self.number(self.one(*FAR))
        if self.is_dense and self.chance(0.6):
            return self.number(self.one(0, 0, 2, 4, 8, 12))
        return self.number(self.between(*self.reach))

    def small(self, least=0, most=6):
        if self.chance(self.far):
            return self.number(self.one(2147483647, 1000000, 100000))
        return self.number(self.between(least, most))

    def smalls(self, count, least, most):
        return " ".join(self.small(least, most) for _ in range(count))

    def coordinates(self, count):
        return " ".join(self.coordinate() for _ in range(count))

    def point(self):
        return f"( {self.coordinates(2)} )"

    def further_point(self):
        """Returns a point that may take coordinates from the one before."""
        if not self.chance(0.35):
            return self.point()
        return self.one(f"( * {self.coordinate()} )", f"( {self.coordinate()} * )", "( * * )")

    def corners(self):
        return f"{self.point()} {self.further_point()}"

    def distance(self, least=-2, most=3):
        """Returns a distance of LEF: often one that lies right between two database units."""
        if self.chance(self.invalid):
            return self.one(*INVALID_DISTANCES)
        if self.chance(0.03):
            return self.one(*(ODD_DISTANCES if least < 0 else ODD_LENGTHS))
        halves = self.between(20 * least, 20 * most)
        if self.chance(0.7):
            halves -= halves % 2
        whole, part = divmod(abs(halves) * 10**12 // (2 * self.units), 10**12)
        digits = f"{part:012}".rstrip("0")
        text = f"{whole}.{digits}" if digits or self.chance(0.3) else f"{whole}"
        if text.startswith("0.") and digits and self.chance(0.3):
            text = text[1:]
        return "-" * (halves < 0) + text

    def distances(self, count, least=-1, most=1):
        return " ".join(self.distance(least, most) for _ in range(count))

    def lengths(self, count):
        return self.distances(count, 0, 1)

    # ---- Names

    def layer(self):
        return self.one(*self.layers) if self.chance(0.98) else self.one(*self.odd_layers)

    def via(self):
        return self.one(*self.vias) if self.chance(0.97) else self.one(*self.odd_vias)

    def component(self):
        return self.one(*self.components) if self.chance(0.96) else self.one(*self.odd_components)

    def net_name(self):
        return self.one(*self.nets) if self.chance(0.95) else self.one("nonet", "MUSTJOIN", "u1")

    def orient(self):
        return self.one(*ORIENTS)

    def may_orient(self):
        return self.often(0.3, self.orient())
