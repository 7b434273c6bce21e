"""The forms of the statements of LEF that mean something, by the block in which they stand.

LEF/DEF 5.8 Language Reference, "Layer", "Site", "Via", "Nondefault Rule", "Macro" and "Macro Pin Statement"; the limits are own.
"""
from second.geometry import Point
from second.library import LefRectangle
from second.matcher import NoForm
from second.tokens import can_be_number, distance, is_name, is_word, whole_number

MOST_ROWS = 1000000


class Arguments:
    """The tokens of a statement between its first word and its ; and the offsets of those of its numbers that are invalid."""

    def __init__(self, tokens):
        self.tokens = tokens
        self.invalid = []

    def require(self, is_so):
        if not is_so:
            raise NoForm

    def text(self, at):
        return self.tokens[at].text

    def count(self):
        return len(self.tokens)

    def value(self, token, read, is_valid):
        """Returns the number that a token is. One that is invalid counts as 0."""
        self.require(can_be_number(token.text))
        found = read(token.text)
        if found is None or not is_valid(found):
            self.invalid.append(token.begin)
            return 0
        return found

    def distance(self, token):
        return self.value(token, distance, lambda it: True)

    def length(self, token):
        """Returns a distance that isn't below 0."""
        return self.value(token, distance, lambda it: it >= 0)

    def distances(self, count):
        self.require(self.count() == count)
        return [self.distance(it) for it in self.tokens]

    def lengths(self, count):
        self.require(self.count() == count)
        return [self.length(it) for it in self.tokens]

    def size(self):
        """Matches `length BY length`."""
        self.require(self.count() == 3 and self.text(1) == b"BY")
        return Point(self.length(self.tokens[0]), self.length(self.tokens[2]))

    def point(self, at):
        """Matches a point from a token on: two distances, with or without ( and ). Returns it, and where it ends."""
        is_bracketed = at < self.count() and self.text(at) == b"("
        at += is_bracketed
        self.require(at + 1 < self.count())
        found = Point(self.distance(self.tokens[at]), self.distance(self.tokens[at + 1]))
        at += 2
        self.require(not is_bracketed or at < self.count() and self.text(at) == b")")
        return found, at + is_bracketed

    def points(self, begin, count):
        """Matches so many points from a token on, and nothing behind them."""
        points, at = [], begin
        for _ in range(count):
            point, at = self.point(at)
            points.append(point)
        self.require(at == self.count())
        return points

    def first_name(self):
        """Returns a name that other tokens may follow."""
        self.require(self.tokens and is_name(self.text(0)))
        return self.text(0)

    def first_word(self):
        """Returns a word that other tokens may follow."""
        self.require(self.tokens and is_word(self.text(0)))
        return self.text(0)

    def names(self, count):
        self.require(self.count() == count and all(is_name(it.text) for it in self.tokens))
        return [it.text for it in self.tokens]


def best(given, forms):
    """Returns what the forms that fit give: the first without an invalid number, or else the first."""
    fitting = []
    for form in forms:
        trial = Arguments(given.tokens)
        try:
            fitting.append((form(trial), trial.invalid))
        except NoForm:
            pass
    given.require(fitting)
    value, given.invalid = next((it for it in fitting if not it[1]), fitting[0])
    return value


def masked_points(given):
    given.require(given.count() >= 2 and given.text(0) == b"MASK" and is_word(given.text(1)))
    return given.points(2, 2)


def iterated(given):
    """Matches an array of rectangles, which isn't looked at: None."""
    texts = [it.text for it in given.tokens[:3]]
    is_masked = len(texts) == 3 and texts[0] == b"MASK" and is_word(texts[1]) and texts[2] == b"ITERATE"
    given.require(texts[:1] == [b"ITERATE"] or is_masked)


def corners(given, may_iterate):
    """Matches RECT. Returns its corners, or None for an array of rectangles."""
    return best(given, [lambda it: it.points(0, 2), masked_points, *[iterated] * may_iterate])


# ---- The statements, by their blocks. Each takes the definition of the block, and what the statement is given.

def first(name, read):
    """Returns the form of a statement of which the first in a block counts: its value is the field of this name."""

    def form(block, given):
        value = read(given)
        if getattr(block, name) is None:
            setattr(block, name, value)

    return form


def one_word(given):
    given.require(given.count() == 1)
    return given.first_word()


def first_length(given):
    given.require(given.tokens)
    return given.length(given.tokens[0])


def layer_spacing(layer, given):
    given.require(given.tokens)
    given.distance(given.tokens[0])


def via_layer(via, given):
    via.layers.append(given.first_name())


def via_rectangle(via, given):
    given.require(via.layers)
    via.rectangles.append(LefRectangle(via.layers[-1], corners(given, False)))


def via_polygon(via, given):
    via.polygons += 1


def via_rows(given):
    """Matches ROWCOL: two whole numbers."""
    given.require(given.count() == 2)
    found = [given.value(it, whole_number, lambda value: 1 <= value <= MOST_ROWS) for it in given.tokens]
    return [max(it, 1) for it in found]


def via_value(word, read):
    """Returns the form of a statement of a via of which the first counts."""

    def form(via, given):
        via.values.setdefault(word, read(given))

    return form


def macro_site(macro, given):
    macro.sites.append(given.first_name())


def port_layer(port, given):
    port.layer = given.first_name()


def port_rectangle(port, given):
    given.require(port.layer is not None)
    found = corners(given, True)
    if found is None:
        port.pin.unchecked += 1
    else:
        port.pin.rectangles.append(LefRectangle(port.layer, found))


def port_unchecked(port, given):
    port.pin.unchecked += 1


FORMS = {
    "LAYER": {b"TYPE": first("type", one_word), b"WIDTH": first("width", first_length), b"SPACING": layer_spacing},
    "SITE": {b"SIZE": first("size", Arguments.size)},
    "VIA": {
        b"LAYER": via_layer,
        b"RECT": via_rectangle,
        b"POLYGON": via_polygon,
        b"VIARULE": via_value(b"VIARULE", lambda it: it.names(1)[0]),
        b"CUTSIZE": via_value(b"CUTSIZE", lambda it: it.lengths(2)),
        b"CUTSPACING": via_value(b"CUTSPACING", lambda it: it.lengths(2)),
        b"LAYERS": via_value(b"LAYERS", lambda it: it.names(3)),
        b"ENCLOSURE": via_value(b"ENCLOSURE", lambda it: it.distances(4)),
        b"OFFSET": via_value(b"OFFSET", lambda it: it.distances(4)),
        b"ORIGIN": via_value(b"ORIGIN", lambda it: it.distances(2)),
        b"ROWCOL": via_value(b"ROWCOL", via_rows),
    },
    "RULE LAYER": {b"WIDTH": first("width", lambda it: it.lengths(1)[0])},
    "MACRO": {
        b"CLASS": first("macro_class", Arguments.first_word),
        b"ORIGIN": first("origin", lambda it: it.points(0, 1)[0]),
        b"SIZE": first("size", Arguments.size),
        b"SITE": macro_site,
    },
    "PORT": {
        b"LAYER": port_layer,
        b"RECT": port_rectangle,
        b"POLYGON": port_unchecked,
        b"PATH": port_unchecked,
        b"VIA": port_unchecked,
    },
}
