"""The clauses of the entries of DEF: which words have a form in which section, and which form.

LEF/DEF 5.8 Language Reference, "Components", "Pins", "Vias", "Nets", "Special Nets", "Regions", "Groups" and "Nondefault Rules".
"""
import enum
from dataclasses import dataclass

from second import wiring
from second.geometry import Point
from second.matcher import Matcher, NoForm
from second.tokens import is_name

NETS, SPECIALNETS = b"NETS", b"SPECIALNETS"
SECTIONS = tuple(
    b"VIAS NONDEFAULTRULES REGIONS COMPONENTS PINS BLOCKAGES SPECIALNETS NETS GROUPS SCANCHAINS PINPROPERTIES SLOTS FILLS STYLES".split()
)
# Those whose entries are kept as they are.
KEPT_SECTIONS = SECTIONS[9:]
FIXED_WORDS = (b"FIXED", b"COVER")
PLACED_WORDS = (b"PLACED", *FIXED_WORDS)
MOST_ROWS = 1000000


class Kind(enum.Enum):
    """How a clause stands to the forms of its section."""

    # the clause has the form of its word
    FORM = enum.auto()
    # its word has no form in this section
    OTHER = enum.auto()
    # its word has a form, and the clause has it not
    FORMLESS = enum.auto()
    # SUBNET of a net, which goes on to the end of its entry
    SUBNET = enum.auto()


@dataclass
class Clause:
    """A clause of an entry, from its + to its last token. The value is what its form holds."""

    word: bytes
    kind: Kind
    tokens: list
    value: object = None
    is_wiring: bool = False

    @property
    def begin(self):
        return self.tokens[0].begin

    @property
    def end(self):
        return self.tokens[-1].end

    def has_form(self, *words):
        return self.kind is Kind.FORM and self.word in words


@dataclass
class Placing:
    """Where a component or a port is placed."""

    at: Point
    orient: bytes


@dataclass
class RuleLayer:
    """The width that a nondefault rule gives wires on a layer."""

    layer: bytes
    width: int


def placing(it):
    return Placing(it.point(), it.orient())


def pin_layer(it):
    layer = it.name()
    it.may_mask()
    if it.peek() in (b"SPACING", b"DESIGNRULEWIDTH"):
        it.skip()
        it.number()
    return wiring.LayerRectangle(layer, it.rectangle())


def pin_via(it):
    via = it.name()
    it.may_mask()
    return wiring.ViaAt(via, [it.point()])


def pin_polygon(it):
    layer = it.name()
    it.rest()
    return wiring.LayerPolygon(layer)


def via_rectangle(it):
    layer = it.name()
    if it.may_take(b"+"):
        it.take(b"MASK")
        it.word()
    return wiring.LayerRectangle(layer, it.rectangle())


def via_polygon(it):
    layer = it.name()
    it.further_points([])
    return wiring.LayerPolygon(layer)


def masked_via_polygon(it):
    layer = it.name()
    it.take(b"+")
    it.take(b"MASK")
    it.word()
    it.further_points([])
    return wiring.LayerPolygon(layer)


def rule_layer(it):
    layer = it.name()
    it.take(b"WIDTH")
    found = RuleLayer(layer, it.number(least=0))
    it.rest()
    return found


def numbers(count, **limits):
    return lambda it: it.numbers(count, **limits)


def names(count):
    return lambda it: [it.name() for _ in range(count)]


def region_type(it):
    return it.one_of((b"FENCE", b"GUIDE"))


def nothing(it):
    return None


PLACINGS = {word: [placing] for word in PLACED_WORDS}
WIRING = {
    NETS: {word: [wiring.net_wires] for word in (b"ROUTED", b"FIXED", b"COVER", b"NOSHIELD")},
    SPECIALNETS: {
        b"ROUTED": [wiring.special_wires],
        b"FIXED": [wiring.special_wires],
        b"COVER": [wiring.special_wires],
        b"SHIELD": [wiring.shield_wires],
        b"RECT": [wiring.layer_rectangle],
        b"VIA": [wiring.vias_at_points],
        b"POLYGON": [wiring.layer_polygon],
        b"SHAPE": [Matcher.word],
        b"MASK": [Matcher.word],
    },
}
# By sections and words: the forms that a clause may have, which are tried in this order.
FORMS = {
    b"COMPONENTS": PLACINGS | {b"UNPLACED": [Matcher.rest], b"REGION": [Matcher.name]},
    b"PINS": PLACINGS | {b"NET": [Matcher.name], b"PORT": [nothing], b"LAYER": [pin_layer], b"VIA": [pin_via], b"POLYGON": [pin_polygon]},
    b"REGIONS": {b"TYPE": [region_type]},
    b"GROUPS": {b"REGION": [Matcher.rest]},
    b"VIAS": {
        b"RECT": [via_rectangle],
        b"POLYGON": [masked_via_polygon, via_polygon],
        b"VIARULE": [Matcher.name],
        b"CUTSIZE": [numbers(2, least=0)],
        b"LAYERS": [names(3)],
        b"CUTSPACING": [numbers(2, least=0)],
        b"ENCLOSURE": [numbers(4)],
        b"ROWCOL": [numbers(2, least=1, most=MOST_ROWS)],
        b"ORIGIN": [numbers(2)],
        b"OFFSET": [numbers(4)],
    },
    b"NONDEFAULTRULES": {b"LAYER": [rule_layer]},
    NETS: WIRING[NETS] | {b"USE": [Matcher.word], b"NONDEFAULTRULE": [Matcher.name]},
    SPECIALNETS: WIRING[SPECIALNETS] | {b"USE": [Matcher.word]},
}


@dataclass
class Matched:
    """What a form that fits holds, which may be nothing."""

    value: object


def matched(it, forms):
    """Matches the first of some forms that fits up to the end of the clause. Returns None, and stays, where none does."""
    at, invalid = it.at, list(it.invalid)
    for form in forms:
        try:
            value = form(it)
            if it.is_at_end():
                return Matched(value)
        except NoForm:
            pass
        it.at, it.invalid = at, list(invalid)
    return None


def clause(it, section):
    """Matches a clause. Of nets one that hasn't the form of its word is kept; of other sections it makes the entry formless."""
    begin = it.at
    it.take(b"+")
    word = it.word()
    kind, value = Kind.OTHER, None
    forms = FORMS.get(section, {}).get(word)
    if section in WIRING and word == b"SUBNET":
        kind = Kind.SUBNET
        it.skip_all(but=1)
    elif forms is None:
        it.rest()
    else:
        found = matched(it, forms)
        if found is None and section not in WIRING:
            raise NoForm
        kind = Kind.FORM if found else Kind.FORMLESS
        if found:
            value = found.value
        else:
            it.rest()
    is_wiring = kind is Kind.FORM and word in WIRING.get(section, {})
    return Clause(word, kind, it.tokens[begin : it.at], value, is_wiring)


def clauses(it, section):
    found = []
    while it.peek() == b"+":
        found.append(clause(it, section))
    return found


def region_of_group(entry):
    """Returns the region of a group, or None: the first of its REGIONs that have one name and nothing else."""
    values = [it.value for it in entry.clauses if it.has_form(b"REGION")]
    return next((it[0] for it in values if len(it) == 1 and is_name(it[0])), None)
