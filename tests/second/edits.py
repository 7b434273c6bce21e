"""What each edit does to a text: the splices that it makes, or the reason for which it is refused."""
from dataclasses import dataclass

from second.clauses import FIXED_WORDS, WIRING, Kind, clauses
from second.matcher import Matcher, NoForm
from second.tokens import BLANKS, LONGEST_TEXT, MARKS, Fault, Token, is_word, next_token, refused_byte


class Refused(Exception):
    """The reason for which a line is refused."""

    def __init__(self, reason):
        super().__init__(reason)
        self.reason = reason


@dataclass
class Splice:
    """A range of bytes of a text, and what is put in its place."""

    begin: int
    end: int
    put: bytes

    def made(self, text):
        """Returns the text with nothing but this done."""
        return text[: self.begin] + self.put + text[self.end :]


def refuse_if(is_so, reason):
    if is_so:
        raise Refused(reason)


def spliced(text, splices):
    """Returns a text with splices made. After one that ends in no white space a blank is put where none follows."""
    made, at = b"", 0
    for it in sorted(splices, key=lambda splice: (splice.begin, splice.end)):
        made += text[at : it.begin] + it.put
        if it.put and it.put[-1] not in BLANKS and text[it.end : it.end + 1] and text[it.end] not in BLANKS:
            made += b" "
        at = it.end
    made += text[at:]
    refuse_if(len(made) > LONGEST_TEXT, "E11")
    return made


def known_component(design, name):
    component = design.component(name)
    refuse_if(component is None, "E1")
    return component


def movable_component(design, name):
    """Returns a component that is neither FIXED nor COVER."""
    component = known_component(design, name)
    clause = component.placing_clause
    refuse_if(clause is not None and clause.word in FIXED_WORDS, "E2")
    return component


def can_name_component(name):
    is_refused = any(it < 33 or it == 127 for it in name)
    return not is_refused and name[:1] not in (b"#", b'"', b"") and name not in (*MARKS, b"PIN", b"VPIN")


def put_at(place, put):
    return Splice(place, place, put)


def count_splice(design, section, count):
    number = design.sections.headers[section].number
    return Splice(number.begin, number.end, b"%d" % count)


def last_entry(design, section, text):
    """Returns the splices that put an entry last into a section and count it."""
    refuse_if(section not in design.sections.headers, "E6")
    count = count_splice(design, section, len(design.entries(section)) + 1)
    return [count, put_at(design.sections.ends[section].begin, text + b" ;\n")]


def put_placing(component, put):
    """Returns the splice that makes this the placing of a component: the words of its placing clause, or a clause of its own."""
    clause = component.placing_clause
    if clause is None:
        return [put_at(component.end_of_clauses, b" + " + put)]
    return [Splice(clause.tokens[1].begin, clause.end, put)]


def place(design, name, x, y, orient):
    component = movable_component(design, name)
    refuse_if(x is None or y is None, "E5")
    return put_placing(component, b"PLACED ( %d %d ) %s" % (x, y, orient))


def unplace(design, name):
    component = movable_component(design, name)
    return [] if component.placing is None else put_placing(component, b"UNPLACED")


def add(design, name, macro):
    refuse_if(macro not in design.library.macros, "E1")
    refuse_if(not can_name_component(name), "E3")
    refuse_if(design.component(name) is not None, "E4")
    return last_entry(design, b"COMPONENTS", b"- %s %s" % (name, macro))


def remove(design, name):
    component = movable_component(design, name)
    connected = {it.component for entry in design.net_entries() for it in entry.terminals}
    refuse_if(name in connected - {b"PIN", b"VPIN", b"*"}, "E7")
    count = count_splice(design, b"COMPONENTS", len(design.components()) - 1)
    return [count, Splice(component.begin, component.end, b"")]


def remaster(design, name, macro):
    component = known_component(design, name)
    refuse_if(macro not in design.library.macros, "E1")
    return [Splice(component.macro_token.begin, component.macro_token.end, macro)]


def known_net(design, name):
    entry = design.net_entry(name)
    refuse_if(entry is None, "E1")
    return entry


def is_pin(design, component, pin):
    """Returns whether there is such a pin of a component, or of the design."""
    if component == b"PIN":
        return design.entry(b"PINS", pin) is not None
    found = None if component in (b"VPIN", b"*") else design.component(component)
    macro = found and design.macro(found)
    return macro is not None and pin in macro.pins


def connect(design, name, component, pin):
    entry = known_net(design, name)
    refuse_if(not is_pin(design, component, pin), "E1")
    terminals = [it for other in design.net_entries() for it in other.terminals]
    refuse_if(any(it.names(component, pin) for it in terminals), "E7")
    end = entry.terminals[-1].end if entry.terminals else entry.name_token.end
    return [put_at(end, b" ( %s %s )" % (component, pin))]


def disconnect(design, name, component, pin):
    known_net(design, name)
    terminals = [it for entry in design.net_entries() if entry.name == name for it in entry.terminals]
    found = next((it for it in terminals if it.names(component, pin)), None)
    refuse_if(found is None, "E7")
    return [Splice(found.begin, found.end, b"")]


def tokens_of_wiring(text):
    """Returns the tokens of wiring that is given, or None where it has a comment, a string, a ; or a fault."""
    if refused_byte(text, 0, len(text)) is not None:
        return None
    tokens, at = [], 0
    try:
        while (token := next_token(text, at)) is not None:
            tokens.append(token)
            at = token.end
    except Fault:
        return None
    # what lies between two tokens must be white space, and so must what lies before the first and after the last
    edges = [0, *(edge for it in tokens for edge in (it.begin, it.end)), len(text)]
    between = b"".join(text[begin:end] for begin, end in zip(edges[::2], edges[1::2]))
    is_plain = all(is_word(it.text) and it.text != b";" for it in tokens)
    return tokens if is_plain and not between.strip(BLANKS) else None


def is_wiring(text, section):
    """Returns whether a text is one or more clauses of wiring of a section, and nothing else."""
    tokens = tokens_of_wiring(text)
    if not tokens:
        return False
    it = Matcher([*tokens, Token(b";", len(text), len(text))])
    try:
        found = clauses(it, section)
    except NoForm:
        return False
    return it.peek() == b";" and not it.invalid and all(clause.is_wiring for clause in found)


def wiring_to_change(entry):
    """Returns the clauses of wiring of an entry, of which none is FIXED or COVER."""
    found = [it for it in entry.clauses if it.is_wiring]
    refuse_if(any(it.word in FIXED_WORDS for it in found), "E2")
    return found


def refuse_scattered(entry, found):
    """Refuses an entry with another clause between those of its wiring, with SUBNET, or with wiring that hasn't its form."""
    places = [place for place, it in enumerate(entry.clauses) if it.is_wiring]
    is_scattered = bool(found) and places[-1] - places[0] + 1 != len(places)
    is_formless = any(it.kind is Kind.FORMLESS and it.word in WIRING[entry.section] for it in entry.clauses)
    refuse_if(is_scattered or is_formless or any(it.kind is Kind.SUBNET for it in entry.clauses), "E13")


def route(design, name, text):
    entry = known_net(design, name)
    found = wiring_to_change(entry)
    refuse_if(not is_wiring(text, entry.section), "E8")
    refuse_scattered(entry, found)
    if found:
        return [Splice(found[0].begin, found[-1].end, text)]
    return [put_at(entry.end_of_clauses, b" " + text)]


def unroute(design, name):
    entry = known_net(design, name)
    found = wiring_to_change(entry)
    refuse_scattered(entry, found)
    return [Splice(found[0].begin, found[-1].end, b"")] if found else []


def block(design, layer, corners):
    """Puts a blockage of a layer, or of placement where it is None."""
    refuse_if(layer is not None and layer not in design.library.layers, "E1")
    refuse_if(None in corners, "E5")
    what = b"PLACEMENT" if layer is None else b"LAYER " + layer
    return last_entry(design, b"BLOCKAGES", b"- %s RECT ( %d %d ) ( %d %d )" % (what, *corners))
