"""Random changes of texts that mostly make them faulty."""
import re

from second.edits import Splice

POOL = (
    b'; ( ) + - * N FS MASK RECT NEW DO BY STEP VIRTUAL TAPER TAPERRULE STYLE SHAPE ROUTED FIXED COVER NOSHIELD SHIELD PLACED UNPLACED '
    b'END DESIGN COMPONENTS NETS SPECIALNETS PINS UNITS DIEAREA ROW GCELLGRID TRACKS X Y PORT LAYER VIA POLYGON NET USE POWER SUBNET '
    b'SYNTHESIZED MUSTJOIN PIN VPIN m1 A u1 n1 0 1 5 -3 +7 007 2147483648 1.5 x "s" "a;b" "\\"" "" "un BEGINEXT ENDEXT '
    b"PROPERTYDEFINITIONS REGION TYPE FENCE WIDTH BLOCKAGES PLACEMENT SOFT CUTSIZE LAYERS ROWCOL 0 1000001 -1 REGIONS GROUPS VIAS "
    b"NONDEFAULTRULES NONDEFAULTRULE #c"
).split(b" ") + [b"\x01", b"a\x7fb", b"\xff", b"\x00", b"#", b"# x\n", b'"']
LEF_POOL = (
    b"; ( ) + - * LAYER VIA SITE MACRO PIN PORT OBS END DENSITY LIBRARY UNITS SPACING PROPERTYDEFINITIONS VIARULE GENERATE DEFAULT "
    b"GENERATED TOPOFSTACKONLY NONDEFAULTRULE BEGINEXT ENDEXT RECT MASK ITERATE POLYGON PATH SIZE BY WIDTH TYPE ROUTING CUT CLASS CORE "
    b'ORIGIN m1 A I 0 1 .5 -1 1e3 1000000.1 . "s" "" "un ROWCOL CUTSIZE CUTSPACING ENCLOSURE LAYERS OFFSET core x #c'
).split(b" ") + [b"\x01", b"a\x7fb", b"\xff", b"# x\n", b'"']
ODD_BYTES = [0, 1, 34, 35, 59, 43, 127, 128, 32, 10]
BLANKS_AND_MARKS = [b"", b" ", b"#", b'"', b"\n", b";", b" ; ", b"# x\n", b"5"]


def words_of(text):
    """Returns where the words of a text begin and end."""
    return [it.span() for it in re.finditer(rb"[^ \t\r\n]+", text)]


def line_round(text, begin, end):
    """Returns where the lines begin and end in which a range lies."""
    after = text.find(b"\n", end)
    return text.rfind(b"\n", 0, begin) + 1, len(text) if after < 0 else after + 1


class Spoiler:
    """Makes random changes by a source of random numbers."""

    def __init__(self, rng):
        self.rng = rng

    def spoilt(self, text, pool):
        """Returns a text with one to three words or bytes changed."""
        for _ in range(self.rng.choice([1, 1, 1, 2, 3])):
            words = words_of(text)
            if words:
                text = self.with_one_change(text, words, pool)
        return text

    def with_one_change(self, text, words, pool):
        begin, end = self.rng.choice(words)
        other_begin, other_end = self.rng.choice(words)
        at = self.rng.randrange(len(text))
        low, high = min(begin, other_begin), max(end, other_end)
        ways = {
            (begin, end, b""): 30,
            (begin, end, self.rng.choice(pool)): 25,
            (begin, begin, self.rng.choice(pool) + b" "): 25,
            (begin, end, text[other_begin:other_end]): 6,
            (begin, begin, text[begin:end] + b" "): 4,
            (self.rng.randrange(len(text) + 1), len(text), b""): 3,
            (at, at + 1, bytes([self.rng.choice(ODD_BYTES)])): 3,
            (at, at + 1, b""): 2,
            (low, high if high - low < 200 else low, b""): 2,
        }
        return Splice(*self.rng.choices([*ways], [*ways.values()])[0]).made(text)

    def edit_of_text(self, text, entry):
        """Returns a change of a text: of words, lines, marks, or an entry that is put."""
        words = words_of(text)
        begin, end = self.rng.choice(words)
        other_begin, other_end = self.rng.choice(words)
        kind = self.rng.random()
        if kind < 0.35:
            return Splice(begin, end, text[other_begin:other_end] if self.rng.random() < 0.6 else self.rng.choice(POOL))
        if kind < 0.5:
            return Splice(begin, begin, self.rng.choice(POOL) + b" ")
        if kind < 0.6:
            return Splice(begin, end, b"")
        if kind < 0.75:
            return Splice(*line_round(text, begin, end), b"")
        if kind < 0.85:
            low, high = line_round(text, begin, end)
            to, _ = line_round(text, other_begin, other_end)
            return Splice(to, to, text[low:high])
        if kind < 0.93:
            low, high = sorted(self.rng.choices(range(len(text) + 1), k=2))
            end = min(high, low + self.rng.choice([0, 1, 2, 5, 20, 200]))
            return Splice(low, end, self.rng.choice(BLANKS_AND_MARKS))
        return Splice(begin, begin, entry)
