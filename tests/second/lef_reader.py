"""Reads a LEF text: its blocks and their statements, and the first fault that it has.

LEF/DEF 5.8 Language Reference, "LEF Syntax".
"""
from dataclasses import dataclass

from second import library
from second.lef_forms import FORMS, Arguments
from second.matcher import NoForm
from second.tokens import LONGEST_TEXT, Cut, Fault, is_name, is_word, next_token, refuse_bytes

TOP = "outside of blocks"
# How many tokens the header of a block has, by where it stands and its word. A second token is the name of the block, and a block
# without one has its word for a name.
HEADERS = {
    TOP: {
        **{word: 2 for word in (b"LAYER", b"SITE", b"MACRO", b"NONDEFAULTRULE", b"VIA", b"VIARULE")},
        **{word: 1 for word in (b"UNITS", b"SPACING", b"PROPERTYDEFINITIONS", b"BEGINEXT")},
    },
    "NONDEFAULTRULE": {b"LAYER": 2, b"VIA": 2, b"SPACING": 1},
    "MACRO": {b"PIN": 2, b"OBS": 1, b"DENSITY": 1},
    "PIN": {b"PORT": 1},
}
# Blocks that end with END alone, without a name.
WITHOUT_NAME = ("OBS", "DENSITY", "PORT")
WORDS_OF_VIA = (b"DEFAULT", b"GENERATED", b"TOPOFSTACKONLY")


@dataclass
class Block:
    """An open block: its kind, its name, and the definition that its statements go to, where its kind has one."""

    kind: str
    name: bytes
    definition: object = None


class LefReader:
    """Reads the statements of a text one after the other into a library. The open blocks stand in each other."""

    def __init__(self, text, into):
        self.text = text
        self.library = into
        self.at = 0
        self.blocks = []

    @property
    def kind(self):
        return self.blocks[-1].kind if self.blocks else TOP

    def read(self):
        while True:
            try:
                first = next_token(self.text, self.at)
            except Fault:
                refuse_bytes(self.text, self.at, len(self.text))
                raise
            if first is None:
                break
            if self.kind == "BEGINEXT":
                self.skip_in_extension(first)
            else:
                self.statement(first)
        refuse_bytes(self.text, self.at, len(self.text))
        if self.blocks:
            raise Fault(5, len(self.text))

    def skip_in_extension(self, token):
        """Goes over a token of an extension, which ENDEXT ends."""
        refuse_bytes(self.text, self.at, token.end)
        if token.text == b"ENDEXT":
            self.blocks.pop()
        self.at = token.end

    def statement(self, first):
        """Reads the statement of this first token: what stands in it, then its form, then its numbers."""
        cut = Cut([first])
        try:
            self.add_tokens(cut)
        except Fault as fault:
            cut.fault = fault
        cut.refuse(self.text, self.at)
        self.at = cut.tokens[-1].end
        try:
            invalid = self.take(first.text, cut.tokens)
        except NoForm:
            raise Fault(4, first.begin) from None
        if invalid:
            raise Fault(6, min(invalid))

    def is_header(self, word):
        return word in HEADERS.get(self.kind, {})

    def size_of(self, word):
        """Returns how many tokens a statement has that begins with a word here, or None where it goes on to a ;"""
        if word == b"END":
            return 1 if self.kind in WITHOUT_NAME else 2
        return 1 if word == b";" else HEADERS.get(self.kind, {}).get(word)

    def add_tokens(self, cut):
        """Adds the further tokens of a statement to its first, as far as there are some."""
        word = cut.tokens[0].text
        size = self.size_of(word)
        while len(cut.tokens) < size if size else cut.tokens[-1].text != b";":
            token = next_token(self.text, cut.tokens[-1].end)
            if token is None:
                return
            cut.tokens.append(token)
        cut.is_ended = True
        if self.is_header(word):
            self.add_words(word, cut.tokens)
        if self.is_header(word) and word in (b"VIA", b"VIARULE"):
            behind = next_token(self.text, cut.tokens[-1].end)
            cut.looked_to = behind.end if behind else len(self.text)

    def add_words(self, word, tokens):
        """Adds the words that may follow the name of a via or a via rule. The header ends without them; whether one more comes is told by
        the token behind."""
        if word == b"VIA":
            while self.add_word(tokens, *WORDS_OF_VIA):
                pass
        elif word == b"VIARULE":
            self.add_word(tokens, b"GENERATE")
            self.add_word(tokens, b"DEFAULT")

    def add_word(self, tokens, *words):
        """Adds the next token to a header where it is one of these words, and returns whether it is."""
        token = next_token(self.text, tokens[-1].end)
        is_one = token is not None and token.text in words
        if is_one:
            tokens.append(token)
        return is_one

    def take(self, word, tokens):
        """Takes a whole statement. Returns the offsets of its invalid numbers."""
        if self.is_header(word):
            name = tokens[1].text if self.size_of(word) == 2 else word
            if not is_name(name):
                raise NoForm
            self.open(word, name)
        elif word == b"END":
            self.close(tokens)
        elif not is_word(word) or word == b";":
            raise NoForm
        else:
            form, given = FORMS.get(self.kind, {}).get(word), Arguments(tokens[1:-1])
            if form:
                form(self.blocks[-1].definition, given)
            return given.invalid
        return []

    def open(self, word, name):
        """Opens a block. One whose statements mean nothing has no definition."""
        kind = word.decode()
        if self.kind == "NONDEFAULTRULE" and word == b"LAYER":
            kind = "RULE LAYER"
        made = {
            "LAYER": library.Layer,
            "SITE": library.Site,
            "VIA": library.LefVia,
            "MACRO": library.Macro,
            "NONDEFAULTRULE": library.Rule,
            "RULE LAYER": library.RuleWidth,
            "PIN": library.Pin,
            "PORT": lambda: library.Port(self.blocks[-1].definition),
        }
        self.blocks.append(Block(kind, name, made.get(kind, lambda: None)()))

    def close(self, tokens):
        """Closes the innermost block, whose name must follow END. Outside of blocks END LIBRARY may stand."""
        if not self.blocks:
            if tokens[1].text != b"LIBRARY":
                raise NoForm
            return
        if self.kind not in WITHOUT_NAME and tokens[1].text != self.blocks[-1].name:
            raise NoForm
        self.keep(self.blocks.pop())

    def keep(self, block):
        """Keeps what a closed block defines, in the library or the block around it, where its name has no definition yet."""
        outer = self.blocks[-1].definition if self.blocks else None
        if block.kind == "RULE LAYER":
            outer.widths.setdefault(block.name, block.definition.width)
        elif block.kind == "PIN":
            outer.pins.setdefault(block.name, block.definition)
        elif block.kind in ("LAYER", "SITE", "VIA", "MACRO", "NONDEFAULTRULE"):
            known = {
                "LAYER": self.library.layers,
                "SITE": self.library.sites,
                "VIA": self.library.vias,
                "MACRO": self.library.macros,
                "NONDEFAULTRULE": self.library.rules,
            }
            known[block.kind].setdefault(block.name, block.definition)


def read_lef(text, into):
    """Adds what a LEF text defines to a library, or raises its first fault."""
    if len(text) > LONGEST_TEXT:
        raise Fault(3, 0)
    LefReader(text, into).read()
