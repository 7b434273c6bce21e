"""Reads a DEF text: cuts it into statements, and tells the first fault that it has.

LEF/DEF 5.8 Language Reference, "DEF Syntax".
"""
from dataclasses import dataclass, field

from second import entries
from second.matcher import Matcher, NoForm
from second.tokens import LONGEST_TEXT, Cut, Fault, next_token

TOP, PROPERTIES, AFTER = "outside of sections", "within PROPERTYDEFINITIONS", "after the end of the design"


def tokens_up_to(text, cut, is_last):
    """Adds tokens to those of a statement up to the one that is its last."""
    while not cut.is_ended:
        token = next_token(text, cut.tokens[-1].end)
        if token is None:
            return
        cut.tokens.append(token)
        cut.is_ended = is_last(token)


def cut_statement(text, at):
    """Cuts the next statement off a text. END has one more word, BEGINEXT goes on to ENDEXT, and any other up to a ;"""
    cut = Cut()
    try:
        first = next_token(text, at)
        if first is None:
            return cut
        cut.tokens.append(first)
        cut.is_ended = first.text in (b"PROPERTYDEFINITIONS", b";")
        if first.text == b"END":
            tokens_up_to(text, cut, lambda token: True)
        elif first.text == b"BEGINEXT":
            tokens_up_to(text, cut, lambda token: token.text == b"ENDEXT")
        else:
            tokens_up_to(text, cut, lambda token: token.text == b";")
    except Fault as fault:
        cut.fault = fault
    return cut


@dataclass
class Reader:
    """Reads statements one after the other. The mode is where the next one stands: a section, or one of those above."""

    mode: object = TOP
    # the statements that may stand in a text once, and the names of entries by their sections
    seen: set = field(default_factory=set)
    names: set = field(default_factory=set)

    def matched(self, it):
        """Matches a statement in the place where it stands. Returns it, and where the next one stands."""
        first = it.peek()
        if self.mode == AFTER:
            raise NoForm
        if self.mode == PROPERTIES:
            is_end = (first, it.peek(1)) == (b"END", b"PROPERTYDEFINITIONS")
            if not is_end and it.tokens[-1].text != b";":
                raise NoForm
            it.skip_all()
            return entries.Statement(), TOP if is_end else PROPERTIES
        if self.mode != TOP:
            return self.matched_in_section(it)
        found = entries.top_statement(it)
        if isinstance(found, entries.Header):
            return found, found.section
        if isinstance(found, entries.Properties):
            return found, PROPERTIES
        return found, AFTER if isinstance(found, entries.DesignEnd) else TOP

    def matched_in_section(self, it):
        if it.may_take(b"END"):
            it.take(self.mode)
            return entries.SectionEnd(self.mode), TOP
        return entries.entry(it, self.mode), self.mode

    def once(self, statement):
        """Tells a statement that stands in the text for the second time, and an entry of a name that its section has."""
        key = type(statement)
        if isinstance(statement, entries.Header):
            key = statement.section
        if isinstance(statement, (entries.Units, entries.DieArea, entries.Header, entries.Properties)):
            if key in self.seen:
                raise Fault(8, statement.begin)
            self.seen.add(key)
        if isinstance(statement, entries.Entry) and statement.name is not None:
            name = (statement.section, statement.name)
            if name in self.names:
                raise Fault(7, statement.begin)
            self.names.add(name)

    def statement(self, tokens):
        """Reads the statement of these tokens: its form, its numbers, and whether it may stand here once more."""
        it = Matcher(tokens)
        try:
            found, mode = self.matched(it)
            if it.at != len(tokens):
                raise NoForm
        except NoForm:
            raise Fault(4, tokens[0].begin) from None
        if it.invalid:
            raise Fault(6, min(it.invalid))
        found.tokens = tokens
        self.once(found)
        self.mode = mode
        return found


def read_statements(text):
    """Returns the statements of a DEF text. Raises the first fault; of one statement refused bytes come first, then a string
    without end, the end of the text, the form, the numbers, and what may stand once."""
    if len(text) > LONGEST_TEXT:
        raise Fault(3, 0)
    reader, statements, at = Reader(), [], 0
    while True:
        cut = cut_statement(text, at)
        cut.refuse(text, at)
        if not cut.tokens:
            break
        statements.append(reader.statement(cut.tokens))
        at = statements[-1].end
    if reader.mode != AFTER:
        raise Fault(5, len(text))
    if entries.Units not in reader.seen:
        raise Fault(9, len(text))
    return statements
