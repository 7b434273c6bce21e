"""How the forms of DEF are matched: the tokens of a statement, one after the other."""
from second.geometry import ORIENTS, Point, box
from second.tokens import GREATEST, can_be_number, is_name, is_word, whole_number


class NoForm(Exception):
    """What stands here hasn't the form."""


class Matcher:
    """Goes over the tokens of a statement, and keeps the offsets of the numbers that are invalid."""

    def __init__(self, tokens):
        self.tokens = tokens
        self.at = 0
        self.invalid = []

    def peek(self, ahead=0):
        """Returns the bytes of a token that is still to come, or None where none is."""
        at = self.at + ahead
        return self.tokens[at].text if at < len(self.tokens) else None

    def is_at_end(self):
        """Returns whether a clause may end here."""
        return self.peek() in (b"+", b";")

    def skip(self, count=1):
        self.at += count

    def skip_all(self, but=0):
        """Goes over all tokens but so many."""
        self.at = len(self.tokens) - but

    def token(self):
        """Returns the next token, which is known to be there, and goes over it."""
        self.at += 1
        return self.tokens[self.at - 1]

    def last(self):
        """Returns the token that it went over last."""
        return self.tokens[self.at - 1]

    def take(self, text):
        """Goes over this very token."""
        if self.peek() != text:
            raise NoForm
        self.at += 1

    def may_take(self, text):
        """Goes over this very token where it stands here, and returns whether it does."""
        is_here = self.peek() == text
        self.at += is_here
        return is_here

    def one_of(self, texts):
        """Goes over one of these tokens, and returns it."""
        if self.peek() not in texts:
            raise NoForm
        return self.token().text

    def name(self):
        if self.peek() is None or not is_name(self.peek()):
            raise NoForm
        return self.token().text

    def word(self):
        """Goes over any token but a string, a + and a ; and returns it."""
        if self.peek() is None or not is_word(self.peek()) or self.is_at_end():
            raise NoForm
        return self.token().text

    def orient(self):
        return self.one_of(ORIENTS)

    def may_orient(self):
        """Returns the orientation that stands here, or N where none does."""
        return self.orient() if self.peek() in ORIENTS else b"N"

    def may_mask(self):
        """Goes over MASK and its number, where they stand here."""
        if self.may_take(b"MASK"):
            self.word()

    def number(self, least=-GREATEST, most=GREATEST):
        """Returns a whole number, and 0 for one that is invalid."""
        if self.peek() is None or not can_be_number(self.peek()):
            raise NoForm
        token = self.token()
        value = whole_number(token.text)
        if value is None or not least <= value <= most:
            self.invalid.append(token.begin)
            return 0
        return value

    def numbers(self, count, least=-GREATEST, most=GREATEST):
        return [self.number(least, most) for _ in range(count)]

    def coordinate(self, before):
        """Returns a coordinate. A * is that of the point before, and invalid where there is none."""
        if self.peek() == b"*" and before is not None:
            self.skip()
            return before
        return self.number()

    def point(self, before=None):
        self.take(b"(")
        x = self.coordinate(before and before.x)
        y = self.coordinate(before and before.y)
        self.take(b")")
        return Point(x, y)

    def further_points(self, points):
        """Adds the points that stand here to those before, and returns all."""
        while self.peek() == b"(":
            points.append(self.point(points[-1] if points else None))
        return points

    def rectangle(self):
        """Returns the rectangle between the two points that stand here."""
        corner = self.point()
        return box(corner, self.point(corner))

    def rest(self):
        """Goes over all tokens of a clause, and returns their bytes."""
        begin = self.at
        while self.peek() is not None and not self.is_at_end():
            self.at += 1
        return [it.text for it in self.tokens[begin : self.at]]
