"""Tokens of LEF and DEF texts, the bytes that no text may have, and which tokens are words, names and numbers.

LEF/DEF 5.8 Language Reference, "DEF Syntax" and "LEF Syntax"; the limits are own.
"""
import re
from dataclasses import dataclass, field
from typing import NamedTuple

BLANKS = b" \t\r\n"
MARKS = (b";", b"(", b")", b"+", b"-", b"*")
GREATEST = 2147483647
LONGEST_TEXT = 1073741824
# How many digits a distance may have after its point: a distance is kept as a whole number of the last of them.
DIGITS = 12
GREATEST_DISTANCE = 1000000 * 10**DIGITS


class Fault(Exception):
    """The fault of a text: its number, and the offset at which it is told."""

    def __init__(self, number, place):
        super().__init__(f"F{number} at {place}")
        self.number, self.place = number, place


class Token(NamedTuple):
    """A token: its bytes, and the offsets at which they begin and end."""

    text: bytes
    begin: int
    end: int


def end_of_string(text, begin):
    """Returns where the string that begins here ends: after the next quote that has no backslash before it."""
    at = begin + 1
    while True:
        at = text.find(b'"', at)
        if at < 0:
            raise Fault(2, begin)
        if text[at - 1 : at] != b"\\":
            return at + 1
        at += 1


def next_token(text, at):
    """Returns the first token from an offset on, or None where there is none. A comment goes from # to the end of its line."""
    while at < len(text):
        if text[at] in BLANKS:
            at += 1
        elif text[at] == ord("#"):
            end = text.find(b"\n", at)
            at = len(text) if end < 0 else end + 1
        elif text[at] == ord('"'):
            end = end_of_string(text, at)
            return Token(text[at:end], at, end)
        else:
            end = at
            while end < len(text) and text[end] not in BLANKS:
                end += 1
            return Token(text[at:end], at, end)
    return None


def refused_byte(text, begin, end):
    """Returns the offset of the first byte of a range that no text may have, or None: a control other than white space."""
    for at in range(begin, end):
        if text[at] == 127 or text[at] < 32 and text[at] not in BLANKS:
            return at
    return None


def refuse_bytes(text, begin, end):
    """Raises a fault where a range has a byte that no text may have."""
    at = refused_byte(text, begin, end)
    if at is not None:
        raise Fault(1, at)


@dataclass
class Cut:
    """The tokens of a statement that is cut off a text, whether they go up to its end, and the fault that stands behind them. Where it
    takes a look at the token behind to tell its end, the offset at which that ends, or the text."""

    tokens: list = field(default_factory=list)
    is_ended: bool = False
    fault: Fault | None = None
    looked_to: int = 0

    def refuse(self, text, at):
        """Raises the first fault of a statement that begins from an offset on, before its form is looked at: refused bytes, then a
        string without end, then the end of the text."""
        refuse_bytes(text, at, max(self.tokens[-1].end, self.looked_to) if self.is_ended and not self.fault else len(text))
        if self.fault:
            raise self.fault
        if self.tokens and not self.is_ended:
            raise Fault(5, self.tokens[0].begin)


def is_word(text):
    return not text.startswith(b'"')


def is_name(text):
    return is_word(text) and text not in MARKS


def can_be_number(text):
    """Returns whether a token in the place of a number makes the number invalid, where it is none. Any other has no form."""
    return is_word(text) and text not in (b";", b"(", b")", b"+", b"-")


def whole_number(word):
    """Returns the whole number that a word is, or None."""
    found = re.fullmatch(rb"([+-]?)0*([0-9]+)", word)
    if not found or len(found[2]) > len(str(GREATEST)):
        return None
    value = int(found[2])
    if value > GREATEST:
        return None
    return -value if found[1] == b"-" else value


def distance(word):
    """Returns the distance that a word of LEF is, in microns times 10 to the power of DIGITS, or None."""
    found = re.fullmatch(rb"([+-]?)([0-9]*)(?:\.([0-9]*))?", word)
    if not found:
        return None
    whole, part = found[2], found[3] or b""
    if not whole + part or len(part) > DIGITS or len(whole.lstrip(b"0")) > 7:
        return None
    value = int((whole or b"0") + part.ljust(DIGITS, b"0"))
    if value > GREATEST_DISTANCE:
        return None
    return -value if found[1] == b"-" else value


def in_units(length, units):
    """Returns the nearest whole number of database units of a distance; of two that are as near the one farther from 0."""
    one = 10**DIGITS
    value = (2 * abs(length) * units + one) // (2 * one)
    return -value if length < 0 else value
