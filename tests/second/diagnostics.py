"""The answer of `check`: all lines on a design, in the order of their bytes."""
from second.net_lines import NetLines
from second.place_lines import PlaceLines
from second.name_lines import NameLines


class Lines:
    """Lines, each of words and numbers with a blank between them."""

    def __init__(self):
        self.told = []

    def say(self, *words):
        self.told.append(b" ".join(it if isinstance(it, bytes) else b"%d" % it for it in words))


def diagnostics(design):
    """Returns the lines of `check`, without their number."""
    lines = Lines()
    for part in (PlaceLines, NetLines, NameLines):
        part(design, lines).collect()
    return sorted(lines.told)
