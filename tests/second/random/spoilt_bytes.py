"""Runs whose texts and scripts have bytes changed, doubled, cut and joined at random, whatever that makes of them."""
import random
import re

from second.cases import cases_in
from second.random.kinds import Run, encoded, texts_of
from second.random.script_lines import ScriptLines, escaped

# How long a spoilt text may be, and a script: the second reading is slow.
LONGEST = 12000
LONGEST_SCRIPT = 3000
ODD_BYTES = bytes([0, 1, 9, 10, 13, 31, 32, 34, 35, 40, 41, 42, 43, 45, 46, 48, 57, 59, 92, 127, 128, 255])
# (no number of things that cost more than the memory and the time of a run, as a million vias)
NUMBERS = b"0 1 2 -1 7 64 1000001 2147483646 2147483647 -2147483647 -2147483648 0.5 1e9".split()
MANY = re.compile(rb" DO [0-9]{4,} BY | BY [0-9]{4,} ")
TIMES = [2, 2, 2, 3, 5, 20, 100]
WIDTHS = [1, 1, 2, 4, 10, 40, 200, 1000]


class Bytes:
    """Changes of bytes by a source of random numbers, which may take parts of the texts of other runs."""

    def __init__(self, rng, others):
        self.rng, self.others = rng, others

    def range_of(self, text):
        """Returns a range of a text: some bytes, or words or lines with the blank behind them."""
        begin = self.rng.randrange(len(text) + 1)
        end = min(len(text), begin + self.rng.choice(WIDTHS))
        mark = self.rng.choice([b"", b"", b" ", b" ", b"\n"])
        if not mark:
            return begin, end
        behind = text.find(mark, max(end - 1, 0))
        return text.rfind(mark, 0, begin) + 1, len(text) if behind < 0 else behind + 1

    def changed(self, text):
        begin, end = self.range_of(text)
        some = bytes(self.rng.choice(ODD_BYTES) if self.rng.random() < 0.7 else self.rng.randrange(256) for _ in range(min(end - begin, 4)))
        return text[:begin] + some + text[begin + len(some) :]

    def doubled(self, text):
        begin, end = self.range_of(text)
        return text[:end] + text[begin:end] * (self.rng.choice(TIMES) - 1) + text[end:]

    def cut(self, text):
        begin, end = self.range_of(text)
        return text[:begin] + text[end:] if self.rng.random() < 0.8 else text[:begin]

    def joined(self, text):
        """Puts a part of another text in the place of a range, or joins its end to a beginning."""
        other = self.rng.choice(self.others)
        begin, end = self.range_of(text)
        if self.rng.random() < 0.3:
            return text[:begin] + other[self.rng.randrange(len(other) + 1) :]
        low, high = self.range_of(other)
        return text[:begin] + other[low:high] + text[end:]

    def renumbered(self, text):
        """Puts other numbers in the place of some."""
        for _ in range(self.rng.choice([1, 1, 2, 5])):
            numbers = [it.span() for it in re.finditer(rb"(?<![^ ])[-+]?[0-9.]+(?![^ ])", text)]
            if numbers:
                begin, end = self.rng.choice(numbers)
                text = text[:begin] + self.rng.choice([self.rng.choice(NUMBERS), text[begin:end][::-1], b"-" + text[begin:end]]) + text[end:]
        return text

    def moved(self, text):
        """Puts a line behind another."""
        lines = text.splitlines(keepends=True)
        if lines:
            line = lines.pop(self.rng.randrange(len(lines)))
            lines.insert(self.rng.randrange(len(lines) + 1), line)
        return b"".join(lines)

    def spoilt(self, text, longest=LONGEST):
        """Returns a text with one to six of these changes."""
        for _ in range(self.rng.choice([1, 1, 1, 1, 2, 3, 6])):
            ways = {self.changed: 2, self.doubled: 2, self.cut: 2, self.joined: 1, self.moved: 1, self.renumbered: 4}
            text = self.rng.choices([*ways], [*ways.values()])[0](text)
        return text[:longest]


def short_cases(folder):
    """Returns the runs of the cases whose texts are short, and have no large arrays, as they are."""
    found = []
    for case in cases_in(folder):
        if not case.is_read or not case.lefs:
            continue
        run = Run(case.lefs, case.files["design.def"], case.files["script.txt"])
        if len(run.design) < LONGEST and len(run.script) < LONGEST_SCRIPT and not MANY.search(run.design + run.script):
            found.append(run)
    return found


class Spoilt:
    """Makes runs by a seed, each of a case or of a random design of all sections."""

    def __init__(self, folder):
        self.cases = short_cases(folder)
        self.designs = [it.design for it in self.cases]
        self.lefs = [it for run in self.cases for it in run.lefs]
        self.scripts = [it.script for it in self.cases]

    def whole(self, seed, rng):
        """Returns the run that is spoilt."""
        if rng.random() < 0.5:
            return rng.choice(self.cases)
        made = ScriptLines(seed)
        made.is_dense = True
        lefs, design = texts_of(made)
        lines = [made.any_line() for _ in range(12)] + made.questions()
        return Run(lefs, design, encoded("\n".join(lines) + "\n"))

    def edits(self, rng, design, spoiler):
        """Returns a script of text edits, each of which puts a spoilt part of the design, or of another, somewhere."""
        lines, size = [], len(design)
        for _ in range(rng.randint(1, 12)):
            begin = rng.randrange(size + 1)
            end = min(size, begin + rng.choice([0, 0, 0, 1, 5, 40, 400]))
            low, high = spoiler.range_of(design)
            put = spoiler.spoilt(design[low:high], 1000)
            lines += [b"text %d %d %s" % (begin, end, escaped(put)), *[b"check"] * (rng.random() < 0.3)]
        return b"".join(it + b"\n" for it in [*lines, b"check", b"length"])

    def made(self, kind, seed, number):
        """Returns the run of a kind, a seed and a number."""
        name = f"{kind} {seed} {number}"
        rng = random.Random(name)
        run = self.whole(name, rng)
        lefs, design, script = [*run.lefs], run.design, run.script
        if kind in ("lef", "all"):
            which = rng.randrange(len(lefs))
            lefs[which] = Bytes(rng, self.lefs).spoilt(lefs[which])
        if kind in ("def", "all"):
            design = Bytes(rng, self.designs).spoilt(design)
        if kind in ("script", "all"):
            script = Bytes(rng, self.scripts).spoilt(script, LONGEST_SCRIPT)
        if kind == "edits":
            script = self.edits(rng, design, Bytes(rng, self.designs))
        return Run(lefs, design, script)
