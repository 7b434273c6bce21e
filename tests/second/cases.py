"""The cases of the repository, and whether the second reading answers what they store."""
import itertools
import os
import re
from dataclasses import dataclass, field

from second.comparing import bytes_of, differences
from second.design import Design
from second.lef_reader import read_lef
from second.library import Library
from second.script import Outcome, run
from second.tokens import Fault

LEF_FILE = re.compile(r"lef([1-9][0-9]*)\.lef")
# of which text each table tells
TABLES = {"prefixes": "design.def", "refused_bytes": "design.def", "lef_prefixes": "lef1.lef", "lef_refused_bytes": "lef1.lef"}
REFUSED = b"\x7f"


@dataclass
class Case:
    """The files of a case by their names."""

    name: str
    files: dict = field(default_factory=dict)

    @property
    def is_read(self):
        """Whether it is about what is read: not about arguments, memory or files that are missing."""
        return "design.def" in self.files and "script.txt" in self.files and not {"args", "memory"} & self.files.keys()

    @property
    def lefs(self):
        names = sorted((it for it in self.files if LEF_FILE.fullmatch(it)), key=lambda name: int(LEF_FILE.fullmatch(name)[1]))
        return [self.files[it] for it in names]


def cases_in(folder):
    found = []
    for name in sorted(os.listdir(folder)):
        files = [it.name for it in os.scandir(f"{folder}/{name}") if it.is_file()]
        found.append(Case(name, {it: bytes_of(f"{folder}/{name}/{it}") for it in files}))
    return found


def stored_outcome(case):
    """Returns what must come out of a case: where it has no output file, that must be as it was before."""
    files = case.files
    status = int(files.get("status", b"0"))
    return Outcome(status, files.get("stdout", b""), files.get("stderr", b""), files.get("out.def", files.get("out.before")))


def read_outcome(case):
    """Returns what comes out of a case by the second reading. Where a text has a fault, the output file stays as it was."""
    found = run(case.lefs, case.files["design.def"], case.files["script.txt"])
    if found.text is None:
        found.text = case.files.get("out.before")
    return found


def library_of(lefs):
    """Returns the library of LEF texts."""
    library = Library()
    for lef in lefs:
        read_lef(lef, library)
    return library


def told_of(read, text, number):
    """Returns what a table says of a text that is read so: that it reads, or its fault and where that is."""
    try:
        read(text)
    except Fault as fault:
        return f"F{fault.number} {'here' if fault.place == number else fault.place}"
    return "reads"


def table(case, name):
    """Returns a table of a case: what is told of its text cut short at each length, or with a refused byte in each place."""
    text, is_cut = case.files[TABLES[name]], name.endswith("prefixes")
    if TABLES[name] == "design.def":
        library = library_of(case.lefs)
        read = lambda it: Design(library, it)
    else:
        read = lambda it: Design(library_of([it, *case.lefs[1:]]), case.files["design.def"])
    numbers = range(len(text) + is_cut)
    texts = ((it, text[:it] if is_cut else text[:it] + REFUSED + text[it + 1 :]) for it in numbers)
    told = ((number, told_of(read, it, number)) for number, it in texts)
    lines = ""
    for answer, row in itertools.groupby(told, key=lambda pair: pair[1]):
        row = [number for number, _ in row]
        lines += f"{row[0]} {row[-1]} {answer}\n"
    return lines.encode()


def wrong_with(case):
    """Returns how the second reading of a case differs from what the case stores."""
    found = differences(read_outcome(case), stored_outcome(case))
    for name in TABLES:
        if name in case.files and table(case, name) != case.files[name]:
            found.append(f"its {name} differ")
    return found
