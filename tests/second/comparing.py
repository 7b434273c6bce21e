"""What a program answers, and how it differs from what it must answer."""
import contextlib
import io
import itertools
import os
import subprocess
import tempfile
from dataclasses import dataclass

from second.script import Outcome, run

LIMIT = 60


@dataclass
class Program:
    """A program, how many seconds a run of it may take, and the folder in which runs that differ are kept, where one is named."""

    path: str
    limit: int = LIMIT
    kept_in: str | None = None


def bytes_of(path):
    """Returns the bytes of a file, or None where there is none."""
    with contextlib.suppress(FileNotFoundError):
        with open(path, "rb") as file:
            return file.read()
    return None


def write(path, text):
    with open(path, "wb") as file:
        file.write(text)


def write_given(given, folder):
    """Writes what a run is given into a folder, under the names that a case has. Returns the names of the LEF files."""
    lefs = {f"lef{number}.lef": text for number, text in enumerate(given.lefs, 1)}
    for name, text in {**lefs, "design.def": given.design, "script.txt": given.script}.items():
        write(f"{folder}/{name}", text)
    return [*lefs]


def outcome_of(program, given, memory=0):
    """Runs a program on texts and a script, with an address space of so many bytes where they aren't 0, and returns what comes out.
    The status is None where it doesn't end in time."""
    with tempfile.TemporaryDirectory(prefix="second-reading-") as folder:
        lefs = write_given(given, folder)
        words = [program.path, "--def", "design.def", "--script", "script.txt", "--out", "out.def", *lefs]
        if memory:
            words = ["sh", "-c", 'ulimit -v "$0"; exec "$@"', str(memory >> 10), *words]
        try:
            ran = subprocess.run(words, cwd=folder, stdin=subprocess.DEVNULL, capture_output=True, timeout=program.limit)
        except subprocess.TimeoutExpired:
            return Outcome(None)
        return Outcome(ran.returncode, ran.stdout, ran.stderr, bytes_of(f"{folder}/out.def"))


def first_difference(got, wanted):
    """Returns the first line at which two texts differ: its number, and what stands there and what must."""
    pairs = itertools.zip_longest(io.BytesIO(got), io.BytesIO(wanted), fillvalue=b"")
    number, (line, other) = next((number, pair) for number, pair in enumerate(pairs, 1) if pair[0] != pair[1])
    return f"line {number}: {line[:200]!r}, must be {other[:200]!r}"


def differences(got, wanted):
    """Returns what differs between what comes out and what must, part by part."""
    if got.status is None:
        return ["it doesn't end"]
    found = []
    if got.status != wanted.status:
        found.append(f"status {got.status}, must be {wanted.status}")
    parts = {"standard output": "answers", "standard error": "complaint", "text in the end": "text"}
    for part, name in parts.items():
        one, other = getattr(got, name), getattr(wanted, name)
        if one is None or other is None:
            if one != other:
                found.append(f"there is {'no' if one is None else 'a'} {part}, and must be {'none' if other is None else 'one'}")
        elif one != other:
            found.append(f"{part} at {first_difference(one, other)}")
    return found


def keep(program, given, wanted, name):
    """Keeps what a run is given and what must come out of it in a new folder, as the files of a case. Returns the folder."""
    folder = tempfile.mkdtemp(prefix=f"second-reading-{name}-", dir=program.kept_in)
    write_given(given, folder)
    write(f"{folder}/status", b"%d\n" % wanted.status)
    for file, text in {"stdout": wanted.answers, "stderr": wanted.complaint, "out.def": wanted.text}.items():
        if text:
            write(f"{folder}/{file}", text)
    return folder


def compared(program, given):
    """Returns what must come out of a run, and how what the program gives differs from it."""
    wanted = run(given.lefs, given.design, given.script)
    return wanted, differences(outcome_of(program, given), wanted)


def is_program(path):
    return os.path.isfile(path) and os.access(path, os.X_OK)
