"""Tries of the second reading itself: stand-in programs whose answers are right, or wrong in one part, and cases of wrong answers."""
import contextlib
import io
import os
import sys
import tempfile
from dataclasses import dataclass

from second.cases import Case, wrong_with
from second.comparing import Program, write
from second.random.kinds import made
from second.script import run

TESTS = os.path.dirname(os.path.dirname(os.path.realpath(__file__)))
# A program that answers by the second reading, of which one part may be changed.
STAND_IN = """#!{python}
import sys, time
sys.path.insert(0, {tests!r})
from second.script import run
read = lambda path: open(path, "rb").read()
words = dict(zip(sys.argv[1:7:2], sys.argv[2:7:2]))
told = run([read(it) for it in sys.argv[7:]], read(words["--def"]), read(words["--script"]))
{change}
sys.stdout.buffer.write(told.answers)
sys.stderr.buffer.write(told.complaint)
if told.text is not None:
    open(words["--out"], "wb").write(told.text)
sys.exit(told.status)
"""


@dataclass
class Trial:
    """A change of the stand-in, and what must be told of it: nothing where all is right."""

    name: str
    change: str
    told: str = ""


TRIALS = [
    Trial("right", ""),
    Trial("another status", "told.status = 4", "status 4, must be "),
    Trial("a line less", "told.answers = told.answers.partition(b'\\n')[2]", "standard output at line 1: "),
    Trial("a byte more", "told.answers += b' '", "must be b''"),
    Trial("another line", "told.answers = told.answers.replace(b'total', b'sum')", "standard output at line "),
    Trial("a complaint", "told.complaint += b'DEF: F4 at 0\\n'", "standard error at line 1: b'DEF: F4 at 0\\n', must be b''"),
    Trial("another text", "told.text += b' '", "text in the end at line "),
    Trial("no text", "told.text = None", "there is no text in the end, and must be one"),
    Trial("no end", "time.sleep(100)", "it doesn't end"),
]


def is_told(trial, compare):
    """Returns whether of a stand-in program that is told which must be."""
    with tempfile.TemporaryDirectory(prefix="second-reading-") as folder, contextlib.redirect_stdout(io.StringIO()) as said:
        code = STAND_IN.format(python=sys.executable, tests=TESTS, change=trial.change)
        write(f"{folder}/stand_in", code.encode())
        os.chmod(f"{folder}/stand_in", 0o755)
        failed = compare(Program(f"{folder}/stand_in", 5, folder), made("open", "self-test", 1))
    return failed == bool(trial.told) and trial.told in said.getvalue()


def tries_of_cases():
    """Yields the tries of a case: its right answer, and one of which each part is wrong."""
    given = made("open", "self-test", 1)
    answer = run(given.lefs, given.design, given.script)
    files = {"lef1.lef": given.lefs[0], "design.def": given.design, "script.txt": given.script, "out.def": answer.text}
    files |= {"stdout": answer.answers, "status": b"%d\n" % answer.status}
    yield "a right case", not wrong_with(Case("right", files))
    wrong = {"status": b"3\n", "stdout": b"total 1\n", "stderr": b"DEF: F4 at 0\n", "out.def": b"", "prefixes": b"0 0 reads\n"}
    for name, text in wrong.items():
        yield f"a case with another {name}", bool(wrong_with(Case("wrong", {**files, name: text})))


def self_test(compare):
    """Runs the tries, prints what isn't told as it must be, and returns how many passed and failed. What compares a program with
    the second reading on one run, and returns whether it differs, is given."""
    results = [(it.name, is_told(it, compare)) for it in TRIALS]
    results += tries_of_cases()
    for name, is_right in results:
        if not is_right:
            print(f"{name}: not told as it must be")
    passed = sum(is_right for _, is_right in results)
    return passed, len(results) - passed
