"""What the commands share that time libraries alone: a program over a copy of the crates is written, built and run.

Such a program makes one round of what is timed, and prints pairs of a name and a number; times are in nanoseconds. The crates are
copied to a folder of their own, so that the gate doesn't see the program. With KEPT=FOLDER the copy stays there, and the next run
proves and builds only what has changed since; with --unproved nothing is proved, and the program is that of lib/unproved.py.
"""
import argparse
import contextlib
import os
import subprocess
import sys
import tempfile

from lib import kit, unproved

BENCH = f"{kit.TOP}/bench"
ROUNDS = 5
COUNT_SEMICOLONS = """
/// The semicolons of a text.
fn count_semicolons(text: &[u8]) -> u64 {
    let mut count = 0u64;
    for _ in memchr_iter(b';', text) {
        count = count.saturating_add(1);
    }
    count
}
"""


def arguments(doc):
    """Returns a parser of a command's words, whose usage and first line are those of its docstring."""
    parser = argparse.ArgumentParser(usage=doc.split("usage: ")[1].split("\n")[0], description=doc.split("\n")[0])
    parser.add_argument("--unproved", action="store_true", help="builds the program without a proof")
    return parser


def write_crate(folder, name, uses, source):
    """Copies the crates below to a folder and writes the program beside them. Returns the folder of its crate."""
    below = [it for it in uses.split() if os.path.isdir(f"{kit.TOP}/crates/{it}")]
    subprocess.run([f"{BENCH}/tools/copy_crates", folder, *below], check=True)
    with open(f"{folder}/crates.txt", "a", encoding="utf-8") as file:
        file.write(f"{name}: {uses}\n")
    crate = f"{folder}/crates/{name}"
    os.makedirs(f"{crate}/src", exist_ok=True)
    os.makedirs(f"{crate}/out", exist_ok=True)
    with open(f"{crate}/src/main.rt", "w", encoding="utf-8") as file:
        file.write(source)
    return crate


def build(top, folder, name, is_unproved):
    """Builds the program of a copy."""
    crate = kit.crates(top)[name]
    if is_unproved:
        unproved.build(crate, f"{folder}/out/{name}")
    elif not kit.build_side_by_side(crate.below()) or subprocess.run([f"{BENCH}/rt", "run"], cwd=folder, stdout=sys.stderr).returncode:
        # (with no argument the program ends at once, so 'rt run' only builds it)
        sys.exit(f"{name}: the program isn't built")


@contextlib.contextmanager
def program(name, uses, source, is_unproved):
    """Builds a program over these libraries, and gives its path and a folder for texts."""
    with tempfile.TemporaryDirectory(prefix=f"{name}-") as texts:
        top = os.path.abspath(os.environ.get("KEPT") or f"{texts}/copy")
        folder = write_crate(top, name, uses, source)
        build(top, folder, name, is_unproved)
        yield f"{folder}/out/{name}", texts


def make(maker, number, folder):
    """Has a command of bench/texts write its text, and returns the folder."""
    os.makedirs(folder, exist_ok=True)
    subprocess.run([f"{BENCH}/texts/{maker}", str(number), folder], check=True)
    return folder


def run(words, rounds=ROUNDS):
    """Runs a program so often, and returns the least number of each name that it prints, and as 'peak' the most bytes that a run held."""
    least, peak = {}, 0
    for _ in range(rounds):
        started = subprocess.Popen(words, stdin=subprocess.DEVNULL, stdout=subprocess.PIPE, text=True)
        told = started.stdout.read()
        print(told, end="", file=sys.stderr, flush=True)
        _, ended, used = os.wait4(started.pid, 0)
        started.returncode = os.waitstatus_to_exitcode(ended)
        if started.returncode:
            sys.exit(f"{os.path.basename(words[0])} ended with {started.returncode}")
        said = told.split()
        for name, number in zip(said[::2], map(int, said[1::2])):
            least[name] = min(number, least.get(name, number))
        peak = max(peak, used.ru_maxrss * 1024)
    return {**least, "peak": peak}


def seconds(nanoseconds):
    return f"{nanoseconds / 1e9:.3f} s"


def megabytes(size):
    return f"{size / 1e6:.0f} MB"
