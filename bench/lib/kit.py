"""The kit's command rt as a module, and the crates of this repository as it sees them."""
import functools
import importlib.machinery
import importlib.util
import os
import re
import shutil
import sys
import tempfile
import threading

sys.dont_write_bytecode = True
TOP = os.path.dirname(os.path.dirname(os.path.dirname(os.path.realpath(__file__))))
# Bytes up to which an estimate is taken as it is.
LARGE = 3_500_000_000


def load_rt():
    """Returns rt, which is a script in Python, as a module."""
    file = shutil.which("rt") or sys.exit("there is no rt on PATH")
    loader = importlib.machinery.SourceFileLoader("rt", os.path.realpath(file))
    module = importlib.util.module_from_spec(importlib.util.spec_from_loader("rt", loader))
    loader.exec_module(module)
    for name in ("stamp", "below"):
        setattr(module.rtlib.Crate, name, asked_once(getattr(module.rtlib.Crate, name)))
    module.need = half_where_large(module.need)
    return module


def half_where_large(need):
    """Returns rt's estimate of the memory that a check takes, halved where it is large.

    No check of such a crate took much more than half of it. By the whole of it followed_nets, which takes 3 GB, would be proved by one
    processor as long as 11 aren't free, and all that stands above it would wait (docs/GATE.md).
    """
    return lambda crate: max(need(crate) / 2, min(need(crate), LARGE))


def asked_once(method):
    """Returns a method that asks the same of the crates below, so that one call asks each crate once.

    The kit's own asks a crate once for each path down to it, and the paths to a crate are many more than the crates. Nothing is
    kept from one call to the next, so a file that changes between them is read again.
    """
    call = threading.local()

    @functools.wraps(method)
    def asked(crate):
        is_first = not hasattr(call, "known")
        if is_first:
            call.known = {}
        try:
            if id(crate) not in call.known:
                call.known[id(crate)] = crate, method(crate)
            return call.known[id(crate)][1]
        finally:
            if is_first:
                del call.known

    return asked


rt = load_rt()


def kit_line():
    """Returns the kit's one-line identity."""
    with open(f"{rt.KIT}/KIT-ID", encoding="utf-8") as file:
        return file.read().strip()


def logic_line():
    """Returns the identity of the kit's logic: its library and the kernel's rules, which decide what can be proved."""
    return re.search(r"logic \w+", kit_line())[0]


def crates(top=TOP):
    """Returns the crates of a repository by their names, lowest first."""
    return {it.name: it for it in rt.rtlib.crates_below(top)}


def lines_of(crate):
    """Returns how many lines of code, specs and proofs a crate has."""
    return sum((rt.rtlib.text_of(it) or "").count("\n") for it in rt.rtlib.files_of(crate.folder))


def build_side_by_side(wanted):
    """Builds the libraries of these crates that aren't built, over kept work, each once those below it are. Returns whether all stand."""

    def build(crate, given, jobs):
        if not all(given[it.name, "proof"] for it in crate.deps):
            return False
        with tempfile.TemporaryFile("w+", errors="replace") as crate.out:
            is_built = not crate.build_rlib(["--jobs", str(jobs)], anew=False)
            if not is_built:
                crate.out.seek(0)
                print(f"{crate.out.read()[-3000:]}\n{crate.name} isn't built", file=sys.stderr, flush=True)
        return is_built

    tasks = {}
    for crate in wanted:
        waits = [(it.name, "proof") for it in crate.deps]
        tasks[crate.name, "proof"] = (waits, lines_of(crate), rt.need(crate), lambda given, jobs, it=crate: build(it, given, jobs))
    return all(rt.in_lanes(tasks).values())
