"""Edits of a small crate that must each be judged in a way of their own, and sums that must change or stay."""
import os
import tempfile

from lib.checks import How, Verdict, try_edits
from lib.edits import edits_in
from lib.kit import crates
from lib.records import sum_of

BELOW = """//! What stands below the crate whose edits are tried.
#![tactic(auto)]

ghost use Rattle.std.specs.Prelude.{◌≡◌};

pub fn one() -> u32
    ensures { result ≡ 1 }
{
    1
}
"""

SAMPLE = """//! What the edits of the test change.
#![tactic(auto)]

ghost use Rattle.std.specs.Prelude.{◌≡◌, ◌≤◌};
ghost use Rattle.sample.specs.Doubling.{double};

pub fn seven() -> u32
    ensures { result ≡ 7 }
{
    let made = 7;
    made
}

pub fn eight() -> u32
    ensures { result ≡ 8 }
{
    8
}

pub fn nine() -> u32
    ensures { result ≡ 9 }
{
    9
}

pub fn same_as_seven() -> u32
    ensures { result ≡ 7 }
{
    let called = seven();
    called
}

pub fn once_more() -> u32
    ensures { result ≡ 7 }
{
    let again = seven();
    again
}

pub struct Pair {
    pub first: u32,
    pub second: u32,
}

impl Pair {
    pub fn of(first: u32, second: u32) -> Pair
        ensures first { result.first ≡ first }
        ensures second { result.second ≡ second }
    {
        Pair { first, second }
    }
}

pub fn widened(number: u32) -> u64
    ensures same { result ≡ number }
    ensures small { result ≤ 4294967295 }
{
    number as u64
}

pub fn doubled(number: u32) -> u64
    ensures twice { result ≡ double number }
    ensures low { result ≤ 9000000000 }
{
    let half = widened(number);
    half + half
}

pub fn summed(number: u32) -> u64
    ensures twice { result ≡ double number }
    ensures low { result ≤ 9000000000 }
{
    number as u64 + number as u64
}

pub fn tripled(number: u32) -> u64
    ensures low { result ≤ 13000000000 }
{
    let one = widened(number);
    one + one + one
}
"""

# The answers by hand of some functions, and what they stand on. A search would find what that of `tripled` says.
BESIDE = {
    "specs/Lib.antt": "pub mod Doubling\n",
    "specs/Doubling.antt": """-- Twice a number.
use Rattle.std.specs.Prelude.{ℕ, ◌+◌}

unfoldable pub double : ℕ → ℕ
double n = n + n
""",
    "proofs/Lib.antt": "mod DoublingLemmas\n",
    "proofs/DoublingLemmas.antt": """-- What twice a number is.
use Rattle.std.proofs.Common.{◌≡◌, ◌+◌, ℕ, refl}
use Rattle.sample.specs.Doubling.{double}

pub double_is : (m n : ℕ) → m ≡ n → m + m ≡ double n
unfolding double
double_is m n same = rw same refl
""",
    "proofs/doubled/Answers.antt": """use Rattle.sample.proofs.DoublingLemmas.{double_is}
use Rattle.sample.proofs.doubled.Goals as goal

pub returns-clause-twice : goal.returns-clause-twice
returns-clause-twice c = double_is c.widened-half.result c.args.number c.widened-half.ensures.same
""",
    "proofs/summed/Answers.antt": """use Rattle.std.proofs.Common.{refl}
use Rattle.sample.proofs.DoublingLemmas.{double_is}
use Rattle.sample.proofs.summed.Goals as goal

pub returns-clause-twice : goal.returns-clause-twice
returns-clause-twice c = double_is c.args.number c.args.number refl
""",
    "proofs/tripled/Answers.antt": """use Rattle.std.proofs.Common.{arith}
use Rattle.sample.proofs.tripled.Goals as goal

pub returns : goal.returns
returns c = omega (arith, c.widened-one.ensures.small)
""",
}

HALF, ONE, TIMES = "old: let half = widened(number);", "old: let one = widened(number);", "let one = number as u64 * %s;"
EARLY = "if number > 7 { return summed(%s); } let half = widened(number);"
AT_SEVEN = "if number == 7 { return %s; } let half = widened(number);"


def by_twins(clause, old, new, right):
    """Returns the lines of an edit with a twin."""
    return f"refuted: {clause}\n{old}\nnew: {new}\nright: {right}"


# The name of an edit, its lines, and how it must be judged.
EDITS = [
    ("wrong", "old: let made = 7;\nnew: let made = 6;", Verdict.REFUSED),
    ("wrong_in_another_way", "old:     made\nnew:     made + 1", Verdict.REFUSED),
    ("changes_nothing", "old:     8\nnew:     (8)", Verdict.PROVED),
    ("does_not_compile", "old:     9\nnew:     missing", Verdict.UNREAD),
    ("right_where_its_callee_is_wrong", "old:     called\nnew:     (called)", Verdict.PROVED),
    ("wrong_where_its_callee_is_wrong", "old:     again\nnew:     again + 1", Verdict.REFUSED),
    ("wrong_method", "old: Pair { first, second }\nnew: Pair { first: second, second: first }", Verdict.REFUSED),
    ("changes_a_contract", "old: pub fn eight() -> u32\nnew: pub fn eight() -> u64", Verdict.UNREAD),
    ("open_at_its_clause", "refuted: first\nold: Pair { first, second }\nnew: Pair { first: second, second }", Verdict.REFUSED),
    ("open_at_another_clause", "refuted: first\nold: Pair { first, second }\nnew: Pair { first, second: first }", Verdict.OTHER),
    ("no_proof_fits_in_the_same_shape", "refuted: twice\nold: half + half\nnew: half + 7", Verdict.REFUSED),
    ("its_twin_is_proved", by_twins("twice", HALF, EARLY % "7", EARLY % "number"), Verdict.REFUSED),
    ("its_twin_is_not_proved", by_twins("twice", HALF, AT_SEVEN % 15, AT_SEVEN % 14), Verdict.TWIN),
    ("it_lacks_a_twin", f"refuted: twice\n{HALF}\nnew: {AT_SEVEN % 15}", Verdict.UNREAD),
    ("its_twin_has_other_ways_out", by_twins("twice", HALF, AT_SEVEN % 15, "let half = widened(number);"), Verdict.UNREAD),
    ("open_without_the_answer_that_no_longer_fits", by_twins("ensures", ONE, TIMES % 4, TIMES % 1), Verdict.REFUSED),
    ("proved_without_the_answer_that_no_longer_fits", by_twins("ensures", ONE, TIMES % 0, TIMES % 1), Verdict.PROVED),
    ("text_is_not_there", "old: ten\nnew: eleven", Verdict.UNREAD),
]


def write(path, text):
    os.makedirs(os.path.dirname(path), exist_ok=True)
    with open(path, "w", encoding="utf-8") as file:
        file.write(text)


def make(top):
    """Writes the two crates and the edits. Returns the crate whose edits are tried, and the one below it."""
    write(f"{top}/crates.txt", "below:\nsample: below\n")
    write(f"{top}/crates/below/src/lib.rt", BELOW)
    for path, text in {"src/lib.rt": SAMPLE, **BESIDE}.items():
        write(f"{top}/crates/sample/{path}", text)
    for name, lines, _ in EDITS:
        write(f"{top}/crates/sample/wrong/{name}.edit", f"file: src/lib.rt\n{lines}\n")
    known = crates(top)
    return known["sample"], known["below"]


def told_of_sums(top, crate, edits):
    """Returns whether a sum stays where a body below changes, and changes with a contract below, the crate itself, or an edit."""
    before = sum_of(crate, edits)
    below = f"{top}/crates/below/src/lib.rt"
    write(below, BELOW.replace("    1\n", "    2 - 1\n"))
    yield "a body below keeps the sum", sum_of(crate, edits) == before
    write(below, BELOW.replace("result ≡ 1", "result ≡ 1 + 0"))
    yield "a contract below changes it", sum_of(crate, edits) != before
    write(below, BELOW)
    write(f"{top}/crates/sample/src/lib.rt", SAMPLE.replace("    8\n", "    7 + 1\n"))
    yield "a body of the crate changes it", sum_of(crate, edits) != before
    write(f"{top}/crates/sample/src/lib.rt", SAMPLE)
    write(edits[0].file, "file: src/lib.rt\nold:     9\nnew:     10\n")
    yield "an edit changes it", sum_of(crate, edits) != before


def run():
    """Tries the edits and the sums. Returns how many were judged as they must be, and how many not."""
    with tempfile.TemporaryDirectory(prefix="wrong-bodies-test-") as top:
        crate, below = make(top)
        with open(f"{top}/log", "w", encoding="utf-8") as below.out:
            if below.build_rlib(["--jobs", "1"], anew=False):
                return 0, len(EDITS)
        edits, _ = edits_in(crate, f"{crate.folder}/wrong")
        found = {edit.name: told for edit, told in try_edits(crate, edits, How(kept=False)).found.items()}
        results = []
        for name, _, wanted in EDITS:
            verdict, why = found[f"{name}.edit"]
            results.append((f"{name}: {verdict.value}: {why}", verdict is wanted))
        results += told_of_sums(top, crate, edits)
    for what, is_right in results:
        print(f"wrong_bodies: {'as it must be' if is_right else 'WRONG'}: {what}", flush=True)
    passed = sum(is_right for _, is_right in results)
    return passed, len(results) - passed
