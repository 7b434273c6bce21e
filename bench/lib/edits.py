"""Edits that make one function wrong, and rounds of edits that are tried in one check.

An edit is a file with a line 'file: src/NAME.rt' and then pairs of lines 'old: TEXT' and 'new: TEXT', as 'rt must-fail' takes
it; each TEXT stands once in that file, or else in the function that a line 'fn: PATH' names. All pairs change the body of one
function: that in which the first text stands, or the named one, where the text stands in none, or where a check has another
name for it than its file, impl and name give.

A line 'refuted: CLAUSE' says which clause of the function the edit breaks: the clause's name, 'ensures' for a function's only
one, or 'invariant' for that of a type that the function changes or makes. A line 'right: TEXT' behind a 'new:' line has what
stands there in the edit's twin, whose meaning is right and whose ways out are the edit's: the same words lead out or apart, in the
same order. It tells a clause that is broken from a proof by hand that no longer fits. A function as it stands is the twin of an edit
that keeps its conditions too, and as many calls and operators; another edit wants one where the clause has an answer by hand.
"""
import os
import re
from collections import Counter
from dataclasses import dataclass, field, replace

FUNCTION = re.compile(r'( *)(?:pub(?:\([^)]*\))? )?(?:const |unsafe |extern "C" )*fn (\w+)')
BLOCK = re.compile(r"( *)(?:pub(?:\([^)]*\))? )?(?:unsafe )?(impl|trait|mod)\b")
CLAUSE = re.compile(r" *(?:requires|ensures|ghost)\b")
NAME = re.compile(r"[A-Za-z0-9_-][A-Za-z0-9_.-]*\.edit")
OPERATOR = re.compile(r"[-+*/%<>!|^]|[-+*/%<>=!|^]=|<<|>>")
LEADS = {"if", "else", "match", "return", "while", "for", "loop", "break", "continue", "=>", "?", "&&", "||"}
WORDS = {*LEADS, "let", "mut", "move", "in", "as", "ref"}
TOKEN = re.compile(r'b?"(?:[^"\\]|\\.)*"|\w+|=>|->|::|\.\.=?|&&|\|\||[-+*/%<>=!&|^]=|<<|>>|\S')


@dataclass(eq=False)
class Edit:
    """An edit, and the function that it makes wrong, with its first and last line. `why` says what is wrong with the edit itself.

    `rights` are the pairs of its twin, if it has one. `misfits` are the answers by hand that a check said don't fit the edited
    function, and `left_out` those without which it is checked.
    """

    crate: object
    file: str
    path: str = ""
    function: str = ""
    pairs: list = field(default_factory=list)
    first: int = 0
    last: int = 0
    why: str = ""
    refuted: str = ""
    rights: list = field(default_factory=list)
    misfits: set = field(default_factory=set)
    left_out: set = field(default_factory=set)

    @property
    def name(self):
        return os.path.basename(self.file)

    @property
    def proofs(self):
        """The folder of what is proved of the function by hand."""
        return f"proofs/{self.function.replace('::', '/')}/"

    def twin(self):
        """Returns the edit that makes the twin."""
        return replace(self, pairs=self.rights, rights=[], refuted="", misfits=set(), left_out=set())

    def applied(self, text):
        """Returns the text with this edit's pairs, or None where they don't fit in it."""
        for old, new in self.pairs:
            if text.count(old) == 1:
                text = text.replace(old, new)
                continue
            lines = text.split("\n")
            within = "\n".join(lines[self.first - 1 : self.last])
            if not self.first or within.count(old) != 1:
                return None
            text = "\n".join([*lines[: self.first - 1], within.replace(old, new), *lines[self.last :]])
        return text


def source_of(edit):
    """Returns the text of the file that an edit changes."""
    with open(f"{edit.crate.folder}/{edit.path}", encoding="utf-8") as file:
        return file.read()


def read_edit(crate, file):
    """Returns the edit of a file."""
    edit, old = Edit(crate, file), ""
    with open(file, encoding="utf-8") as it:
        lines = it.read().split("\n")
    for line in lines:
        word, _, rest = line.partition(": ")
        if word == "file":
            edit.why = "it changes two files" if edit.path not in ("", rest.strip()) else edit.why
            edit.path = rest.strip()
        elif word == "fn":
            edit.function = rest.strip()
        elif word == "refuted":
            edit.refuted = rest.strip()
        elif word == "old":
            old = rest
        elif line.startswith("new:"):
            edit.pairs.append((old, line[len("new:") :].removeprefix(" ")))
            edit.rights.append(edit.pairs[-1])
        elif line.startswith("right:") and edit.rights:
            edit.rights[-1] = (old, line[len("right:") :].removeprefix(" "))
    edit.rights = [] if edit.rights == edit.pairs else edit.rights
    edit.why = edit.why or bad_place(edit)
    if not edit.why:
        find_function(edit)
    edit.why = edit.why or bad_text(edit) or bad_twin(edit)
    return edit


def bad_place(edit):
    """Returns what is wrong with the file that an edit names, and with its pairs by themselves."""
    if not edit.path.startswith("src/") or not os.path.isfile(f"{edit.crate.folder}/{edit.path}"):
        return "it changes no file of src/"
    if not edit.pairs or not all(old for old, _ in edit.pairs):
        return "it has no pair of lines 'old:' and 'new:', or a 'new:' without its 'old:'"
    times = source_of(edit).count(edit.pairs[0][0])
    return "" if times == 1 or times and edit.function else f"an 'old:' text is in {edit.path} {times} times, and not once"


def bad_text(edit):
    """Returns what is wrong with an edit's pairs in its function."""
    text = source_of(edit)
    made = edit.applied(text)
    if made is None:
        return "its pairs don't fit one after the other, each in one place"
    return "it changes nothing" if made == text else ""


def bad_twin(edit):
    """Returns what is wrong with an edit's twin, or that it lacks one."""
    if not edit.refuted:
        return "it has a line 'right:' and no line 'refuted:'" if edit.rights else ""
    if edit.rights:
        same = all(ways_out(right) == ways_out(new) for (_, right), (_, new) in zip(edit.rights, edit.pairs))
        return "" if same else "its twin has other ways out"
    if all(shape(old) == shape(new) for old, new in edit.pairs) or edit.refuted not in {clause_of(it) for it in answers(edit)}:
        return ""
    return f"{edit.refuted} has an answer by hand, and the edit another shape than the function: it wants a line 'right:'"


def ways_out(text):
    """Returns the words of a text that lead out or apart."""
    return [it for it in TOKEN.findall(text) if it in LEADS]


def shape(text):
    """Returns the ways out of a text, the conditions that lead to them, and how many calls, indexes, blocks and operators it has."""
    tokens, kinds = TOKEN.findall(text), Counter()
    for at, token in enumerate(tokens):
        before = tokens[at - 1] if at else ""
        if token in "([":
            kinds[token] += bool(before in (")", "]") or re.fullmatch(r"\w+", before) and before not in WORDS)
        elif token == "{" or OPERATOR.fullmatch(token) and token not in LEADS:
            kinds["{" if token == "{" else "operator"] += 1
    return ways_out(text), re.findall(r"\b(?:if|while|match)\b[^{]*", text), +kinds


def clause_of(goal):
    """Returns the clause of a function that a goal is of, by the goal's name, or nothing where it is of none."""
    if goal.startswith("returns"):
        named = re.search(r"-clause-(\w+)$", goal)
        return named[1] if named else "ensures"
    return "invariant" if goal.startswith("invariant_of") else ""


def answers(edit):
    """Returns the goals of the edit's function that have an answer by hand."""
    file = f"{edit.crate.folder}/{edit.proofs}Answers.antt"
    if not os.path.isfile(file):
        return []
    with open(file, encoding="utf-8") as it:
        return re.findall(r"(?m)^pub (\S+) :", it.read())


def edits_in(crate, folder):
    """Returns the edits of a folder, by their names, and the files there that are none. With those of a crate's wrong/ go its named
    ones, which stand in must-fail/, since 'rt ci' asks only whether something is left open."""
    names = sorted(os.listdir(folder)) if os.path.isdir(folder) else []
    good = [it for it in names if NAME.fullmatch(it)]
    edits = [read_edit(crate, f"{folder}/{it}") for it in good]
    if folder == f"{crate.folder}/wrong" and os.path.isdir(f"{crate.folder}/must-fail"):
        named, _ = edits_in(crate, f"{crate.folder}/must-fail")
        for edit in named:
            edit.why = edit.why or ("" if edit.refuted else "a named wrong body lacks its line 'refuted:'")
        edits += named
    return edits, [it for it in names if it not in good]


def end_of(lines, begin):
    """Returns the line at which the function ends that begins there, by the layout of rt fmt."""
    indent = FUNCTION.match(lines[begin])[1]
    for at in range(begin, len(lines)):
        without_body = at > begin and lines[at].startswith(f"{indent}fn") and lines[at].rstrip().endswith(";")
        if lines[at] == indent + "}" or without_body:
            return at
    return len(lines)


def find_function(edit):
    """Finds the function in whose body the edit's first text stands, or the one that the edit names."""
    text = source_of(edit)
    lines = text.split("\n")
    places = [it for it in range(len(lines)) if edit.pairs[0][0] in lines[it]]
    begins = [it for it in range(len(lines)) if FUNCTION.match(lines[it])]
    holds = [it for it in reversed(begins) if any(it <= at <= end_of(lines, it) for at in places)]
    if edit.function:
        named = [it for it in begins if FUNCTION.match(lines[it])[2] == edit.function.split("::")[-1]]
        begin = next((it for it in [*holds, *named] if it in named), None)
    else:
        begin = next(iter(holds), None)
    if begin is None:
        edit.why = "its file has no such function" if edit.function else "its text stands in no function: name one by a line 'fn: PATH'"
        return
    indent = FUNCTION.match(lines[begin])[1]
    edit.first, edit.last = begin + 1, end_of(lines, begin) + 1
    while edit.first > 1 and lines[edit.first - 2].startswith(f"{indent}#["):
        edit.first -= 1
    body = body_of(lines, begin, edit.last)
    if any(begin <= at < body for at in places):
        edit.why = "it changes a signature or a contract"
    # (where an impl is for a type like Sequence<u8, A>, a check has other names than those that the layout gives)
    edit.function = edit.function or path_of(edit, lines, begin)


def path_of(edit, lines, begin):
    """Returns the path of the function at a line, in its crate."""
    return "::".join([*modules_of(edit.path), *blocks_round(lines, begin), FUNCTION.match(lines[begin])[2]])


def body_of(lines, begin, end):
    """Returns the line in which a function's body begins."""
    indent = FUNCTION.match(lines[begin])[1]
    opens = lambda line: line == indent + "{" or line.endswith(" {") and not CLAUSE.match(line)
    return next((it for it in range(begin, end) if opens(lines[it])), begin)


def modules_of(path):
    """Returns the names of the modules that a file of src/ stands for."""
    return [] if path in ("src/lib.rt", "src/main.rt") else re.sub(r"(/mod)?\.rt$", "", path[len("src/") :]).split("/")


def blocks_round(lines, begin):
    """Returns the names of the impls, traits and modules in which the function at a line stands, the outermost first."""
    names, indent = [], len(FUNCTION.match(lines[begin])[1])
    for at in range(begin, -1, -1):
        found = BLOCK.match(lines[at])
        if found and len(found[1]) < indent and not lines[at].rstrip().endswith(";"):
            indent = len(found[1])
            last = next(it for it in range(at, len(lines)) if lines[it].rstrip().endswith("{"))
            names.insert(0, block_name(" ".join(lines[at : last + 1]), found[2]))
    return names


def block_name(head, kind):
    """Returns the name under which a check lists the functions of a block: an impl of a trait has that of its type and the trait's."""
    if kind != "impl":
        return re.search(rf"\b{kind} (\w+)", head)[1]
    plain, depth = "", 0
    for letter in head[head.index("impl") + len("impl") :].replace("->", ""):
        depth += (letter == "<") - (letter == ">")
        plain += letter if not depth and letter != ">" else ""
    trait, _, of = re.split(r"\bwhere\b|\{", plain)[0].rpartition(" for ")
    last_word = lambda path: re.sub(r"\W", "", path.split("::")[-1])
    return last_word(of) + last_word(trait)


def rounds_of(edits, most):
    """Returns rounds of at most so many edits: in each at most one edit of a function, and the texts with all its edits made."""
    left, rounds = [*edits], []
    while left:
        taken, later, texts = {}, [], {}
        for edit in left:
            made = edit.applied(texts.get(edit.path) or source_of(edit))
            if edit.function in taken or made is None or len(taken) >= most:
                later.append(edit)
            else:
                taken[edit.function], texts[edit.path] = edit, made
        rounds.append(([*taken.values()], texts))
        left = later
    return rounds
