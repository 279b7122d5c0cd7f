"""The rule by which an edit is refused. A record of refusals holds for the bytes of this file.

A check tries many edits, each in a function of its own: a function is proved from the contracts of
those that it calls, so what one edit changes is no part of the proof of another function. An edit
is refused where a goal or an answer of the very function that it changes is not proved. Where that
function failed only because it calls another one that an edit changes, or where a second edit
changes it, the edit is tried in a later check. One that also changes a type, a constant or a clause
of a contract, from which others are proved, has a check of its own. An edit that changes no
function is tried alone, by the rule of `rt ci`, and so is one that no check refused. The crate must
be proved with no edit: its library shows that, or a check at the end over the same kept work.
"""
import difflib
import functools
import os
import re
import shutil
import subprocess
import tempfile

from kit import rt

FUNCTION = re.compile(
    r"( *)(?:pub(?:\([a-z]+\))? )?(?:const )?(?:unsafe )?(?:extern \"C\" )?fn (\w+)"
)
BLOCK = re.compile(
    r"impl(?:<.*?>)? (?:(?:\w+::)*(\w+)(?:<.*>)? for )?&?(?:'\w+ )?(?:\w+::)*(\w+)"
)
TYPE = re.compile(r"^(?:pub(?:\(\w+\))? )?(?:struct|enum) (\w+)", re.M)
CLAUSE = re.compile(r"\s*(?:requires|ensures|ghost)\b")
# A line outside of functions that is no part of another function's proof.
ALONE_OF_ITSELF = re.compile(rf"\s*(?://|use |ghost use |}}?$)|{FUNCTION.pattern}")
AT = re.compile(r"(?:note: )?(?:\./)?(src/\S+|proofs/\S+):(\d+):\d+: (.*)")
# What a proof file says where an edit took away a name, and not a meaning.
NAMES = re.compile(r"has no field|is not in scope|has no `|was not admitted|cannot be read")


class Function:
    """A function of a source file: its lines, and where its proof files may stand."""

    def __init__(self, file, lines, name, block):
        self.file, self.name, self.block = file, name, block
        self.first, self.last, self.body = lines

    def holds(self, path, line):
        """Returns whether a message at this line of this file speaks of the function."""
        if path.startswith("src/"):
            return path == self.file and self.first <= line <= self.last
        parts = [re.split(r"[+]", it)[0] for it in path.split("/")[1:-1] if it != "fn"]
        module = re.sub(r"^src/|\.rt$", "", self.file).split("/")
        module = [it for it in module if it not in ("lib", "main")]
        if not self.block:
            return parts[: len(module) + 1] == [*module, self.name]
        # (a method stands below its type, which may be of another module than its block)
        trait, of = self.block
        named = [above for above, it in zip(parts, parts[1:]) if it == self.name]
        return any(it.startswith(of + trait) if trait else it == of for it in named)


def functions_of(file, text):
    found, block, lines, at = [], (), text.split("\n"), 0
    while at < len(lines):
        opened = BLOCK.match(lines[at])
        if opened or lines[at].startswith("}"):
            block = (opened[1] or "", opened[2]) if opened else ()
        function = FUNCTION.match(lines[at])
        end = at
        if function:
            outer = function[1]
            end = end_of(lines, at, outer)
            first = at
            while first and re.match(r" *(///|#|[^ /}].*[,(]$|\)\])", lines[first - 1]):
                first -= 1
            places = (first + 1, end + 1, body_of(lines, at, end, outer))
            found.append(Function(file, places, function[2], block if outer else ()))
        at = end + 1
    return found


def end_of(lines, at, outer):
    """Returns the place of the last line of the function that begins at a line. A declaration,
    which has no body, may end with its last clause."""
    closes, has_body = (outer + "}", outer + ";"), False
    while not lines[at].startswith(closes) and not is_whole(lines[at], outer):
        has_body = has_body or lines[at].endswith("{")
        if not has_body and lines[at].endswith("};"):
            break
        at += 1
    return at


def body_of(lines, at, end, outer):
    """Returns the number of the line at which the body of a function begins."""
    opens = (f"{outer}{{", f"{outer}{{}}")
    inside = (it for it in range(at, end + 1) if lines[it] in opens)
    declared = end + 1 if lines[end].endswith(";") else at
    return next(inside, declared) + 1


def is_whole(line, outer):
    """Returns whether a function with a body or a declaration ends with this very line."""
    is_inside = len(line) - len(line.lstrip()) != len(outer)
    return not is_inside and bool(re.search(r"\S.*(\}|;)$", line))


class Edit:
    """An edit: its name, why it cannot be applied, the lines that it changes, the functions that
    hold them, and once it was tried, by which words it is refused."""

    def __init__(self, crate, path):
        self.path, self.words, self.had_own_check = path, [], False
        self.name = f"{crate.name}/{os.path.basename(path)[: -len('.edit')]}"
        texts, self.bad = rt.read_edit(path, crate.folder)
        self.texts = texts or {}
        self.lines = {file: changes(crate, file, text) for file, text in self.texts.items()}
        functions = [it for file in self.lines for it in functions_of(file, source(crate, file))]
        changed = [it for it in functions if any(touches(it, *at) for at in self.lines[it.file])]
        self.functions = changed
        self.places = {(it.file, it.first) for it in changed}
        self.is_shared = any(is_shared(crate, functions, *it) for it in self.lines.items())


def source(crate, file):
    with open(f"{crate.folder}/{file}", encoding="utf-8") as it:
        return it.read()


def changes(crate, file, text):
    """Returns the runs of lines that the edit changes: the first line, the line after the last one,
    and the new lines."""
    old, new = source(crate, file).split("\n"), text.split("\n")
    found = difflib.SequenceMatcher(None, old, new, autojunk=False).get_opcodes()
    return [(a + 1, b + 1, new[c:d]) for kind, a, b, c, d in found if kind != "equal"]


def is_shared(crate, functions, file, runs):
    """Returns whether an edit changes what other functions are proved from: what stands outside of
    functions, but for comments, imports and new functions of a line, or a clause of a contract."""
    lines = source(crate, file).split("\n")
    here = [it for it in functions if it.file == file]
    for first, end, new in runs:
        within = [it for it in here if touches(it, first, end, new)]
        outside = [it for it in range(first, end) if not any(f.first <= it <= f.last for f in here)]
        changed = [lines[it - 1] for it in outside] + (new if not within else [])
        is_free = all(ALONE_OF_ITSELF.match(it) for it in changed)
        if not is_free or any(changes_clause(lines, it, first, end, new) for it in within):
            return True
    return False


def changes_clause(lines, function, first, end, new):
    """Returns whether a change of the lines from first to end is one of a function's clauses, which
    stand between its name and its body."""
    head = range(function.first, function.body)
    clauses = [it for it in head if CLAUSE.match(lines[it - 1])]
    is_of_old = bool(clauses) and any(clauses[0] <= it < function.body for it in range(first, end))
    is_in_head = function.first < first <= function.body
    return is_of_old or is_in_head and any(CLAUSE.match(it) for it in new)


def touches(function, first, end, _):
    return first <= function.last and max(end, first + 1) > function.first


def check(crate, edits, *more):
    """Returns the status of a check of the crate with these edits, what it printed, and the
    functions of each edit. The check gets more arguments."""
    with tempfile.TemporaryDirectory(prefix="edits-") as room:
        for part in rt.rtlib.PARTS:
            if os.path.isdir(f"{crate.folder}/{part}"):
                shutil.copytree(f"{crate.folder}/{part}", f"{room}/{part}")
        marks = {}
        for file in {file for it in edits for file in it.lines}:
            text = apply(crate, file, edits, marks)
            with open(f"{room}/{file}", "w", encoding="utf-8") as it:
                it.write(text)
        words = [*crate.words(["--jobs", "1"], keeps=False), *more]
        how = {"cwd": room, "stdin": subprocess.DEVNULL, "errors": "replace"}
        how |= {"stdout": subprocess.PIPE, "stderr": subprocess.STDOUT}
        call = [*rt.rtlib.guarded(), rt.rtlib.RATTLE, "check", *words]
        ran = subprocess.run(call, **how)
    return ran.returncode, ran.stdout, {it: [marks[at] for at in it.places] for it in edits}


def apply(crate, file, edits, marks):
    """Returns the text of a file with all edits of it, and marks where its functions then stand."""
    text = source(crate, file).split("\n")
    marks.update({(file, it.first): it for it in functions_of(file, "\n".join(text))})
    runs = [run for it in edits for run in it.lines.get(file, [])]
    for first, end, new in sorted(runs, reverse=True, key=lambda it: it[:2]):
        text[first - 1 : end - 1] = new
        move(marks, file, first, end, len(new) - (end - first))
    return "\n".join(text)


def move(marks, file, first, end, by):
    """Moves the functions of a file by the lines that a change of the lines from first to end
    adds."""
    for (inside, _), it in marks.items():
        if inside == file and it.first >= end:
            it.first += by
        if inside == file and it.last >= end - 1 and it.last >= first:
            it.last += by


def refusals(said):
    """Returns each message on something that is not proved, with its file and line."""
    found = [AT.match(line) for line in said.split("\n")]
    return [(it[1], int(it[2]), it[3]) for it in found if it and is_refusal(it[1], it[3])]


def is_refusal(path, words):
    if path.startswith("src/"):
        return "not proved" in words or "found no proof" in words
    return words.startswith("error") and not NAMES.search(words)


def round_of(edits):
    """Returns edits of which no two change one function, or one text. One that had a check of its
    own is not among them."""
    taken, now = set(), []
    for it in edits:
        is_free = it.places and not it.is_shared and not it.had_own_check
        if is_free and not it.places & taken:
            now.append(it)
            taken |= it.places
    return now


def try_round(crate, edits, kept):
    """Returns the edits that one check of them all refuses, each in its own function; their words
    are noted. The check is of the whole crate over the work of a folder, or with no folder of their
    functions alone, and of those that these call. Nothing that was kept serves such a check."""
    if kept and len(edits) == 1:
        edits[0].had_own_check = True
    more = ["--incremental", kept] if kept else only(crate, edits)
    status, said, functions = check(crate, edits, *more)
    last = said.rstrip().split("\n")[-1]
    is_refused = status == 1 and (last.endswith("logic=not-proved") or last.startswith("only="))
    lines = refusals(said) if is_refused else []
    refused = [it for it in edits if is_refused_by(lines, it, functions[it])]
    if not lines and len(edits) > 1:
        # One of them does not compile: half of them at a time.
        half = len(edits) // 2
        return try_round(crate, edits[:half], kept) + try_round(crate, edits[half:], kept)
    return refused


def only(crate, edits):
    """Returns the words by which a check is of the functions of edits alone."""
    paths = [path_of(crate, it) for edit in edits for it in edit.functions]
    return [word for path in dict.fromkeys(paths) for word in ("--only", path)]


def is_refused_by(lines, edit, functions):
    """Returns whether messages refuse an edit in its own functions, and notes their words."""
    own = [at for at in lines if any(it.holds(*at[:2]) for it in functions)]
    edit.words = [f"{file}:{line}: {words}" for file, line, words in own] or edit.words
    return bool(own)


def try_only(crate, edits):
    """Tries edits by checks of their functions alone, and returns those that are refused."""
    left, refused = [it for it in edits if it.places and not it.bad], []
    for it in [it for it in left if it.is_shared]:
        refused += try_round(crate, [it], None)
    left = [it for it in left if not it.is_shared]
    while round_of(left):
        found = try_round(crate, round_of(left), None)
        if not found:
            break
        left = [it for it in left if it not in found]
        refused += found
    return refused


def home_of(crate, function):
    """Returns the file whose module a check names before a function: for a method of a type's own,
    that of the type."""
    trait, of = function.block or ("", "")
    if not of or trait:
        return function.file
    homes = types_of(crate.folder).get(of, [])
    return homes[0] if len(homes) == 1 else function.file


@functools.cache
def types_of(folder):
    """Returns the files that declare each type of a crate."""
    found = {}
    for at, _, names in os.walk(f"{folder}/src"):
        for file in (os.path.relpath(f"{at}/{it}", folder) for it in names):
            with open(f"{folder}/{file}", encoding="utf-8") as text:
                for name in TYPE.findall(text.read()):
                    found.setdefault(name, []).append(file)
    return found


def path_of(crate, function):
    """Returns the name of a function below its crate, as a check prints it."""
    parts = re.sub(r"^src/|\.rt$", "", home_of(crate, function)).split("/")
    parts = [it for it in parts if it not in ("lib", "main")]
    if function.block:
        trait, of = function.block
        parts.append(of + trait)
    return "::".join([*parts, function.name])


def try_alone(crate, edit, kept):
    """Returns whether the prover refuses the crate with this edit, by the rule of rt."""
    is_refused, said = rt.must_fail(crate, edit.path, ["--jobs", "1"], kept)
    edit.words = [f"alone, {said.partition(': ')[2]}"]
    return is_refused


def try_all(crate, edits, kept, say):
    """Tries a crate's edits over the work of a folder, and returns those that are refused, and
    whether the crate is proved with no edit."""
    left, refused = [it for it in edits if not it.bad], []
    for it in [it for it in left if it.is_shared and it.places]:
        refused += try_round(crate, [it], kept)
    left = [it for it in left if it not in refused]
    while True:
        found = try_round(crate, round_of(left), kept) if round_of(left) else []
        left = [it for it in left if it not in found]
        refused += found
        say(f"{crate.name}: {len(refused)} refused, {len(left)} left")
        if not found:
            break
    for it in left:
        say(f"{it.name}: tried alone")
    refused += [it for it in left if try_alone(crate, it, kept)]
    status, said, _ = check(crate, [], "--incremental", kept)
    return refused, status == 0 and "logic=proved" in said
