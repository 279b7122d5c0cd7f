"""The record of refusals, tests/edits/refused: which edits were refused, and over what.

For each logic it has a line `logic LOGIC`. Below it is for each crate a line `CRATE BASE`, and
below that a line `    NAME EDIT` for each refused edit, sorted. EDIT is the sum of the edit's
bytes. BASE is the sum of all else that a refusal rests on beside the logic: the rule, the crate's
files, and what can be seen of each crate of this repository below it. A line counts while both
sums are those of the files at hand, under the logic of the kit at hand. No name of a kit counts.
"""
import functools
import hashlib
import os
import re
import subprocess

import rule
from kit import ROOT, rt

FILE = f"{ROOT}/tests/edits/refused"
HEAD = """\
# Edits that were refused. `tests/edits/run --record` writes this file. README.md beside it says
# what a line means.
"""
# What is said where the prover came to an end of its steps, its memory or its stack. That `search`
# gave up is not among it: its limits are numbers of lemmas, the same on each machine.
LIMIT = re.compile(r"ran out of|could not tell|no verdict|too many steps|out of memory")
# An import of Rust names, which no other crate sees. (One for the names of clauses is `ghost use`.)
IMPORT = re.compile(r"(?m)^use ([^;]*);\n")
# The files of proofs/ that hold the proof of one function, which no other crate can read.
OF_FUNCTION = ("Answers.antt", "Invariants.antt", "Proof.antt")
# How a line of the record holds.
STATES = HOLDS, OTHER_LOGIC, VOID = "holds", "of another logic", "void"


@functools.cache
def logic():
    """Returns the sum of the logic of the kit at hand, the last word of `rt version`."""
    ran = subprocess.run(["rt", "version"], capture_output=True, text=True, check=True)
    return ran.stdout.split()[-1]


def read_all(path=FILE):
    """Returns the record of each logic."""
    logics, found, lines = {}, {}, {}
    if not os.path.isfile(path):
        return logics
    with open(path, encoding="utf-8") as file:
        for line in file.read().splitlines():
            name, _, rest = line.strip().partition(" ")
            if line.startswith("    "):
                lines[name] = rest
            elif name == "logic":
                found = logics.setdefault(rest, {})
            elif name and not line.startswith("#"):
                lines = {}
                found[name] = (rest, lines)
    return logics


def read():
    """Returns the record of the logic at hand: for each crate its base, and the sum of each edit by
    its name."""
    return read_all().get(logic(), {})


def write(record, path=FILE):
    """Writes the record of the logic at hand, and keeps those of other logics."""
    logics = read_all(path) | {logic(): record}
    text = HEAD + "".join(f"logic {it}\n{lines_of(logics[it])}" for it in sorted(logics))
    part = f"{path}.part"
    with open(part, "w", encoding="utf-8") as file:
        file.write(text)
    os.replace(part, path)


def lines_of(record):
    text = ""
    for crate, (base, lines) in sorted(record.items()):
        text += f"{crate} {base}\n" if lines else ""
        text += "".join(f"    {name} {lines[name]}\n" for name in sorted(lines))
    return text


def sum_of_edit(edit):
    with open(edit.path, "rb") as file:
        return hashlib.sha256(file.read()).hexdigest()


def short(edit):
    """Returns the name of an edit within its crate."""
    return edit.name.partition("/")[2]


def is_by_limit(edit):
    """Returns whether the prover refused an edit only since it came to one of its limits."""
    return all(LIMIT.search(it) for it in edit.words)


def why(edit):
    """Returns the words by which an edit is refused, those on a meaning before those on a limit or
    on a search that gave up."""
    found = [it for it in edit.words if not LIMIT.search(it)]
    told = [it for it in found if "gave up" not in it]
    return next(iter(told + found + edit.words), "")


def has(record, crate, base, edit):
    """Returns whether the record of a logic has a line of the edit with these two sums."""
    recorded, lines = record.get(crate.name, ("", {}))
    return recorded == base and lines.get(short(edit)) == sum_of_edit(edit)


def state(logics, crate, base, edit):
    """Returns whether a line of the edit holds, holds but for the logic, or is void."""
    if has(logics.get(logic(), {}), crate, base, edit):
        return HOLDS
    return OTHER_LOGIC if any(has(it, crate, base, edit) for it in logics.values()) else VOID


def base_of(crate):
    """Returns the sum of all but the edit and the logic that a refusal in the crate rests on."""
    found = hashlib.sha256()
    add(found, "rule.py", bytes_of(rule.__file__))
    for path in rt.rtlib.files_of(crate.folder):
        add(found, os.path.relpath(path, crate.folder), bytes_of(path))
    for below in sorted(crate.below(), key=lambda it: it.name):
        add(found, below.name, sum_of_seen(below.folder).encode())
    return found.hexdigest()


@functools.cache
def sum_of_seen(folder):
    """Returns the sum of what a crate above can read of a library: its specs, its lemmas, and its
    sources as `seen_of` returns them."""
    found = hashlib.sha256()
    for path in rt.rtlib.files_of(folder):
        name = os.path.relpath(path, folder)
        if path.endswith(".rt"):
            add(found, name, seen_of(name, bytes_of(path).decode()).encode())
        elif not name.startswith("proofs/") or os.path.basename(path) not in OF_FUNCTION:
            add(found, name, bytes_of(path))
    return found.hexdigest()


def seen_of(file, text):
    """Returns a source, in the layout of `rattle fmt`, without comments, empty lines, bodies of
    functions, functions that no other crate can call, and imports that only these name."""
    lines, inside = text.split("\n"), set()
    for it in rule.functions_of(file, text):
        if is_hidden(lines, it):
            inside.update(range(it.first - 1, it.last))
        else:
            inside.update(range(body_of(lines, it), it.last - 1))
    seen = (line for at, line in enumerate(lines) if at not in inside and line.strip())
    left = "".join(f"{line}\n" for line in seen if not line.lstrip().startswith("//"))
    named = {*re.findall(r"\w+", IMPORT.sub("", left))}
    return IMPORT.sub(lambda it: it[0] if brings(it[1], named) else "", left)


def is_hidden(lines, function):
    """Returns whether no other crate can call a function: it is not public, and of no trait. (The
    library of a crate has no contract of it.)"""
    head = next(it for it in lines[function.first - 1 :] if rule.FUNCTION.match(it))
    is_own = function.block and not function.block[0] or not head.startswith(" ")
    return is_own and not head.lstrip().startswith("pub ")


def brings(path, names):
    """Returns whether an import of a path brings one of these names, as a glob may."""
    leaves = re.sub(r"(\w+)::\{self\b", r"{\1", path)
    return "*" in path or not names.isdisjoint(re.findall(r"\w+(?=\s*(?:[,}]|$))", leaves))


def body_of(lines, function):
    """Returns the place of the first line of a function's body, below the line that opens it."""
    outer = None
    for at in range(function.first - 1, function.last):
        found = rule.FUNCTION.match(lines[at])
        outer = found[1] if found and outer is None else outer
        if outer is not None and lines[at].endswith("{"):
            if len(lines[at]) - len(lines[at].lstrip()) == len(outer):
                return at + 1
    return function.last


def add(found, name, data):
    """Adds a part to a sum, with its name and its length, so that parts cannot run together."""
    found.update(f"{len(name.encode())} {name} {len(data)} ".encode() + data)


def bytes_of(path):
    with open(path, "rb") as file:
        return file.read()
