"""Tries many edits of a crate in one check: each as a copy of its function, with another name,
below the function itself.

A copy has the clauses of its function and the body of the edit, and the proof folder is copied
with it. So it is refused by the rule of `rule.py`: a goal or an answer of the very function is not
proved. No other function calls a copy, so no copy changes what is proved of others. The same check
proves the crate with no edit: it counts only if each function that is no copy is proved.

An edit of one free function, or of one method of a type's own, can be tried so. A method of a
trait has no second name in its block, and an edit of several functions, of a clause or of a type
is no copy of one function: these are tried by rounds.
"""
import os
import re
import shutil
import subprocess
import tempfile

import rule
from kit import rt

# How many copies one check has. Its memory grows with them.
AT_ONCE = 40
# A line of a check on a function, which names it below its crate.
VERDICT = re.compile(r"^fn \w+::(\S+): (.*)$", re.M)
# A fault that the front end finds, with its place.
FAULT = re.compile(r"^(?:\./)?(src/[^:\n]+):(\d+):\d+: error", re.M)


class Copy:
    """A copy of a function with an edit: its name, its lines, and where it stands in the new
    file."""

    def __init__(self, crate, edit, number):
        self.crate, self.edit, self.of = crate, edit, edit.functions[0]
        self.name = f"{self.of.name}_edit_{number}"
        text = edit.texts[self.of.file].split("\n")
        grown = len(text) - len(rule.source(crate, self.of.file).split("\n"))
        lines = text[self.of.first - 1 : self.of.last + grown]
        self.lines = [it if it.lstrip().startswith("//") else self.renamed(it) for it in lines]
        self.function = None

    def renamed(self, line):
        """Returns a line with the name of the copy where it names the function itself. A method of
        another value may have the same name."""
        name = rf"(?:(?<![.:\w])|(?<=\bself\.)|(?<=\bSelf::)){self.of.name}"
        return re.sub(rf"{name}(?=(?:::<[^>]*>)?[(<])", self.name, line)

    def stand(self, first):
        """Notes at which line of its file the copy begins."""
        places = (first, first + len(self.lines) - 1, first)
        self.function = rule.Function(self.of.file, places, self.name, self.of.block)

    @property
    def path(self):
        return rule.path_of(self.crate, self.function)


def can_copy(crate, edit):
    """Returns whether an edit is of the body of one function that can have a second name."""
    if edit.bad or edit.is_shared or len(edit.functions) != 1 or len(edit.texts) != 1:
        return False
    function, = edit.functions
    is_of_trait = bool(function.block) and bool(function.block[0])
    lines = rule.source(crate, function.file).split("\n")
    inside = all(function.first <= first and end - 1 <= function.last
                 for first, end, _ in edit.lines[function.file])
    is_cycle = any("#[cycle" in it for it in lines[function.first - 1 : function.last])
    return inside and not is_of_trait and not is_cycle


def put_copies(crate, copies, room):
    """Writes the sources with the copies, each below its function, and their proof folders."""
    for file in {it.of.file for it in copies}:
        lines = rule.source(crate, file).split("\n")
        inside = sorted((it for it in copies if it.of.file == file), key=lambda it: -it.of.last)
        for it in inside:
            lines[it.of.last : it.of.last] = ["", *it.lines]
        # (from the top, since those below stand lower by the lines of those above)
        added = 0
        for it in reversed(inside):
            it.stand(it.of.last + added + 2)
            added += len(it.lines) + 1
        with open(f"{room}/{file}", "w", encoding="utf-8") as out:
            out.write("\n".join(lines))
    for it in copies:
        put_proof(crate, it, room)


def put_proof(crate, copy, room):
    """Copies the proof folder of a function for its copy, in which it has its own name."""
    below = rule.path_of(crate, copy.of).split("::")
    folder = f"{room}/proofs/{'/'.join(below)}"
    if not os.path.isdir(folder):
        return
    to = f"{os.path.dirname(folder)}/{copy.name}"
    shutil.copytree(folder, to)
    module = f"Rattle.{crate.name}.proofs."
    old, new = module + ".".join(below), module + ".".join([*below[:-1], copy.name])
    for at, _, names in os.walk(to):
        for name in names:
            with open(f"{at}/{name}", encoding="utf-8") as file:
                text = file.read()
            with open(f"{at}/{name}", "w", encoding="utf-8") as file:
                file.write(re.sub(rf"{re.escape(old)}(?=[.\s])", new, text))


def check(crate, copies, kept, is_alone):
    """Returns the status of one check of the crate with the copies, and what it printed. It is of the
    whole crate, or of the copies alone and of what they call. It begins with the work of a folder, if
    one is given, and leaves there what it did."""
    with tempfile.TemporaryDirectory(prefix="edits-") as room:
        for part in rt.rtlib.PARTS:
            if os.path.isdir(f"{crate.folder}/{part}"):
                shutil.copytree(f"{crate.folder}/{part}", f"{room}/{part}")
        put_copies(crate, copies, room)
        words = crate.words(["--jobs", "1"], keeps=False)
        words += [word for it in copies for word in ("--only", it.path) if is_alone]
        words += ["--incremental", kept] if kept else []
        call = [*rt.rtlib.guarded(), rt.rtlib.RATTLE, "check", *words]
        ran = subprocess.run(call, cwd=room, stdin=subprocess.DEVNULL, stdout=subprocess.PIPE,
                             stderr=subprocess.STDOUT, errors="replace")
    return ran.returncode, ran.stdout


def broken(copies, said):
    """Returns the copies that the front end does not take."""
    places = [(file, int(line)) for file, line in FAULT.findall(said)]
    return [it for it in copies if any(it.function.holds(*at) for at in places)]


def try_part(crate, edits, kept, is_alone):
    """Returns the edits that one check refuses in their own copies, and whether it shows of the
    crate itself what it was to show: that it is proved, unless the check is of the copies alone. The
    words of each refusal are noted. What does not compile is left out."""
    copies = [Copy(crate, it, number) for number, it in enumerate(edits)]
    status, said = check(crate, copies, kept, is_alone)
    while not is_judged(said) and broken(copies, said):
        left = broken(copies, said)
        copies = [it for it in copies if it not in left]
        if not copies and is_alone:
            return [], True
        status, said = check(crate, copies, kept, is_alone)
    lines = rule.refusals(said) if status == 1 else []
    is_own = all(any(it.function.holds(*at[:2]) for it in copies) for at in lines)
    is_sound = status in (0, 1) and is_own and (is_alone or proves_others(copies, said))
    return [it.edit for it in copies if rule.is_refused_by(lines, it.edit, [it.function])], is_sound


def is_judged(said):
    """Returns whether a check came to judge functions."""
    return bool(VERDICT.search(said)) or said.rstrip().split("\n")[-1].startswith("only=")


def proves_others(copies, said):
    """Returns whether a check of a whole crate proved each function that is no copy."""
    names = {it.path for it in copies}
    others = [verdict for name, verdict in VERDICT.findall(said) if name not in names]
    # (of a closure it says "proved where its callers give what it asks")
    return bool(others) and all(it.split()[0] == "proved" for it in others)


def try_all(crate, edits, kept, say, is_alone=False):
    """Tries the edits that can be tried as copies, so many in each check. Returns those that are
    refused, and whether each check showed of the crate itself what it was to show."""
    able, refused, is_sound = [it for it in edits if can_copy(crate, it)], [], True
    for first in range(0, len(able), AT_ONCE):
        part = able[first : first + AT_ONCE]
        found, proves = try_part(crate, part, kept, is_alone)
        say(f"{crate.name}: {len(found)} of {len(part)} copies refused")
        refused += found
        is_sound = is_sound and proves
    return refused, is_sound
