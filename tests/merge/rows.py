"""Rows: triples of lockfiles with the merge that is wanted. `rows/README.md` says how they are
written."""
import glob
import os
import re

from sources import lossy_sources

HERE = os.path.dirname(os.path.realpath(__file__))
TESTS = os.path.dirname(HERE)
# Lockfiles that are not the merge of themselves. In the first two a dependency on a revision leads
# to the last package at its commit, as edges do, in the third V1 has another reference for the
# branch `master`, in the fourth a source has `%5E` for the `^` of a path, and the fifth, which has no
# metadata, is of V2 for a reader: only in V1 Cargo leaves a line empty at the end.
NOT_KEPT = re.compile(r"order\.v|gitsame\.v[12]|masteronly\.v1|unicode\.v|single\.v1")


def text_of(path):
    with open(path, encoding="utf-8") as file:
        return file.read()


class Row:
    """A folder with a triple, and what is wanted of it."""

    def __init__(self, folder):
        self.folder = folder
        self.name = os.path.basename(folder)
        self.texts = [text_of(f"{folder}/{role}.lock") for role in ("base", "ours", "theirs")]

    def wanted(self, what):
        """The lines of a file of the folder, or None."""
        path = f"{self.folder}/wanted.{what}"
        return text_of(path).splitlines() if os.path.exists(path) else None

    def fault(self, answer):
        """What is wrong with the answer to the triple, or None."""
        words, conflicts = self.wanted("words"), self.wanted("conflicts")
        if words:
            return fault_of_words(answer, int(words[0]), words[1:])
        if conflicts:
            return fault_of(answer, (1, "", conflicts))
        lines = self.wanted("told") or []
        return fault_of(answer, (0, text_of(f"{self.folder}/wanted.lock"), lines))


def fault_of(answer, wanted):
    for what, found, asked in zip(("status", "standard output", "standard error"), answer, wanted):
        if found != asked:
            return f"{what}: {found!r} is not {asked!r}"
    return None


def fault_of_words(answer, status, words):
    """The same where the lines are not fixed, and only what is in them."""
    if (answer.status, answer.text) != (status, ""):
        return f"status {answer.status}, and {answer.text!r} on standard output"
    message = "\n".join(answer.lines)
    if status == 2 and not message.startswith("*** error: "):
        return f"another message: {message!r}"
    missing = [it for it in words if it not in message]
    return f"not in {message!r}: {missing}" if missing else None


def rows():
    folder = f"{HERE}/rows"
    return [Row(f"{folder}/{it}") for it in sorted(os.listdir(folder)) if it.isdecimal()]


def ask_rows(merge):
    """Each row, and what is wrong with its answer or None."""
    for row in rows():
        yield f"row {row.name}", row.fault(merge(row.texts))


def ask_refusals(merge):
    """Each lockfile that is refused, as each of the three."""
    folder = f"{HERE}/refused"
    sound = text_of(f"{folder}/sound.lock")
    for name in sorted(os.listdir(folder)):
        if name.endswith(".words"):
            name = name.removesuffix(".words")
            bad, words = text_of(f"{folder}/{name}.lock"), text_of(f"{folder}/{name}.words")
            for at, role in enumerate(("base", "ours", "theirs")):
                texts = [sound] * 3
                texts[at] = bad
                yield (f"refused: {name} as {role}",
                       fault_of_words(merge(texts), 2, [role, *words.splitlines()]))
    yield "what is refused beside them", fault_of(merge([sound] * 3), (0, sound, []))


def ask_wrote(merge):
    """Each lockfile that Cargo wrote, merged with itself over itself and over nothing, to the byte."""
    for path in sorted(glob.glob(f"{TESTS}/cargo/wrote/*.lock")):
        name, text = os.path.basename(path), text_of(path)
        if NOT_KEPT.match(name) or ".v4." not in name and lossy_sources(text):
            continue
        for base in (text, ""):
            yield (f"{name} over {'itself' if base else 'nothing'}",
                   fault_of(merge([base, text, text]), (0, text, [])))
