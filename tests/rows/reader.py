"""Reads the rows of tests/rows/data, by the notation of README.md.

A file of rows is Markdown. `rows_of(path)` has its rows in order, each with its place, its title,
the call, the texts at hand and beside, and the answer that is wanted. `holds(answer, wanted)`
compares an answer. The rows of a file `failing*.md` must fail.
"""
import dataclasses
import glob
import os
import re

DATA = os.path.join(os.path.dirname(os.path.realpath(__file__)), "data")
FENCE, TITLE, TEXT, EACH, BESIDE = "```", "## ", "toml", "each ", " beside"
ANY_ENDING = "...\n"


class Unreadable(Exception):
    """A file of rows, or a file that it names, cannot be read."""


@dataclasses.dataclass(frozen=True)
class Row:
    """A row. `call` is what the block says it asks, without `each`, and `subject` the input of a
    line of `each`, or else the text at hand. `fault` says why it is no row, or is empty."""

    file: str
    line: int
    title: str
    call: str
    at_hand: str
    beside: str
    subject: str
    wanted: str
    is_line: bool
    fault: str = ""

    @property
    def place(self):
        """Where the row is, and what it asks."""
        return f"{self.file}:{self.line}: {self.title}: {'each ' * self.is_line}{self.call}"

    @property
    def must_fail(self):
        """Whether the row shows what is printed of a row that fails."""
        return self.file.startswith("failing")

    def arguments(self):
        """The arguments of a row whose call begins `command`."""
        words = self.call.split()[1:] + (self.subject.split(" ") if self.is_line else [])
        return [argument_of(it) for it in words]


def files():
    """The paths of all files of rows."""
    found = sorted(glob.glob(f"{DATA}/*.md"))
    if not found:
        raise Unreadable(f"no file of rows in {DATA}")
    return found


def all_rows():
    """The rows of all files."""
    return [row for path in files() for row in rows_of(path)]


def rows_of(path):
    """The rows of a file, in order."""
    return list(Reader(os.path.basename(path)).rows(read(path)))


def texts():
    """The bytes of the text of each block, or of the file that it names."""
    found = [block for path in files() for block in blocks(read(path))]
    return [text_of(call, body).encode() for _, call, body in found if is_text(call)]


def holds(answer, wanted):
    """Whether an answer is the one that is wanted, which may be a beginning that ends in `...`."""
    if wanted.endswith(ANY_ENDING):
        return answer.startswith(wanted.removesuffix(ANY_ENDING))
    return answer == wanted


def bytes_of(path):
    with open(path, "rb") as file:
        return file.read()


def read(path):
    """The text of a file, with its ends of lines as they are."""
    try:
        return bytes_of(path).decode()
    except (OSError, UnicodeDecodeError) as error:
        raise Unreadable(f"{path}: {error}") from error


def lines_of(text):
    """The lines of a text, each without its newline."""
    lines = text.split("\n")
    if not lines[-1]:
        lines.pop()
    return [it.removesuffix("\r") for it in lines]


def plain(side):
    """What a side of a line means, without the blanks around it."""
    first, *parts = side.strip(" ").replace("\\n", "\n").split("\\u{")
    return first + "".join(with_character(it) for it in parts)


def with_character(part):
    """The character whose number is before the brace, and the rest, or else the part itself."""
    number, brace, rest = part.partition("}")
    if not brace or not re.fullmatch(r"\+?[0-9A-Fa-f]{1,8}", number):
        return part
    value = int(number, 16)
    is_one = value < 0x110000 and not 0xD800 <= value < 0xE000
    return chr(value) + rest if is_one else part


def argument_of(word):
    """The argument that a word of a command means."""
    return "" if word == "''" else plain(word)


def is_text(call):
    """Whether a block is a text, and asks nothing."""
    return call.startswith(TEXT)


def text_of(call, body):
    """The text of a block, or of the file that it names."""
    name = name_of(call)
    return read(f"{DATA}/{name}") if name else body


def name_of(call):
    """The file that a block of a text names, or nothing."""
    return call.removeprefix(TEXT).removeprefix(BESIDE).lstrip(" ")


def blocks(text):
    """The number of the first line, the call and the lines of each block, as one text."""
    call, start, body = None, 0, ""
    for number, line in enumerate(lines_of(text), 1):
        if call is None:
            if line.startswith(FENCE):
                call, start, body = line.removeprefix(FENCE), number, ""
        elif line == FENCE:
            yield start, call, body
            call = None
        else:
            body += line + "\n"
    if call is not None:
        raise Unreadable(f"the block of line {start} does not end")


def titles_of(text):
    """The title above each line. A line in a block is none."""
    title, titles, is_open = "", [], False
    for line in lines_of(text):
        if is_open:
            is_open = line != FENCE
        elif line.startswith(FENCE):
            is_open = True
        elif line.startswith(TITLE):
            title = line.removeprefix(TITLE)
        titles.append(title)
    return titles


class Reader:
    """Reads the rows of a file, and knows the texts at hand and beside."""

    def __init__(self, file):
        self.file = file
        self.at_hand = self.beside = ""
        self.titles = []

    def rows(self, text):
        """The rows of a text."""
        self.titles = titles_of(text)
        for line, call, body in blocks(text):
            if is_text(call):
                yield from self.put_text(line, call, body)
            elif call.startswith(EACH):
                yield from self.lines(line, call.removeprefix(EACH), body)
            else:
                yield self.row(line, call, subject=self.at_hand, wanted=body)

    def put_text(self, line, call, body):
        """Keeps a text, or that of a file. A block that names a file and has lines is no row."""
        if name_of(call) and body:
            yield self.row(line, call, fault="a block that names a file has no lines")
        if call.startswith(TEXT + BESIDE):
            self.beside = text_of(call, body)
        else:
            self.at_hand = text_of(call, body)

    def lines(self, start, call, body):
        """The rows of a block `each`, one in each line but comments."""
        for number, line in enumerate(lines_of(body), start + 1):
            if not line or line.startswith("# "):
                continue
            subject, arrow, wanted = line.partition("=>")
            fault = "" if arrow else f"it has not the form `INPUT => ANSWER`: {line}"
            yield self.row(number, call, plain(subject), plain(wanted) + "\n", True, fault)

    def row(self, line, call, subject="", wanted="", is_line=False, fault=""):
        title = self.titles[line - 1]
        return Row(self.file, line, title, call, self.at_hand, self.beside, subject, wanted,
                   is_line, fault)
