"""Reads the items of a source of Rattle: its functions, with their contracts and bodies, and its
blocks, with what is ghost in them. Comments count for nothing, and neither does the layout."""
import re

STRING = r'"(?:\\.|[^"\\])*"'
CHARACTER = r"'(?:\\u\{\w+\}|\\x\w\w|\\.|[^'\\\n])'"
COMMENT_OF_CODE = re.compile(rf"{STRING}|{CHARACTER}|//[^\n]*", re.S)
COMMENT_OF_SPECS = re.compile(rf"{STRING}|(?<!\S)--[^\n]*", re.S)
TOKEN = re.compile(rf"{STRING}|{CHARACTER}|[()\[\]{{}};]", re.S)
ATTRIBUTE = re.compile(r"#!?\[[^\]]*\]")
# What has braces that begin no body: an import, a ghost item, a constant, a clause of a contract.
BRACED = re.compile(r"(?:pub(?:\(\w+\))? )?(?:use|ghost|static|type|const(?! fn))\b")
CLAUSE = re.compile(r"\b(?:requires|ensures)\b")
OPENS_CLAUSE = re.compile(r"\b(?:requires|ensures)(?:\s+\w+)?\s*$")
FUNCTION = re.compile(
    r'(pub(?:\(\w+\))? )?(?:const )?(?:unsafe )?(extern "C" )?fn (\w+)'
)
BLOCK = re.compile(r"(pub(?:\(\w+\))? )?(?:unsafe )?(impl|trait|mod)\b")
GHOST = re.compile(r"ghost (\w+)")


def without(comment, text):
    """The text with spaces for its comments, so that each line and place stays where it is."""
    def spaces(found):
        return " " * len(found[0]) if found[0].startswith(("//", "--")) else found[0]

    return comment.sub(spaces, text)


def without_comments(text):
    return without(COMMENT_OF_CODE, text)


def plain(text):
    """A text without comments whose layout no longer shows."""
    text = re.sub(r",\s*\n\s*([)\]}>|])", r"\1", text)
    return re.sub(r" ?([()\[\]{},;]) ?", r"\1", " ".join(text.split()))


class Item:
    """An item: what precedes its body, and its body if it has one."""

    def __init__(self, code, first, opened, closed):
        text = ATTRIBUTE.sub(lambda it: " " * len(it[0]), code[first:opened])
        self.head = text.strip()
        self.first = first + len(text) - len(text.lstrip())
        self.opened, self.closed = opened, closed
        self.function = FUNCTION.match(self.head)
        self.block = BLOCK.match(self.head)
        self.ghost = GHOST.match(self.head)

    def body(self, code):
        """What is between the braces of the item."""
        return code[self.opened + 1:self.closed]

    def has_contract(self):
        return CLAUSE.search(self.head) is not None


def items(code, start=0, end=None):
    """The items between two places of a source without comments."""
    end = len(code) if end is None else end
    first, depth, found = start, 0, TOKEN.search(code, start, end)
    while found:
        sign, place, after = found[0], found.start(), found.end()
        if sign == "{" and depth == 0 and opens_body(code[first:place]):
            after = end_of_block(code, place, end)
            yield Item(code, first, place, after - 1)
            first = after
        elif sign == ";" and depth == 0:
            yield Item(code, first, place, place)
            first = after
        elif len(sign) == 1:
            depth += (sign in "([{") - (sign in ")]}")
        found = TOKEN.search(code, after, end)


def opens_body(front):
    """Whether a brace after this text begins the body of an item."""
    return not BRACED.match(ATTRIBUTE.sub("", front).strip()) and not OPENS_CLAUSE.search(front)


def end_of_block(code, place, end):
    """The place after the brace that closes the one at a place."""
    depth = 0
    for found in TOKEN.finditer(code, place, end):
        depth += (found[0] in "([{") - (found[0] in ")]}")
        if depth == 0:
            return found.end()
    return end


def functions(code, start=0, end=None):
    """All functions between two places, those of blocks too."""
    for item in items(code, start, end):
        if item.function:
            yield item
        elif item.block and item.closed > item.opened:
            yield from functions(code, item.opened + 1, item.closed)
