"""Reads a picture by the grammar of Graphviz (https://graphviz.org/doc/info/lang.html): its nodes
with their labels as they are drawn, and its edges. What the grammar does not have is a fault."""
import html.entities
import re

# An ID is a word, a numeral or a text in quotation marks, in which only `\"` stands for one.
ID = r'[A-Za-z\200-\U0010ffff_][\w\200-\U0010ffff]*|-?(?:\.\d+|\d+(?:\.\d*)?)|"(?:[^"\\]|\\.)*"'
TOKEN = re.compile(rf"(?P<space>\s+|//[^\n]*|/\*.*?\*/|^#[^\n]*)|(?P<id>{ID})"
                   r"|(?P<mark>->|--|[{}\[\]=;,:])", re.S | re.M)
KEYWORDS = ("node", "edge", "graph", "digraph", "subgraph", "strict")


class Refused(Exception):
    """The text is no picture, or has what these pictures never have."""


def tokens_of(text):
    """The tokens of a text: the marks as they are, and each ID as a pair of its text and whether it
    stood in quotation marks."""
    at, found = 0, []
    while at < len(text):
        token = TOKEN.match(text, at)
        if not token:
            raise Refused(f"no token at {text[at:at + 20]!r}")
        at = token.end()
        if token["mark"]:
            found.append(token["mark"])
        elif token["id"]:
            word = token["id"]
            quoted = word.startswith('"')
            found.append((word[1:-1].replace('\\"', '"') if quoted else word, quoted))
    return found


def drawn(label, node):
    """The lines of a label as they are drawn: its escapes and its character references stand for
    what they say."""
    # (`%3` is the name of a graph that has none)
    ends, said = {"n": "\n", "l": "\n", "r": "\n"}, {"N": node, "G": "%3", "L": label}
    escape = lambda it: ends.get(it[1]) or said.get(it[1], it[1])
    text = re.sub(r"\\(.)", escape, label, flags=re.S)
    return re.sub(r"&(?:#(\d+)|#[xX]([0-9a-fA-F]+)|(\w+));", character, text).split("\n")


def character(found):
    """The character for which a reference stands. An unknown name stands as it is written."""
    if found[3]:
        point = html.entities.name2codepoint.get(found[3])
    else:
        point = int(found[1]) if found[1] else int(found[2], 16)
    return found[0] if point is None else chr(point)


class Reader:
    """Reads the statements of a directed graph that has no graphs in it, no ports and no values of
    its own."""

    def __init__(self, text):
        self.tokens, self.nodes, self.edges = tokens_of(text), {}, []

    def mark(self, wanted):
        """Passes over a mark if it comes next, and says whether it does."""
        comes = self.tokens[:1] == [wanted]
        self.tokens[:comes] = []
        return comes

    def expect(self, wanted):
        if not self.mark(wanted):
            raise Refused(f"no {wanted!r} before {self.tokens[:3]!r}")

    def id(self):
        """The next token, which is an ID and no keyword."""
        token = self.tokens.pop(0) if self.tokens else None
        if not isinstance(token, tuple) or not token[1] and token[0].lower() in KEYWORDS:
            raise Refused(f"{token!r} is no ID")
        return token[0]

    def attributes(self):
        """Lists of attributes, each a name and a value."""
        found = {}
        while self.mark("["):
            while not self.mark("]"):
                name = self.id()
                self.expect("=")
                found[name] = self.id()
                self.mark(";") or self.mark(",")
        return found

    def statement(self):
        """A node or a chain of edges, with attributes. What is not there yet becomes a node."""
        chain = [self.id()]
        while self.mark("->"):
            chain.append(self.id())
        attributes = self.attributes()
        self.mark(";")
        for name in chain:
            self.nodes.setdefault(name, {})
        self.edges += zip(chain, chain[1:])
        if len(chain) == 1:
            self.nodes[chain[0]] |= attributes

    def picture(self):
        if self.tokens[:1] != [("digraph", False)]:
            raise Refused("no `digraph`")
        self.tokens.pop(0)
        self.expect("{")
        while not self.mark("}"):
            self.statement()
        if self.tokens:
            raise Refused(f"{self.tokens[:3]!r} behind the end")


def read(text):
    """The nodes of a picture, each with the lines of its label, and its edges in order."""
    reader = Reader(text)
    reader.picture()
    labels = {name: drawn(it.get("label", "\\N"), name) for name, it in reader.nodes.items()}
    return labels, sorted(reader.edges)
