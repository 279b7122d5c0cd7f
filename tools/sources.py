"""Reads the crates: their names, what a file imports, the definitions of `specs/`, and what can be
named from outside of a crate."""
import os
import re

TOP = os.path.dirname(os.path.dirname(os.path.realpath(__file__)))
ITEM = re.compile(r"^pub (?:const )?(?:fn|struct|enum|trait|type|const) (\w+)", re.M)
DECLARED = re.compile(r"^(?:pub(?:\(\w+\))? )?(?:struct|enum) (\w+)", re.M)
EXPORT = re.compile(r"^pub use ([\w:]+?)(?:::\{([^}]*)\})?;", re.M)
# A definition that is private has no `pub`, and may have no word but its name before the colon.
DEFINITION = re.compile(
    r"(?:(?:pub|abbrev|unfoldable|record|data|inductive) )+(?!mutual$)([^\s:({]+)"
    r"|([^\s:({]+) :(?:\s|$)")
CONSTRUCTOR = re.compile(r"  ([\w'-]+) :")
# Names that a definition binds: parameters of a type or of a function.
BOUND = re.compile(r"[({]([\w ]+) :|λ ([\w ]+)\.")
WORD = re.compile(r"[^\s(){}\[\],;λ→×≡↔]+")
# `use Rattle.CRATE.specs.MODULE.{NAME, NAME as OTHER}` and `use Rattle.CRATE.specs.MODULE as NAME`
NAMES = re.compile(r"^\s*(?:ghost )?use Rattle\.(\w+)\.specs\.(\w+)\.\{([^}]*)\}", re.M)
WHOLE = re.compile(r"^\s*(?:ghost )?use Rattle\.(\w+)\.specs\.(\w+) as (\w+)", re.M)
IMPORT = re.compile(r"^\s*(?:ghost )?use Rattle\.(\w+)\.specs\.(?!declared\b).*", re.M)
PASSED_ON = re.compile(r"^pub use Rattle\.(\w+)\.specs\.(\w+)$", re.M)


def read(path):
    with open(path, encoding="utf-8") as file:
        return file.read()


def files(folder, ending):
    for at, folders, names in os.walk(folder):
        folders.sort()
        for name in sorted(names):
            if name.endswith(ending):
                yield os.path.join(at, name)


def uses_of_crates():
    """Each crate of crates.txt, in order, with the libraries that it names."""
    lines = [line.partition("#")[0] for line in read(os.path.join(TOP, "crates.txt")).split("\n")]
    rows = [line.partition(":") for line in lines if line.strip()]
    return {front.split()[0]: uses.split() for front, _, uses in rows}


def crates():
    """The crates with definitions, in the order of crates.txt."""
    return [it for it in uses_of_crates()
            if os.path.isdir(os.path.join(TOP, "crates", it, "specs"))]


def called(names):
    """The crates among these that are called, and not by way of the crate above them."""
    return [it for it in names if "Use that one." not in read(source(it, ()))]


def source(crate, path):
    """The file of a module of a crate."""
    folder = os.path.join(TOP, "crates", crate, "src")
    if not path and not os.path.exists(f"{folder}/lib.rt"):
        path = ("main",)
    return os.path.join(folder, *(path or ["lib"])) + ".rt"


class Imports:
    """What a file brings in: names of definitions, and names that modules have in it."""

    def __init__(self, text):
        self.names, self.modules = {}, {}
        for crate, module, names in NAMES.findall(text):
            for name in names.split(","):
                name, _, other = name.strip().partition(" as ")
                self.names[(other or name).strip("◌")] = (crate, module, name)
        for crate, module, name in WHOLE.findall(text):
            self.modules[name] = (crate, module)

    def of(self, word):
        """The definition that a word names, if it names one."""
        module, _, name = word.partition(".")
        if module in self.modules and name:
            return (*self.modules[module], name.partition(".")[0])
        return self.names.get(module)


def unread(text):
    """The imports from the crates here that are of another form than those which are read."""
    known = {found.start() for form in (NAMES, WHOLE) for found in form.finditer(text)}
    return [it[0].strip() for it in IMPORT.finditer(text)
            if it.start() not in known and os.path.isdir(f"{TOP}/crates/{it[1]}")]


def find_module(crate, module):
    """The crate and the module that a name of a module means, by what the crate passes on."""
    folder = os.path.join(TOP, "crates", crate, "specs")
    if os.path.isfile(f"{folder}/Lib.antt") and not os.path.isfile(f"{folder}/{module}.antt"):
        for passed_on, name in PASSED_ON.findall(read(f"{folder}/Lib.antt")):
            if name == module:
                return find_module(passed_on, name)
    return crate, module


def name_in(line):
    """The name of the definition that begins with a line, if one does."""
    found = DEFINITION.match(line)
    return found and (found[1] or found[2])


class Definitions:
    """The definitions of a file: their names with the comments above them, where each begins, the
    lines and the words that each is made of, constructors, and the comment at the file's head."""

    def __init__(self, crate, module):
        self.text = read(os.path.join(TOP, "crates", crate, "specs", module + ".antt"))
        self.found, self.about, self.constructors = [], "", {}
        self.words, self.bound, self.lines, self.places = {}, {}, {}, {}
        self.comment, self.fixities, self.in_mutual = [], [], False
        for number, line in enumerate(self.text.split("\n"), 1):
            self.add(number, line)
        imports, own = Imports(self.text), {name for name, _ in self.found}
        self.made_of = {
            name: {imports.of(it) or ((crate, module, it) if it in own else None)
                   for it in words - self.bound[name]}
            for name, words in self.words.items()
        }

    def add(self, number, line):
        """Adds a line to what is known of the file."""
        if line.startswith("--"):
            is_rule = line.startswith("-- ----")
            self.comment = [] if is_rule else self.comment + [line[2:].strip()]
            return
        name = self.begun(line)
        if name:
            self.found.append((name, " ".join(self.comment)))
            self.places[name] = number
            self.lines[name], self.fixities, self.comment = self.fixities, [], []
        elif line.strip() == "" or line.startswith("use "):
            if self.comment and not self.found and not self.about:
                self.about = " ".join(self.comment)
            self.comment = []
        elif line.startswith("infix"):
            self.fixities.append(line)
            return
        if self.found and not line.startswith("use "):
            self.add_to_definition(self.found[-1][0], line)

    def begun(self, line):
        """The definition that begins with a line: at the margin, or in a block of mutual ones."""
        if line[:1].strip():
            self.in_mutual = line.startswith("abbrev mutual")
        return name_in(line[2:] if self.in_mutual else line)

    def add_to_definition(self, name, line):
        """Adds a line to a definition."""
        constructor = CONSTRUCTOR.match(line)
        if constructor:
            self.constructors.setdefault(constructor[1], set()).add(name)
        self.lines[name].append(line)
        self.add_words(name, line)

    def add_words(self, name, line):
        """Adds the words of a line, and the names that it binds, to a definition."""
        words, bound = self.words.setdefault(name, set()), self.bound.setdefault(name, set())
        if line.startswith("  pub "):
            line = line.partition(" : ")[2]
        for names in BOUND.findall(line):
            bound.update(" ".join(names).split())
        front, sign, rest = line.partition(" = ")
        if sign and front.startswith(name + " "):
            bound.update(re.findall(r"\b[a-z]\w*", front[len(name):]))
            line = rest
        words.update(WORD.findall(line))


def modules(crate):
    """The spec files in the order in which Lib names them."""
    folder = os.path.join(TOP, "crates", crate, "specs")
    lib = read(os.path.join(folder, "Lib.antt"))
    order = re.findall(r"^(?:pub )?mod (?:pub )?(\w+)", lib, re.M)
    present = sorted(os.path.basename(path)[:-5] for path in files(folder, ".antt"))
    return [n for n in order if n in present] + [n for n in present if n not in [*order, "Lib"]]


class Exports:
    """What can be named from some crates: items, each by its crate, module and name. A type that
    none of the other crates declares is one of the kit."""

    def __init__(self, names, others=()):
        self.seen, self.items = set(), set()
        for crate in names:
            self.visit(crate, ())
        self.types = {(crate, name) for crate, _, name in self.items}
        self.own = {(crate, name) for crate in {*names, *others}
                    for name in self.declared(crate)}

    def declared(self, crate):
        """The types that a crate declares, public or not."""
        for path in files(os.path.join(TOP, "crates", crate, "src"), ".rt"):
            yield from DECLARED.findall(read(path))

    def is_public(self, crate, name):
        """Whether a type can be named. One of another crate, as `String`, can be."""
        return (crate, name) in self.types or (crate, name) not in self.own

    def visit(self, crate, path):
        if (crate, path) not in self.seen:
            self.seen.add((crate, path))
            text = read(source(crate, path))
            self.items |= {(crate, path, name) for name in ITEM.findall(text)}
            for name in re.findall(r"^pub mod (\w+);", text, re.M):
                self.visit(crate, (*path, name))
            for target in self.uses(crate, text):
                self.add(*target)

    def uses(self, crate, text):
        """The crates and paths that a module passes on."""
        for front, names in EXPORT.findall(text):
            for name in names.split(",") if names else [""]:
                words = front.split("::") + ([name.strip()] if name.strip() else [])
                if not names or name.strip():
                    yield (crate if words[0] == "crate" else words[0]), tuple(words[1:])

    def add(self, crate, path):
        """Adds a module or an item, which may be passed on from elsewhere."""
        if os.path.exists(source(crate, path)):
            self.visit(crate, path)
            return
        module, name = path[:-1], path[-1]
        if not os.path.exists(source(crate, module)):
            return
        text = read(source(crate, module))
        if name in ITEM.findall(text):
            self.items.add((crate, module, name))
        for target in self.uses(crate, text):
            if target[1][-1:] == (name,):
                self.add(*target)
