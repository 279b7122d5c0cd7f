"""The definitions of crates, each with its text and those that it is made of."""
import hashlib
import os

from items import COMMENT_OF_SPECS, plain, without
from sources import TOP, WORD, Definitions, Imports, find_module, modules, unread


class Fault(Exception):
    """Why no lines can be made."""


def digest(text):
    return hashlib.sha256(text.encode()).hexdigest()[:16]


class Vocabulary:
    """The definitions of some crates, each by its crate, module and name."""

    def __init__(self, names):
        self.files = {(crate, module): Definitions(crate, module) for crate in names
                      if os.path.isdir(f"{TOP}/crates/{crate}/specs") for module in modules(crate)}
        self.crates, self.cited, self.digests = set(names), {}, {}
        for place, file in self.files.items():
            self.add(place, file, self.imports_of(file.text, place))

    def add(self, place, file, imports):
        """Adds the definitions of a file."""
        for name, lines in file.lines.items():
            text = plain(without(COMMENT_OF_SPECS, "\n".join(lines)))
            words = set(WORD.findall(text))
            heads = words | {word.partition(".")[0] for word in words}
            own = {it for head in heads for it in self.meant(place, head)}
            self.digests[*place, name] = digest(text)
            self.cited[*place, name] = self.named(imports, words) | own

    def meant(self, place, name):
        """The definitions of a file that have a name or a constructor of that name."""
        file = self.files[place]
        names = {it for it in (name, f"◌{name}◌") if it in file.lines}
        return {(*place, it) for it in names | file.constructors.get(name, set())}

    def imports_of(self, text, place):
        """The imports of a text, each of a form that is read, and of a definition that is there."""
        others, imports = unread(text), Imports(text)
        others += [".".join(it) for it in imports.names.values()
                   if find_module(*it[:2])[0] in self.crates and not self.resolved(*it)]
        if others:
            raise Fault(f"{place}: no definition is known by the import `{others[0]}`")
        return imports

    def named(self, imports, words):
        """The definitions that words name, in a file with these imports."""
        cited = {imports.of(it) for it in words} - {None}
        return {it for name in cited for it in self.resolved(*name)}

    def resolved(self, crate, module, name):
        """The definitions that a name of a module means, if it is one of these crates."""
        place = find_module(crate, module)
        return self.meant(place, name.strip("◌")) if place in self.files else set()

    def reached(self, cited):
        """The definitions that are cited, and those that these are made of."""
        left, found = list(cited), set()
        while left:
            one = left.pop()
            if one not in found:
                found.add(one)
                left += self.cited[one]
        return found
