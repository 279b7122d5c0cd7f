"""What the text of a module of LLVM reaches from some of its functions.

The compiler takes all functions through its first passes before it drops those that nothing
reaches, so they are left out of the text.
"""
import re

NAME = re.compile(r'@(?:"[^"]*"|[\w$.]+)')


def parts(lines):
    """Returns each line with the name of the function or value that it is a part of, if any."""
    owner = None
    for line in lines:
        if line.startswith(("define ", "@")):
            owner = NAME.search(line)[0]
        yield owner, line
        if line.startswith(("}", "@")):
            owner = None


def uses(lines):
    """Returns what each function and each value names."""
    found = {}
    for owner, line in parts(lines):
        if owner is not None and "@" in line:
            found.setdefault(owner, set()).update(NAME.findall(line))
    return found


def reached(every, roots):
    """Returns the names of what the roots reach by these uses, and what LLVM is told to keep."""
    found, left = set(), [*roots, *(it for it in every if it.startswith("@llvm."))]
    while left:
        name = left.pop()
        if name not in found:
            found.add(name)
            left += every.get(name, ())
    return found


def only(lines, kept):
    """Returns the lines but those of functions and values that are not kept."""
    return (line for owner, line in parts(lines) if owner is None or owner in kept)
