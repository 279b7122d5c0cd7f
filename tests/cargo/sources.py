"""The packages and the sources of a lockfile, by its text."""
import re
from urllib.parse import unquote_to_bytes


def form(query):
    """The pairs of a query, as a form has them."""
    plain = lambda text: unquote_to_bytes(text.replace("+", " ")).decode("utf-8", "replace")
    parts = [part.partition("=") for part in query.split("&") if part]
    return [(plain(key), plain(value)) for key, _, value in parts]


def is_lossy(source):
    """Whether a git source without its commit loses its tag, branch or revision."""
    _, mark, written = source.partition("?")
    key, _, value = written.partition("=")
    read = None
    for name, text in form(source.partition("#")[0].partition("?")[2]):
        if name in ("branch", "ref"):
            read = ("branch", text)
        elif name in ("tag", "rev"):
            read = (name, text)
    return bool(mark) and read != (key, value)


def lossy_sources(text):
    """The lossy sources of a lockfile's text, each once, in order."""
    own = [it.rpartition("#")[0] if "#" in it else it
           for it in re.findall(r'(?m)^source = "(git\+[^"]*)"$', text)]
    others = re.findall(r'(?m)^(?: |replace = )"\S+ \S+ \((git\+[^"]*)\)",?$', text)
    return sorted({it for it in own + others if is_lossy(it)})


def packages(text):
    """Name, version, source and checksum of each package; of V1 as the metadata has it."""
    found = []
    for block in re.findall(r"(?ms)^\[\[package\]\]\n(.*?)(?=^\[|\Z)", text):
        field = lambda key: next(iter(re.findall(rf'(?m)^{key} = "(.*)"$', block)), None)
        name, version, source = field("name"), field("version"), field("source")
        key = re.escape(f"checksum {name} {version} ({source})")
        of_metadata = next(iter(re.findall(rf'(?m)^"{key}" = "([0-9a-f]+)"$', text)), None)
        found.append((name, version, source, field("checksum") or of_metadata))
    return found
