"""The crates of this folder, which stand in no crates.txt: rows, tests, and what they need.

Their sources end in `.rt.in`. `put` makes crates of them in a copy of the repository, where `rt ci`
proves and runs them. `tests/operations/build` lowers the libraries among them without proof.
"""
import os
import re
import shutil

HERE = os.path.dirname(os.path.realpath(__file__))
ROWS = f"{os.path.dirname(HERE)}/rows/data"
EXAMPLES = f"{HERE}/examples/data"
# What lies in the folder in which a program runs.
DATA = {"rows": ROWS, "example_program": EXAMPLES}
LINE = re.compile(r"^(\w+):((?: \w+)*)$")


def read(path):
    with open(path, encoding="utf-8") as file:
        return file.read()


def lines():
    """Returns the line of each crate, as crates.txt has it. Each folder with sources has a line."""
    kept = [it for it in read(f"{HERE}/crates.txt.in").split("\n") if it and it[0] != "#"]
    found = {LINE.fullmatch(it)[1]: it for it in kept}
    folders = {it for it in os.listdir(HERE) if os.path.isdir(f"{HERE}/{it}/src")}
    if folders != set(found):
        names = ", ".join(sorted(folders ^ set(found)))
        raise ValueError(f"crates.txt.in and the folders beside it differ: {names}")
    return found


def uses():
    """Returns the libraries that each crate uses."""
    return {name: line.partition(":")[2].split() for name, line in lines().items()}


def libraries():
    """Returns the names of the crates that are libraries."""
    return [it for it in lines() if os.path.isfile(f"{HERE}/{it}/src/lib.rt.in")]


def sources(name):
    """Returns the path of each source of a crate below its folder `src`, without `.in`."""
    top = f"{HERE}/{name}/src"
    found = [f"{at}/{file}" for at, _, files in os.walk(top) for file in files]
    return sorted(os.path.relpath(it, top).removesuffix(".in") for it in found)


def copy_sources(name, target, change=lambda text: text):
    """Writes the sources of a crate, each with its text changed, below `target`/src."""
    for path in sources(name):
        text = change(read(f"{HERE}/{name}/src/{path}.in"))
        os.makedirs(os.path.dirname(f"{target}/src/{path}"), exist_ok=True)
        with open(f"{target}/src/{path}", "w", encoding="utf-8") as out:
            out.write(text)


def put(repository):
    """Makes crates of all of them in a copy of the repository."""
    for name in lines():
        target = f"{repository}/crates/{name}"
        os.makedirs(target)
        copy_sources(name, target)
        if name in DATA:
            shutil.copyfile(f"{HERE}/{name}/stdout", f"{target}/stdout")
            shutil.copytree(DATA[name], f"{target}/data")
    with open(f"{repository}/crates.txt", "a", encoding="utf-8") as out:
        out.writelines(f"{it}\n" for it in lines().values())
