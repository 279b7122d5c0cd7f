"""Folders for the packages of a lockfile: a cache of archives, folders as `cargo vendor` makes them,
and a database of advisories. What is wrong in them is drawn."""
import hashlib
import json
import os
import re
import tomllib

# What is drawn of a vendored folder, and of a manifest.
FAULTS = ["none", "none", "no folder", "other archive", "missing", "changed", "unlisted", "link"]
LICENSES = ["license = \"MIT OR Apache-2.0\"", "license = \"GPL-3.0\"", "license = \"a \\\" b\"",
            "license-file = \"LICENSE\"", ""]
KINDS = ["", "informational = \"unmaintained\"\n", "informational = \"unsound\"\n"]
# What an advisory may say besides, of itself and of what is affected.
DETAILS = ["", "url = \"https://example.org/a\"\n", "cvss = \"CVSS:3.1/AV:N\"\nkeywords = []\n",
           "references = [\"https://example.org/b\", \"c\\\"\"]\n",
           "categories = [\"crypto-failure\"]\nkeywords = [\"ssl\"]\n"]
AFFECTED = ["", "[affected]\n", "[affected]\nos = [\"windows\"]\narch = [\"x86\", \"arm\"]\n",
            "[affected.functions]\n\"a::b\" = [\"< 1.0\"]\n\"a::B::c\" = []\n"]


def digest(text):
    return hashlib.sha256(text.encode()).hexdigest()


def write(path, text):
    os.makedirs(os.path.dirname(path), exist_ok=True)
    with open(path, "w", encoding="utf-8") as file:
        file.write(text)


def packages(lockfile):
    """The packages of a lockfile with a source whose names and versions can be names of files."""
    try:
        with open(lockfile, "rb") as file:
            found = tomllib.load(file).get("package", [])
    except ValueError:
        return []
    plain = re.compile(r"[A-Za-z][\w-]*@\d[\w.+-]*", re.A)
    tables = [it for it in found if isinstance(it, dict)] if isinstance(found, list) else []
    sourced = [it for it in tables if {"name", "version", "source"} <= it.keys()]
    return [it for it in sourced if plain.fullmatch(f"{it['name']}@{it['version']}")]


def make(lockfile, draw, room):
    """Makes the folders `cache`, `vendor` and `db` in a folder. A database has an advisory."""
    for folder in ["cache", "vendor", "db/crates"]:
        os.makedirs(f"{room}/{folder}", exist_ok=True)
    write(f"{room}/db/crates/of-no-lockfile/RUSTSEC-2020-0001.md", "counted, and not read")
    for it in packages(lockfile):
        place = f"{it['name']}-{it['version']}"
        if draw.random() < 0.7:
            write(f"{room}/cache/{place}.crate", place)
        make_vendored(f"{room}/vendor/{place}", it, draw)
        if draw.random() < 0.5:
            make_advisory(f"{room}/db/crates/{it['name']}", it["name"], draw)


def make_vendored(folder, package, draw):
    fault = draw.choice(FAULTS)
    if fault == "no folder":
        return
    manifest = "[package]\nname = {}\nversion = {}\n{}\n".format(
        json.dumps(package["name"]), json.dumps(package["version"]), draw.choice(LICENSES))
    files = {"Cargo.toml": manifest, "src/lib.rs": "fn lib() {}"}
    listed = {path: digest(text) for path, text in files.items()}
    archive = package.get("checksum") if fault != "other archive" else digest("other")
    if fault == "missing":
        del files["src/lib.rs"]
    elif fault == "changed":
        files["src/lib.rs"] = "fn other() {}"
    elif fault == "unlisted":
        files["build.rs"] = "fn main() {}"
    for path, text in files.items():
        write(f"{folder}/{path}", text)
    if fault == "link" and not os.path.lexists(f"{folder}/link"):
        os.symlink("Cargo.toml", f"{folder}/link")
    write(f"{folder}/.cargo-checksum.json", json.dumps({"files": listed, "package": archive}))


def make_advisory(folder, name, draw):
    number = draw.randrange(1000, 10000)
    patched = draw.choice(["", "\">= 99.0.0\"", "\">= 98.0.0, < 98.1.0\", \">= 99.0.0\""])
    write(f"{folder}/RUSTSEC-2020-{number}.md",
          f"```toml\n[advisory]\nid = \"RUSTSEC-2020-{number}\"\npackage = \"{name}\"\n"
          f"date = \"2020-01-01\"\n{draw.choice(KINDS)}{draw.choice(DETAILS)}\n"
          f"[versions]\npatched = [{patched}]\n{draw.choice(AFFECTED)}```\n\n"
          "# A `title` \\ with \"quotes\"\n")


def details_of(path):
    """What the file of an advisory says besides, as the document has it."""
    with open(path, encoding="utf-8") as file:
        front = file.read().split("```toml\n", 1)[1].split("\n```", 1)[0]
    table = tomllib.loads(front)
    about, affected = table["advisory"], table.get("affected")
    if affected is not None:
        affected = {"functions": {}, "os": [], "arch": [], **affected}
    texts = {key: about.get(key) for key in ["date", "url", "cvss"]}
    lists = {key: about.get(key, []) for key in ["references", "categories", "keywords"]}
    return {**texts, **lists, "affected": affected}
