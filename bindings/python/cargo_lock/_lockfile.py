"""A lockfile with its packages and what each depends on, read by one call of the library."""
from __future__ import annotations

import dataclasses
import functools
import json
import os
from typing import Any, Mapping, Optional, Union

from . import _calls


@dataclasses.dataclass(frozen=True)
class Reference:
    """What a git source asks for: `kind` is `branch`, `tag` or `rev`."""

    kind: str
    value: str


@dataclasses.dataclass(frozen=True)
class Source:
    """Where a package comes from. `text` is as a lockfile of format 4 has it; `kind` is `git`,
    `path`, `registry`, `sparse-registry`, `local-registry` or `directory`; a git source may ask for
    something, its `reference`, and `precise` is its commit, if it names one. `text` and `url` have
    the user name and the password of the source, if it has some."""

    text: str
    kind: str
    url: str
    reference: Optional[Reference]
    precise: Optional[str]
    crates_io: bool


@dataclasses.dataclass(frozen=True)
class Dependency:
    """A name, a version and a source: a dependency that no package fits, a replacement, or a patch
    that no package uses. A package of the workspace has no source."""

    name: str
    version: str
    source: Optional[Source]


@dataclasses.dataclass(frozen=True)
class Package:
    """A package of a lockfile. `index` is its place among the packages. A separate root is not among
    them, and its `index` is how many packages there are. `dependencies` are the places of the
    packages on which it depends, in its own order, and `unresolved` are the dependencies that
    no package fits."""

    index: int
    name: str
    version: str
    source: Optional[Source]
    checksum: Optional[str]
    dependencies: tuple[int, ...]
    unresolved: tuple[Dependency, ...]
    replace: Optional[Dependency]


@dataclasses.dataclass(frozen=True)
class Finding:
    """Something that is wrong with a lockfile: its line, as `cargo-lock check` prints it, and its
    kind, which is the word before the first colon of the line, as `order`. The kinds of `check
    --json` are finer, and have other names."""

    kind: str
    line: str


@dataclasses.dataclass(frozen=True)
class Lockfile:
    """A lockfile of any format. `Lockfile.parse` and `Lockfile.load` make one. Two are equal where
    all but their texts is."""

    format: int
    packages: tuple[Package, ...]
    root: Optional[Package]
    metadata: Mapping[str, str] = dataclasses.field(hash=False)
    patch: tuple[Dependency, ...]
    _text: bytes = dataclasses.field(repr=False, compare=False)

    @staticmethod
    def parse(text: _calls.Text) -> Lockfile:
        """The lockfile of a text. Raises `NotALockfile`."""
        given = _calls._bytes(text)
        document = json.loads(_calls.json(given))
        packages = tuple(_package(*it) for it in enumerate(document["packages"]))
        root = document["root"]
        return Lockfile(
            format=document["format"],
            packages=packages,
            root=None if root is None else _package(len(packages), root),
            metadata=document["metadata"],
            patch=tuple(_dependency(it) for it in document["patch"]["unused"]),
            _text=given,
        )

    @staticmethod
    def load(path: Union[str, os.PathLike[str]]) -> Lockfile:
        """The lockfile at a path. Raises `NotALockfile`, and `OSError` where the file is not read."""
        with open(path, "rb") as file:
            return Lockfile.parse(file.read())

    def find(self, name: str, version: Optional[str] = None) -> tuple[Package, ...]:
        """The packages of a name and, if it is given, a version, in the lockfile's order."""
        named = self._by_name.get(name, ())
        return tuple(it for it in named if version is None or it.version == version)

    def dependents(self, index: int) -> tuple[Package, ...]:
        """The packages that depend on the package at a place, each once and in the lockfile's order,
        and the separate root, if it depends on it too. Raises `PackageError` where no package is at
        the place."""
        if not 0 <= index < len(self.packages):
            raise _calls.PackageError(f"there is no package {index}")
        return tuple(self._dependents[index])

    def tree(self, index: int, inverted: bool = False, exact: bool = False) -> str:
        """The drawing of the tree of the package at a place, as the function `tree`."""
        return _calls.tree(self._text, index, inverted, exact)

    def translate(self, number: int) -> str:
        """The text of the lockfile in the format of this number, as the function `translate`."""
        return _calls.translate(self._text, number)

    def survives(self, number: int) -> bool:
        """Whether the lockfile survives the format of this number, as the function `survives`."""
        return _calls.survives(self._text, number)

    def check(self) -> tuple[Finding, ...]:
        """What is wrong with the lockfile."""
        lines = _calls.check(self._text)
        return tuple(Finding(line.partition(":")[0], line) for line in lines)

    def bom(self, compact: bool = False) -> str:
        """The bill of materials of the lockfile, as the function `bill`."""
        return _calls.bill(self._text, compact)

    def diff(self, new: Lockfile, dependencies: bool = False) -> tuple[str, ...]:
        """What differs from this lockfile to a new one, a line for each change, as the function
        `diff`."""
        return _calls._lines(_calls.diff(self._text, new._text, dependencies))

    @functools.cached_property
    def _by_name(self) -> dict[str, list[Package]]:
        named: dict[str, list[Package]] = {}
        for package in self.packages:
            named.setdefault(package.name, []).append(package)
        return named

    @functools.cached_property
    def _dependents(self) -> list[list[Package]]:
        needers: list[list[Package]] = [[] for _ in self.packages]
        for package in (*self.packages, *([] if self.root is None else [self.root])):
            for index in dict.fromkeys(package.dependencies):
                needers[index].append(package)
        return needers


def _package(index: int, document: dict[str, Any]) -> Package:
    return Package(
        index=index,
        name=document["name"],
        version=document["version"],
        source=_source(document),
        checksum=document["checksum"],
        dependencies=tuple(document["dependencies"]),
        unresolved=tuple(_dependency(it) for it in document["unresolved"]),
        replace=None if document["replace"] is None else _dependency(document["replace"]),
    )


def _dependency(document: dict[str, Any]) -> Dependency:
    return Dependency(document["name"], document["version"], _source(document))


def _source(document: dict[str, Any]) -> Optional[Source]:
    origin = document["origin"]
    if origin is None:
        return None
    return Source(
        text=document["source"],
        kind=origin["kind"],
        url=origin["url"],
        reference=_reference(origin["reference"]),
        precise=origin["precise"],
        crates_io=origin["crates_io"],
    )


def _reference(document: Optional[dict[str, Any]]) -> Optional[Reference]:
    return None if document is None else Reference(document["kind"], document["value"])
