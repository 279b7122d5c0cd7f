"""Reads a Cargo.lock of any format, V1 to V4, by the proved library `cargo_lock`.

    from cargo_lock import Lockfile

    lockfile = Lockfile.load("Cargo.lock")
    for package in lockfile.find("syn"):
        for needer in lockfile.dependents(package.index):
            print(needer.name, needer.version, "depends on", package.name, package.version)

`Lockfile` reads a lockfile by one call of the library. Each function takes the text of a lockfile,
as `str` or as bytes, and keeps nothing. Any number of threads may call at once. A thread needs a
stack of 2 MiB, which Python's threads have by default on Linux. A function that fails raises a
subclass of `Error`, or `MemoryError`, and a text of another type is a `TypeError`.

The library is `libcargo_lock.so.1`. It is looked for at the path that the variable
`CARGO_LOCK_LIBRARY` of the environment names, which must be absolute, or else beside this file, or
else where the system looks for libraries. The first call loads it, and raises `ImportError` where
the path is not absolute or the library has another interface. `bindings/build` of the repository
makes it.
"""
from ._calls import (
    ConflictError,
    Edge,
    Error,
    FormatError,
    LineError,
    LostError,
    Merge,
    MergeRefused,
    NotALockfile,
    PackageError,
    PackageLine,
    RepeatedError,
    SpecError,
    UnresolvedError,
    bill,
    check,
    diff,
    duplicates,
    edges,
    fault,
    format_of,
    json,
    merge,
    packages,
    survives,
    translate,
    tree,
    why,
)
from ._lockfile import (
    Dependency,
    Finding,
    Lockfile,
    Package,
    Reference,
    Source,
)

__all__ = [
    "ConflictError",
    "Dependency",
    "Edge",
    "Error",
    "Finding",
    "FormatError",
    "LineError",
    "Lockfile",
    "LostError",
    "Merge",
    "MergeRefused",
    "NotALockfile",
    "Package",
    "PackageError",
    "PackageLine",
    "Reference",
    "RepeatedError",
    "Source",
    "SpecError",
    "UnresolvedError",
    "bill",
    "check",
    "diff",
    "duplicates",
    "edges",
    "fault",
    "format_of",
    "json",
    "merge",
    "packages",
    "survives",
    "translate",
    "tree",
    "why",
]
