"""The calls of the library `cargo_lock`, as its header `cargo_lock.h` has them."""
from __future__ import annotations

import ctypes
import dataclasses
import os
from typing import Any, Callable, NamedTuple, Optional, Union

Text = Union[str, bytes, bytearray, memoryview]


class Error(Exception):
    """A call gave no answer."""


class NotALockfile(Error, ValueError):
    """The text is no lockfile, or no UTF-8. It says why."""


class FormatError(Error, ValueError):
    """The number of the format is none of 1 to 4."""


class LostError(Error):
    """The lockfile does not survive the format: written in it, it would not be read back as
    equal."""


class UnresolvedError(Error):
    """No package fits some dependency."""


class PackageError(Error, IndexError):
    """There is no package of that number."""


class LineError(Error):
    """A name or a source has a control character, as a tab or a newline, or a separator of lines or
    paragraphs."""


class RepeatedError(Error):
    """Two packages have the same name, version and source, user names and passwords aside, so a bill
    would refer to both by one text."""


class SpecError(Error, ValueError):
    """No package fits the specification, or its bytes are no UTF-8."""


class ConflictError(Error):
    """The sides of a merge are in conflict. `conflicts` has a line for each conflict."""

    def __init__(self, conflicts: tuple[str, ...]) -> None:
        super().__init__("\n".join(conflicts))
        self.conflicts = conflicts


class MergeRefused(Error, ValueError):
    """A lockfile cannot be merged. It says which, `base`, `ours` or `theirs`, and why."""


@dataclasses.dataclass(frozen=True)
class Merge:
    """A merged lockfile: its text, and a line for each thing that the merge reports: other comments at
    the top of both sides, a version that it chose, a checksum that a side lost, and a dependency on a
    package that neither side has for it."""

    text: str
    moved: tuple[str, ...]


class PackageLine(NamedTuple):
    """A package as `packages` returns it. Its source and its checksum, 64 hex digits, may be missing."""

    name: str
    version: str
    source: Optional[str]
    checksum: Optional[str]


class Edge(NamedTuple):
    """An edge, by the numbers of two packages in the lockfile's order, from 0: `start` depends on
    `end`."""

    start: int
    end: int


# ---- the calls

def format_of(text: Text) -> int:
    """The number of the lockfile's format, 1 to 4. Raises `NotALockfile`."""
    given = _bytes(text)
    number = ctypes.c_uint32(0)
    _stop_unless_done(given, _library().cargo_lock_format(given, len(given), number))
    return number.value


def fault(text: Text) -> Optional[str]:
    """Why the text is no lockfile, in words, or `None` where it is one."""
    given = _bytes(text)
    try:
        return _answer(given, _library().cargo_lock_fault).decode() or None
    except NotALockfile as error:
        return str(error)


def survives(text: Text, number: int) -> bool:
    """Whether the lockfile survives the format of this number, 1 to 4: whether its table, written
    in it, is read back as a lockfile of this format with equal packages, root and patches. Raises
    `NotALockfile` and `FormatError`."""
    given = _bytes(text)
    status = _library().cargo_lock_survives(given, len(given), _format(number))
    if status == _LOST:
        return False
    _stop_unless_done(given, status)
    return True


def translate(text: Text, number: int) -> str:
    """The text of the lockfile in the format of this number, 1 to 4. A root, and the replacement of
    a package with dependencies, are in no text. Raises `LostError` where the lockfile does not
    survive the format as a table, `NotALockfile` and `FormatError`."""
    return _answer(_bytes(text), _library().cargo_lock_translate, _format(number)).decode()


def packages(text: Text) -> list[PackageLine]:
    """The packages in the lockfile's order. Raises `NotALockfile`, and `LineError` where a name or
    a source has a control character or a separator of lines."""
    lines = _answer(_bytes(text), _library().cargo_lock_packages).decode().split("\n")[:-1]
    rows = [line.split("\t") for line in lines]
    return [PackageLine(row[0], row[1], row[2] or None, row[3] or None) for row in rows]


def edges(text: Text) -> list[Edge]:
    """The edges of the graph of packages: those of package 0 first, and of each package the one for
    its last dependency first. A dependency leads to the package of its own name, version, URL and
    reference, or where that does not match, as in a tree; and on to what replaces that package. Raises
    `NotALockfile` and `UnresolvedError`."""
    given = _bytes(text)
    count = ctypes.c_size_t(0)
    room = (_Edge * 0)()
    status = _NO_ROOM
    while status == _NO_ROOM:
        room = (_Edge * count.value)()
        status = _library().cargo_lock_edges(given, len(given), room, len(room), count)
    _stop_unless_done(given, status)
    return [Edge(it.start, it.end) for it in room[: count.value]]


def tree(text: Text, package: int, inverted: bool = False, exact: bool = False) -> str:
    """The drawing of the tree of a package, by its number in the lockfile's order: of what it
    depends on, or, where it is inverted, of what depends on it. Exact labels have the checksum
    too, or else the source. Raises `NotALockfile`, `UnresolvedError`, and `PackageError` where
    there is no package of that number."""
    given = _bytes(text)
    if not 0 <= package < 2**64:
        raise PackageError(f"there is no package {package}")
    return _answer(given, _library().cargo_lock_tree, package, inverted, exact).decode()


def diff(old: Text, new: Text, dependencies: bool = False) -> str:
    """What differs between the packages of two lockfiles, a line for each change, as `cargo-lock
    diff` prints it, without the last line that counts them; with `dependencies` also other
    dependencies of packages, as under `-d`. Raises
    `NotALockfile`, whose words begin `old: ` or `new: ` by the text that is refused."""
    before, after = _bytes(old), _bytes(new)

    def call(given: bytes, length: int, *words: Any) -> int:
        return _library().cargo_lock_diff(given, length, after, len(after), dependencies, *words)

    try:
        return _answer(before, call).decode()
    except _LaterText as refusal:
        raise NotALockfile(f"new: {_why_not(after, refusal.status)}") from None
    except NotALockfile as refusal:
        raise NotALockfile(f"old: {refusal}") from None


def merge(base: Text, ours: Text, theirs: Text) -> Merge:
    """The merge of two lockfiles over their common ancestor, by packages, as `cargo-lock merge`
    prints it. An empty base is a lockfile without packages. Each text is read twice, once for the
    references that moved. No lockfile says which versions a requirement admits, so ask `cargo
    metadata --locked` after a merge. Raises `ConflictError`, `MergeRefused` where a lockfile cannot
    be merged, and `NotALockfile`, whose words begin `base: `, `ours: ` or `theirs: ` by the text that
    is refused."""
    sides = _bytes(base), _bytes(ours), _bytes(theirs)
    text = _merged(_library().cargo_lock_merge, sides)
    return Merge(text, _lines(_merged(_library().cargo_lock_merge_moved, sides)))


def check(text: Text) -> list[str]:
    """What is wrong with the lockfile, a line for each finding, as `cargo-lock check` prints it.
    Raises `NotALockfile`."""
    return _answer(_bytes(text), _library().cargo_lock_check).decode().split("\n")[:-1]


def bill(text: Text, compact: bool = False) -> str:
    """The bill of materials of the lockfile, CycloneDX 1.6 in JSON, as `cargo-lock bom` prints it
    without options, and where it is compact as under `--compact`, in one line. Raises
    `NotALockfile`, `UnresolvedError` and `RepeatedError`."""
    return _answer(_bytes(text), _library().cargo_lock_bill, compact).decode()


def why(text: Text, spec: Text, all: bool = False) -> str:
    """Why the packages that a specification fits are in the lockfile, in one line of JSON, as
    `cargo-lock why --json -f -` prints it: a shortest chain of dependencies for each, and with
    `all` one from each root that leads to it, as under `--all`. A specification is a name, a
    version, both as NAME@VERSION, a checksum or a commit. Raises `NotALockfile`, `UnresolvedError`
    and `SpecError`."""
    wanted = _bytes(spec)
    return _answer(_bytes(text), _library().cargo_lock_why, wanted, len(wanted), all).decode()


def duplicates(text: Text) -> str:
    """The names that several packages of the lockfile have, with these packages and what depends on
    each, in one line of JSON, as `cargo-lock duplicates --json -f -` prints it. Raises
    `NotALockfile` and `UnresolvedError`."""
    return _answer(_bytes(text), _library().cargo_lock_duplicates).decode()


def json(text: Text) -> str:
    """The lockfile as one line of JSON, as `cargo-lock json -f -` prints it: its packages, with the
    places of the packages on which each depends. `Lockfile` reads it. Raises `NotALockfile`."""
    return _answer(_bytes(text), _library().cargo_lock_json).decode()


# ---- how they are made

_INTERFACE = 1
_FILE = f"libcargo_lock.so.{_INTERFACE}"
_DONE, _NO_LOCKFILE, _NO_TEXT, _NO_MEMORY, _NO_FORMAT = range(5)
_NO_ROOM, _LOST, _UNRESOLVED, _NO_PACKAGE, _NO_LINE = range(5, 10)
_REPEATED, _NOTHING_FITS, _NO_SPEC_TEXT = 12, 13, 14
_CONFLICTS, _REFUSED = 15, (16, 17, 18)
# What is said of the second of several texts and of the third: which one, and what is said of a text
# alone.
_OF_LATER = {10: (1, _NO_LOCKFILE), 11: (1, _NO_TEXT), 19: (2, _NO_LOCKFILE), 20: (2, _NO_TEXT)}

_ERRORS: dict[int, tuple[type[Error], str]] = {
    _NO_TEXT: (NotALockfile, "the bytes are no UTF-8"),
    _NO_FORMAT: (FormatError, "the number of a format is 1 to 4"),
    _LOST: (LostError, "the lockfile does not survive the format"),
    _UNRESOLVED: (UnresolvedError, "no package fits some dependency"),
    _NO_PACKAGE: (PackageError, "there is no package of that number"),
    _NO_LINE: (LineError, "a name or a source has a control character or ends a line"),
    _REPEATED: (RepeatedError, "a bill would refer to two packages by one text"),
    _NOTHING_FITS: (SpecError, "no package fits the specification"),
    _NO_SPEC_TEXT: (SpecError, "the bytes of the specification are no UTF-8"),
}


class _LaterText(Exception):
    """The second or the third of several texts is refused, with the status that a text alone would
    have."""

    def __init__(self, place: int, status: int) -> None:
        super().__init__(status)
        self.place, self.status = place, status


class _Edge(ctypes.Structure):
    _fields_ = [("start", ctypes.c_size_t), ("end", ctypes.c_size_t)]


# The parameters of each call after those of the text.
_ROOM = [ctypes.c_void_p, ctypes.c_size_t, ctypes.POINTER(ctypes.c_size_t)]
_CALLS: dict[str, list[Any]] = {
    "format": [ctypes.POINTER(ctypes.c_uint32)],
    "fault": _ROOM,
    "survives": [ctypes.c_uint32],
    "translate": [ctypes.c_uint32, *_ROOM],
    "packages": _ROOM,
    "edges": _ROOM,
    "tree": [ctypes.c_size_t, ctypes.c_bool, ctypes.c_bool, *_ROOM],
    "diff": [ctypes.c_char_p, ctypes.c_size_t, ctypes.c_bool, *_ROOM],
    "check": _ROOM,
    "bill": [ctypes.c_bool, *_ROOM],
    "why": [ctypes.c_char_p, ctypes.c_size_t, ctypes.c_bool, *_ROOM],
    "duplicates": _ROOM,
    "json": _ROOM,
    "merge": [ctypes.c_char_p, ctypes.c_size_t, ctypes.c_char_p, ctypes.c_size_t, *_ROOM],
    "merge_moved": [ctypes.c_char_p, ctypes.c_size_t, ctypes.c_char_p, ctypes.c_size_t, *_ROOM],
}

_loaded: Optional[ctypes.CDLL] = None


def _library() -> ctypes.CDLL:
    """The library, which is loaded at the first call."""
    global _loaded
    if _loaded is None:
        _loaded = _load()
    return _loaded


def _load() -> ctypes.CDLL:
    """Loads the library. Nothing but the number of its interface is asked of a library that may
    have another one, of which no other call is known."""
    path = _path()
    library = ctypes.CDLL(path)
    interface = getattr(library, "cargo_lock_interface", None)
    if interface is None:
        raise ImportError(f"{path} is no library cargo_lock")
    interface.argtypes, interface.restype = [], ctypes.c_uint32
    if interface() != _INTERFACE:
        raise ImportError(f"{path} does not have interface {_INTERFACE}")
    for name, parameters in _CALLS.items():
        call = getattr(library, f"cargo_lock_{name}")
        call.argtypes = [ctypes.c_char_p, ctypes.c_size_t, *parameters]
        call.restype = ctypes.c_uint32
    return library


def _path() -> str:
    """Where the library is. A path that is not absolute is refused: it would lead to another file
    in each folder, and a name alone to wherever the system looks."""
    path = os.environ.get("CARGO_LOCK_LIBRARY")
    if path and not os.path.isabs(path):
        raise ImportError(f"CARGO_LOCK_LIBRARY is no absolute path: {path!r}")
    beside = os.path.join(os.path.dirname(os.path.abspath(__file__)), _FILE)
    return path or (beside if os.path.exists(beside) else _FILE)


def _bytes(text: Text) -> bytes:
    """The bytes of a text. Of a number `bytes` would make as many zeros."""
    if isinstance(text, str):
        return text.encode()
    if isinstance(text, (bytes, bytearray, memoryview)):
        return bytes(text)
    raise TypeError(f"a text is str, bytes, bytearray or memoryview, not {type(text).__name__}")


def _format(number: int) -> int:
    """The number of a format as the library takes it: those of other widths are no format's."""
    return number if 0 <= number < 2**32 else 0


def _answer(given: bytes, call: Callable[..., int], *words: Any) -> bytes:
    """The bytes that a call answers."""
    status, answer = _answered(2 * len(given) + 4096, given, call, *words)
    _stop_unless_done(given, status)
    return answer


def _answered(first: int, given: bytes, call: Callable[..., int], *words: Any) -> tuple[int, bytes]:
    """The status of a call, and the bytes that it sets, if it sets some. The first room should be
    enough for most answers, so that the texts are read once; if it is not, it is made as long as it
    has to be."""
    length = ctypes.c_size_t(first)
    status = _NO_ROOM
    while status == _NO_ROOM:
        room = ctypes.create_string_buffer(length.value)
        status = call(given, len(given), *words, room, len(room), length)
    return status, room.raw[: length.value]


def _merged(call: Callable[..., int], sides: tuple[bytes, bytes, bytes]) -> str:
    """The text that a call of a merge answers."""
    base, ours, theirs = sides
    room = 2 * (len(ours) + len(theirs)) + 4096
    status, text = _answered(room, base, call, ours, len(ours), theirs, len(theirs))
    if status == _CONFLICTS:
        raise ConflictError(_lines(text.decode()))
    if status in _REFUSED:
        raise MergeRefused(*_lines(text.decode()))
    try:
        _stop_unless_done(base, status)
    except _LaterText as refusal:
        side, words = ("base", "ours", "theirs")[refusal.place], sides[refusal.place]
        raise NotALockfile(f"{side}: {_why_not(words, refusal.status)}") from None
    except NotALockfile as refusal:
        raise NotALockfile(f"base: {refusal}") from None
    return text.decode()


def _lines(text: str) -> tuple[str, ...]:
    return tuple(text.split("\n")[:-1])


def _stop_unless_done(given: bytes, status: int) -> None:
    if status == _DONE:
        return
    if status == _NO_MEMORY:
        raise MemoryError
    if status in _OF_LATER:
        raise _LaterText(*_OF_LATER[status])
    if status == _NO_LOCKFILE:
        raise NotALockfile(_why_not(given, status))
    kind, words = _ERRORS[status]
    raise kind(words)


def _why_not(given: bytes, status: int) -> str:
    """Why a text is no lockfile, by the status that says so."""
    return _ERRORS[status][1] if status in _ERRORS else fault(given) or "no lockfile"
