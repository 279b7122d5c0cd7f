"""Tests of the module `cargo_lock`. `bindings/run` runs them."""
import copy
import ctypes
import dataclasses
import json
import os
import pickle
import subprocess
import sys
import threading
import unittest
from unittest import mock

import cargo_lock
from cargo_lock import (
    Dependency, Edge, Finding, Lockfile, Package, PackageLine, Reference, Source,
)

CRATES_IO = "registry+https://github.com/rust-lang/crates.io-index"
CHECKSUM = "0123456789abcdef" * 4
RIGHT = "git+https://example.org/right?branch=main#0123abc"
# Three packages, of which the first depends on both others, and the second on the third.
with open(os.path.join(os.path.dirname(__file__), "..", "three_packages.lock")) as file:
    LOCKFILE = file.read()
with open(os.path.join(os.path.dirname(__file__), "..", "..", "VERSION")) as file:
    VERSION = file.read().strip()
# The size of a stack that the deepest text needs, in KiB: what the header promises.
STACK = int(os.environ.get("CARGO_LOCK_TEST_STACK", "2048"))
DEEPEST = """
import cargo_lock, sys, threading
keys = ".".join("b" * 80)
headers = "".join(f"[[{'.'.join('a' * count)}]]\\n" for count in range(1, 81))
text = headers + f"{keys}={{" * 80 + "b=1" + "}" * 80
threading.stack_size(int(sys.argv[1]) * 1024)
thread = threading.Thread(target=lambda: print(cargo_lock.fault(text)))
thread.start()
thread.join()
"""
UNRESOLVED = """version = 3

[[package]]
name = "app"
version = "0.1.0"
dependencies = [
 "left 1.0.0",
]
"""


class Formats(unittest.TestCase):
    def test_the_number_of_the_format(self):
        self.assertEqual(cargo_lock.format_of(LOCKFILE), 3)
        self.assertEqual(cargo_lock.format_of(LOCKFILE.encode()), 3)
        self.assertEqual(cargo_lock.format_of(""), 2)

    def test_a_text_survives_and_is_printed_as_it_stands(self):
        self.assertTrue(cargo_lock.survives(LOCKFILE, 3))
        self.assertEqual(cargo_lock.translate(LOCKFILE, 3), LOCKFILE)

    def test_a_number_in_the_text_is_that_of_the_format(self):
        text = cargo_lock.translate(LOCKFILE, 4)
        self.assertEqual(text, LOCKFILE.replace("version = 3", "version = 4"))
        self.assertEqual(cargo_lock.format_of(text), 4)

    def test_a_lockfile_without_checksums_does_not_survive_the_first_format(self):
        text = LOCKFILE.replace(f'checksum = "{CHECKSUM}"\n', "")
        self.assertFalse(cargo_lock.survives(text, 1))
        with self.assertRaises(cargo_lock.LostError):
            cargo_lock.translate(text, 1)

    def test_a_number_that_is_no_formats(self):
        for number in (-1, 0, 5, 2**32 + 3, 2**64 + 3):
            with self.assertRaises(cargo_lock.FormatError):
                cargo_lock.survives(LOCKFILE, number)
            with self.assertRaises(cargo_lock.FormatError):
                cargo_lock.translate(LOCKFILE, number)


class Texts(unittest.TestCase):
    CALLS = (
        cargo_lock.format_of,
        cargo_lock.fault,
        lambda text: cargo_lock.survives(text, 3),
        lambda text: cargo_lock.translate(text, 3),
        cargo_lock.packages,
        cargo_lock.edges,
        lambda text: cargo_lock.tree(text, 0),
        lambda text: cargo_lock.tree(text, -1),
        lambda text: cargo_lock.diff(text, LOCKFILE),
        lambda text: cargo_lock.diff(LOCKFILE, text),
        cargo_lock.check,
        cargo_lock.bill,
        cargo_lock.json,
        Lockfile.parse,
    )

    def test_each_type_of_a_text(self):
        given = LOCKFILE.encode()
        for text in (LOCKFILE, given, bytearray(given), memoryview(given)):
            self.assertEqual(cargo_lock.translate(text, 3), LOCKFILE)
            self.assertEqual(cargo_lock.diff(text, text), "")
        part = memoryview(b"xx" + given + b"xx")[2:-2]
        self.assertEqual(cargo_lock.translate(part, 3), LOCKFILE)

    def test_no_other_type_is_a_text(self):
        for other in (0, 5, True, None, 1.5, [118], (), {}, iter([118]), object(), LOCKFILE.split()):
            for call in self.CALLS:
                with self.assertRaisesRegex(TypeError, "^a text is str, bytes, bytearray or memory"):
                    call(other)


class Library:
    """A library of another interface, or none. It counts what is asked of it."""

    def __init__(self, number):
        self.asked = []
        if number is not None:
            self.number = number

    def __getattr__(self, name):
        self.asked.append(name)
        if name != "cargo_lock_interface" or "number" not in vars(self):
            raise AttributeError(name)
        return mock.Mock(return_value=self.number)


class Loading(unittest.TestCase):
    def load(self, path, library):
        """Loads this library in place of the one at the path."""
        with mock.patch.dict(os.environ, CARGO_LOCK_LIBRARY=path):
            with mock.patch.object(ctypes, "CDLL", return_value=library) as opened:
                try:
                    cargo_lock._calls._load()
                finally:
                    self.opened = [it.args for it in opened.call_args_list]

    def test_a_path_that_is_not_absolute_is_refused(self):
        for path in ("libcargo_lock.so.1", "./libcargo_lock.so.1", "../x/libcargo_lock.so.1", "~/x.so"):
            with self.assertRaisesRegex(ImportError, "is no absolute path"):
                self.load(path, Library(1))
            self.assertEqual(self.opened, [])

    def test_a_name_in_the_message_is_in_one_line(self):
        with self.assertRaisesRegex(ImportError, r"^CARGO_LOCK_LIBRARY .*: 'a\\n\\x1b'$"):
            self.load("a\n\x1b", Library(1))

    def test_the_number_of_the_interface_is_asked_before_anything_else(self):
        for number in (0, 2, 2**32 - 1):
            library = Library(number)
            with self.assertRaisesRegex(ImportError, "does not have interface 1"):
                self.load("/nowhere/libcargo_lock.so.1", library)
            self.assertEqual(library.asked, ["cargo_lock_interface"])
            self.assertEqual(self.opened, [("/nowhere/libcargo_lock.so.1",)])

    def test_a_library_without_a_number(self):
        library = Library(None)
        with self.assertRaisesRegex(ImportError, "is no library cargo_lock"):
            self.load("/nowhere/libcargo_lock.so.1", library)
        self.assertEqual(library.asked, ["cargo_lock_interface"])


class Faults(unittest.TestCase):
    def test_words_say_why_a_text_is_no_lockfile(self):
        self.assertIsNone(cargo_lock.fault(LOCKFILE))
        self.assertEqual(cargo_lock.fault("version = 5"), "invalid Cargo.lock format version: `5`")
        with self.assertRaisesRegex(cargo_lock.NotALockfile, "format version: `5`"):
            cargo_lock.format_of("version = 5")
        for call in (cargo_lock.packages, cargo_lock.edges):
            with self.assertRaises(cargo_lock.NotALockfile):
                call("[[package]]")

    def test_bytes_that_are_no_text(self):
        self.assertEqual(cargo_lock.fault(b"\xff"), "the bytes are no UTF-8")
        with self.assertRaises(cargo_lock.NotALockfile):
            cargo_lock.packages(b"\xff")

    def test_faults_are_errors_of_python_too(self):
        with self.assertRaises(ValueError):
            cargo_lock.format_of("version = 5")
        with self.assertRaises(IndexError):
            cargo_lock.tree(LOCKFILE, 3)

    def test_words_longer_than_the_first_room(self):
        source = "x" * 10000
        text = f'[[package]]\nname = "a"\nversion = "1.0.0"\nsource = "{source}"\n'
        self.assertTrue(cargo_lock.fault(text) == f"invalid source `{source}`")


class Packages(unittest.TestCase):
    def test_packages_in_order(self):
        self.assertEqual(
            cargo_lock.packages(LOCKFILE),
            [
                PackageLine("app", "0.1.0", None, None),
                PackageLine("left", "1.0.0", CRATES_IO, CHECKSUM),
                PackageLine("right", "2.0.0+build", RIGHT, None),
            ],
        )
        self.assertEqual(cargo_lock.packages(""), [])

    def test_a_character_that_no_line_has(self):
        for escape in ("\\t", "\\n", "\\u007f", "\\u0085", "\\u2028", "\\u2029"):
            with self.assertRaises(cargo_lock.LineError):
                cargo_lock.packages(f'[[package]]\nname = "a{escape}b"\nversion = "1.0.0"\n')

    def test_a_character_beyond_ascii(self):
        text = '[[package]]\nname = "a\\u00e9\\u2027b"\nversion = "1.0.0"\n'
        wanted = [PackageLine("a\u00e9\u2027b", "1.0.0", None, None)]
        self.assertEqual(cargo_lock.packages(text), wanted)


class Graph(unittest.TestCase):
    def test_edges(self):
        self.assertEqual(cargo_lock.edges(LOCKFILE), [Edge(0, 2), Edge(0, 1), Edge(1, 2)])
        self.assertEqual(cargo_lock.edges(""), [])

    def test_edges_of_own_words_and_to_a_replacement(self):
        git, commit = "git+https://example.org/left", "0123456789" * 4
        text = (
            "version = 4\n"
            '[[package]]\nname = "app"\nversion = "0.1.0"\n'
            f'dependencies = ["left 1.0.0 ({git}?rev={commit})", "right 1.0.0 ({CRATES_IO})"]\n'
            f'[[package]]\nname = "left"\nversion = "1.0.0"\nsource = "{git}?rev={commit}#{commit}"\n'
            f'[[package]]\nname = "left"\nversion = "1.0.0"\nsource = "{git}#{commit}"\n'
            '[[package]]\nname = "right"\nversion = "1.0.0"\n'
            f'[[package]]\nname = "right"\nversion = "1.0.0"\nsource = "{CRATES_IO}"\n'
            'replace = "right 1.0.0"\n'
        )
        self.assertEqual(cargo_lock.edges(text), [Edge(0, 3), Edge(0, 1)])
        self.assertEqual(Lockfile.parse(text).packages[0].dependencies, (1, 3))

    def test_a_dependency_without_a_package(self):
        for call in (cargo_lock.edges, lambda text: cargo_lock.tree(text, 0)):
            with self.assertRaises(cargo_lock.UnresolvedError):
                call(UNRESOLVED)

    def test_drawings(self):
        self.assertEqual(
            cargo_lock.tree(LOCKFILE, 0),
            "app 0.1.0\n├── right 2.0.0+build\n└── left 1.0.0\n    └── right 2.0.0+build\n",
        )
        self.assertEqual(
            cargo_lock.tree(LOCKFILE, 1, inverted=True), "left 1.0.0\n└── app 0.1.0\n"
        )
        self.assertEqual(
            cargo_lock.tree(LOCKFILE, 1, exact=True).splitlines()[0],
            f"left 1.0.0 checksum:{CHECKSUM}",
        )

    def test_a_number_without_a_package(self):
        for number in (-1, 3, 2**63, 2**64):
            with self.assertRaises(cargo_lock.PackageError):
                cargo_lock.tree(LOCKFILE, number)


class Differences(unittest.TestCase):
    NEW = LOCKFILE.replace('"2.0.0+build"', '"2.1.0"').replace(' "left",\n', "")
    CHANGED = f"~ right 2.0.0+build -> 2.1.0 ({RIGHT})\n"

    def test_packages(self):
        self.assertEqual(cargo_lock.diff(LOCKFILE, self.NEW), self.CHANGED)
        self.assertEqual(cargo_lock.diff(LOCKFILE, LOCKFILE.encode()), "")

    def test_dependencies(self):
        self.assertEqual(
            cargo_lock.diff(LOCKFILE, self.NEW, dependencies=True),
            self.CHANGED + "= app 0.1.0 (path): - left 1.0.0\n",
        )

    def test_which_text_is_refused(self):
        for old, new, words in (
            ("version = 5", LOCKFILE, "^old: invalid Cargo.lock format version: `5`$"),
            (LOCKFILE, "version = 5", "^new: invalid Cargo.lock format version: `5`$"),
            (b"\xff", b"\xff", "^old: the bytes are no UTF-8$"),
            (LOCKFILE, b"\xff", "^new: the bytes are no UTF-8$"),
        ):
            with self.assertRaisesRegex(cargo_lock.NotALockfile, words):
                cargo_lock.diff(old, new)


class Findings(unittest.TestCase):
    HEAD = """\
# This file is automatically @generated by Cargo.
# It is not intended for manual editing.
version = 3

[[package]]
"""

    def test_nothing_is_wrong(self):
        self.assertEqual(cargo_lock.check(f'{self.HEAD}name = "a"\nversion = "1.0.0"\n'), [])

    def test_each_finding_is_a_line(self):
        text = f'{self.HEAD}name = "1\\na"\nversion = "1.0.0"\n'
        wanted = ["name: 1\\u{a}a is not a name that Cargo accepts"]
        self.assertEqual(cargo_lock.check(text), wanted)

    def test_a_text_that_is_no_lockfile(self):
        with self.assertRaisesRegex(cargo_lock.NotALockfile, "format version: `5`"):
            cargo_lock.check("version = 5")


class Bills(unittest.TestCase):
    REPEATED = """version = 3
[[package]]
name = "left"
version = "1.0.0"
source = "git+ssh://a@example.org/left"
[[package]]
name = "left"
version = "1.0.0"
source = "git+ssh://b@example.org/left"
"""

    def test_the_packages_and_what_each_depends_on(self):
        bill = json.loads(cargo_lock.bill(LOCKFILE))
        left, right = f"{CRATES_IO}#left@1.0.0", f"{RIGHT}#right@2.0.0+build"
        self.assertEqual([it["bom-ref"] for it in bill["components"]], [left, right])
        self.assertEqual(
            [(it["ref"], it["dependsOn"]) for it in bill["dependencies"]],
            [("app@0.1.0", [left, right]), (left, [right]), (right, [])],
        )
        self.assertEqual(bill["metadata"]["component"]["bom-ref"], "app@0.1.0")
        self.assertEqual(bill["metadata"]["tools"]["components"][0]["version"], VERSION)

    def test_one_line_or_many(self):
        lines, line = cargo_lock.bill(LOCKFILE), cargo_lock.bill(LOCKFILE, compact=True)
        self.assertEqual(json.loads(lines), json.loads(line))
        self.assertEqual(line.index("\n"), len(line) - 1)
        self.assertEqual(lines, json.dumps(json.loads(line), indent=2) + "\n")

    def test_a_root_apart_from_the_packages(self):
        text = '[root]\nname = "app"\nversion = "0.1.0"\n'
        bill = json.loads(cargo_lock.bill(text))
        self.assertEqual(bill["metadata"]["component"]["bom-ref"], "app@0.1.0")
        self.assertEqual(bill["components"], [])

    def test_a_lockfile_without_a_bill(self):
        with self.assertRaises(cargo_lock.UnresolvedError):
            cargo_lock.bill(UNRESOLVED)
        with self.assertRaises(cargo_lock.RepeatedError):
            cargo_lock.bill(self.REPEATED)
        with self.assertRaisesRegex(cargo_lock.NotALockfile, "format version: `5`"):
            cargo_lock.bill("version = 5")


class Documents(unittest.TestCase):
    HEAD = '"path":null,"format":3'
    ORIGIN = (
        '{"kind":"registry","url":"https://github.com/rust-lang/crates.io-index","reference":null,'
        '"precise":null,"crates_io":true}'
    )
    APP = '{"name":"app","version":"0.1.0","source":null,"origin":null,"checksum":null}'
    LEFT = (
        f'{{"name":"left","version":"1.0.0","source":"{CRATES_IO}","origin":{ORIGIN},'
        f'"checksum":"{CHECKSUM}"}}'
    )

    def test_why_a_package_is_there(self):
        wanted = (
            f'{{"schema":"cargo-lock-why/1",{self.HEAD},'
            f'"answers":[{{"package":{self.LEFT},"needed_by":[{self.APP}]}}]}}\n'
        )
        for spec in ("left", "1.0.0", "left@1.0.0", CHECKSUM, b"left"):
            self.assertEqual(cargo_lock.why(LOCKFILE, spec), wanted)
        self.assertEqual(cargo_lock.why(LOCKFILE, "left", all=True), wanted)

    def test_one_chain_or_one_from_each_root(self):
        second = '[[package]]\nname = "second"\nversion = "0.2.0"\ndependencies = ["left"]\n'
        for is_each, wanted in ((False, ["app"]), (True, ["app", "second"])):
            answers = json.loads(cargo_lock.why(f"{LOCKFILE}\n{second}", "left", is_each))["answers"]
            chains = [[it["name"] for it in answer["needed_by"]] for answer in answers]
            self.assertEqual(chains, [[name] for name in wanted])

    def test_a_specification_that_fits_nothing(self):
        for spec in ("lef", "left@2.0.0", "", "@"):
            with self.assertRaisesRegex(cargo_lock.SpecError, "^no package fits"):
                cargo_lock.why(LOCKFILE, spec)
        with self.assertRaisesRegex(cargo_lock.SpecError, "^the bytes .* are no UTF-8$"):
            cargo_lock.why("version = 5", b"\xff")

    def test_names_of_several_packages(self):
        empty = f'{{"schema":"cargo-lock-duplicates/1",{self.HEAD},"names":[]}}\n'
        self.assertEqual(cargo_lock.duplicates(LOCKFILE), empty)
        newer = f'[[package]]\nname = "left"\nversion = "2.0.0"\nsource = "{CRATES_IO}"\n'
        text = f"{LOCKFILE}\n{newer}".replace('"left",', '"left 1.0.0",')
        [left] = json.loads(cargo_lock.duplicates(text))["names"]
        self.assertEqual(left["name"], "left")
        self.assertEqual(left["packages"][0]["package"], json.loads(self.LEFT))
        self.assertEqual(left["packages"][0]["needed_by"], [json.loads(self.APP)])
        self.assertEqual(left["packages"][1]["package"]["version"], "2.0.0")
        self.assertEqual(left["packages"][1]["needed_by"], [])

    def test_a_lockfile_without_a_graph(self):
        for call in (lambda text: cargo_lock.why(text, "app"), cargo_lock.duplicates):
            with self.assertRaises(cargo_lock.UnresolvedError):
                call(UNRESOLVED)
            with self.assertRaisesRegex(cargo_lock.NotALockfile, "format version: `5`"):
                call("version = 5")


class Lockfiles(unittest.TestCase):
    REGISTRY = Source(
        CRATES_IO, "registry", "https://github.com/rust-lang/crates.io-index", None, None, True
    )
    GIT = Source(
        RIGHT, "git", "https://example.org/right", Reference("branch", "main"), "0123abc", False
    )

    def test_packages_and_what_each_depends_on(self):
        lockfile = Lockfile.parse(LOCKFILE)
        self.assertEqual(lockfile.format, 3)
        self.assertEqual(lockfile.packages, (
            Package(0, "app", "0.1.0", None, None, (1, 2), (), None),
            Package(1, "left", "1.0.0", self.REGISTRY, CHECKSUM, (2,), (), None),
            Package(2, "right", "2.0.0+build", self.GIT, None, (), (), None),
        ))
        self.assertIsNone(lockfile.root)
        self.assertEqual((dict(lockfile.metadata), lockfile.patch), ({}, ()))

    def test_the_edges_are_those_of_the_graph(self):
        found = Lockfile.parse(LOCKFILE)
        listed = {(it.index, to) for it in found.packages for to in it.dependencies}
        self.assertEqual(listed, {(it.start, it.end) for it in cargo_lock.edges(LOCKFILE)})

    def test_a_dependency_that_no_package_fits(self):
        [app] = Lockfile.parse(UNRESOLVED).packages
        self.assertEqual(app.dependencies, ())
        self.assertEqual(app.unresolved, (Dependency("left", "1.0.0", None),))

    def test_a_root_metadata_patches_and_a_replacement(self):
        text = (
            f'[root]\nname = "app"\nversion = "0.1.0"\ndependencies = ["left 1.0.0 ({CRATES_IO})"]\n'
            f'[[package]]\nname = "left"\nversion = "1.0.0"\nsource = "{CRATES_IO}"\n'
            f'replace = "left 1.0.1"\n'
            f'[[patch.unused]]\nname = "right"\nversion = "2.0.0+build"\nsource = "{RIGHT}"\n'
            f'[metadata]\n"checksum left 1.0.0 ({CRATES_IO})" = "{CHECKSUM}"\n'
        )
        lockfile = Lockfile.parse(text)
        replacement = Dependency("left", "1.0.1", None)
        left = Package(0, "left", "1.0.0", self.REGISTRY, CHECKSUM, (), (), replacement)
        root = Package(1, "app", "0.1.0", None, None, (0,), (), None)
        self.assertEqual((lockfile.packages, lockfile.root), ((left,), root))
        self.assertEqual(lockfile.metadata, {f"checksum left 1.0.0 ({CRATES_IO})": CHECKSUM})
        self.assertEqual(lockfile.patch, (Dependency("right", "2.0.0+build", self.GIT),))
        self.assertEqual(lockfile.dependents(0), (root,))

    def test_packages_are_found(self):
        lockfile = Lockfile.parse(LOCKFILE)
        app, left, right = lockfile.packages
        self.assertEqual(lockfile.find("left"), (left,))
        self.assertEqual(lockfile.find("left", "1.0.0"), (left,))
        self.assertEqual(lockfile.find("left", "1.0.1"), ())
        self.assertEqual(lockfile.find("lef"), ())
        self.assertEqual(lockfile.dependents(right.index), (app, left))
        self.assertEqual(lockfile.dependents(app.index), ())
        for index in (-1, 3):
            with self.assertRaises(cargo_lock.PackageError):
                lockfile.dependents(index)

    def test_methods_answer_as_the_functions(self):
        lockfile = Lockfile.parse(LOCKFILE)
        self.assertEqual(lockfile.tree(1), cargo_lock.tree(LOCKFILE, 1))
        self.assertEqual(lockfile.tree(2, True, True), cargo_lock.tree(LOCKFILE, 2, True, True))
        self.assertEqual(lockfile.translate(4), cargo_lock.translate(LOCKFILE, 4))
        self.assertEqual([lockfile.survives(it) for it in (1, 2, 3, 4)], [True] * 4)
        self.assertEqual(lockfile.bom(), cargo_lock.bill(LOCKFILE))
        self.assertEqual(lockfile.bom(True), cargo_lock.bill(LOCKFILE, True))
        other = Lockfile.parse(LOCKFILE.replace("0.1.0", "0.2.0"))
        self.assertEqual(lockfile.diff(other), ("~ app 0.1.0 -> 0.2.0 (path) (incompatible)",))
        self.assertEqual(lockfile.diff(lockfile), ())

    def test_findings_have_kinds(self):
        found = Lockfile.parse(UNRESOLVED).check()
        lines = cargo_lock.check(UNRESOLVED)
        self.assertEqual([it.line for it in found], lines)
        self.assertEqual([it.kind for it in found], [line.split(": ")[0] for line in lines])
        self.assertIn("reference", [it.kind for it in found])
        self.assertIsInstance(found[0], Finding)

    def test_lockfiles_are_equal_where_all_but_their_texts_is(self):
        one = Lockfile.parse(LOCKFILE)
        other = Lockfile.parse("# another text\n" + LOCKFILE)
        self.assertEqual((one, hash(one)), (other, hash(other)))
        self.assertNotEqual(one, Lockfile.parse(one.translate(4)))

    def test_a_lockfile_is_copied(self):
        lockfile = Lockfile.parse(LOCKFILE + '[metadata]\nkey = "value"\n')
        self.assertEqual(lockfile.dependents(2), lockfile.packages[:2])
        for copied in (copy.deepcopy(lockfile), pickle.loads(pickle.dumps(lockfile))):
            self.assertEqual((copied, copied.metadata), (lockfile, {"key": "value"}))
            self.assertEqual(copied.check(), lockfile.check())
        self.assertEqual(dataclasses.asdict(lockfile)["metadata"], {"key": "value"})

    def test_a_file_is_loaded(self):
        path = os.path.join(os.path.dirname(__file__), "..", "three_packages.lock")
        self.assertEqual(Lockfile.load(path), Lockfile.parse(LOCKFILE))
        with self.assertRaises(OSError):
            Lockfile.load("no such file")
        with self.assertRaisesRegex(cargo_lock.NotALockfile, "format version: `5`"):
            Lockfile.parse("version = 5")

    def test_eight_threads_at_once(self):
        found = []
        threads = [
            threading.Thread(target=lambda: found.append(Lockfile.parse(LOCKFILE))) for _ in range(8)
        ]
        for thread in threads:
            thread.start()
        for thread in threads:
            thread.join()
        self.assertEqual(found, [Lockfile.parse(LOCKFILE)] * 8)


def with_left(version, right=False):
    """A lockfile with `left` in a version, and with `right`, which needs it, if that is asked."""
    def of_registry(name, version):
        return (
            f'\n[[package]]\nname = "{name}"\nversion = "{version}"\nsource = "{CRATES_IO}"\n'
            f'checksum = "{CHECKSUM}"\n'
        )

    needs = ' "left",\n' + (' "right",\n' if right else "")
    last = of_registry("right", "1.0.0") + 'dependencies = [\n "left",\n]\n'
    return (
        "# This file is automatically @generated by Cargo.\n"
        "# It is not intended for manual editing.\nversion = 4\n\n[[package]]\n"
        f'name = "app"\nversion = "0.1.0"\ndependencies = [\n{needs}]\n'
        + of_registry("left", version)
        + (last if right else "")
    )


class Merges(unittest.TestCase):
    base, later = with_left("1.1.0"), with_left("1.2.0")

    def test_a_merge(self):
        merged = cargo_lock.merge(self.base, self.later, with_left("1.1.0", right=True))
        moved = "moved: right 1.0.0 on left 1.2.0 (theirs: right 1.0.0 on left 1.1.0)"
        self.assertEqual(merged, cargo_lock.Merge(with_left("1.2.0", right=True), (moved,)))
        with self.assertRaises(AttributeError):
            merged.text = ""
        self.assertEqual(cargo_lock.merge("", self.later.encode(), ""), cargo_lock.Merge(self.later, ()))

    def test_conflicts(self):
        with self.assertRaises(cargo_lock.ConflictError) as caught:
            cargo_lock.merge(self.base, self.later, with_left("1.0.0"))
        line = "conflict: left: 1.1.0 -> 1.2.0 (ours), 1.0.0 (theirs)"
        self.assertEqual(caught.exception.conflicts, (line,))
        self.assertEqual(str(caught.exception), line)

    def test_which_lockfile_is_refused(self):
        twice = self.base + self.base[self.base.rindex("\n[[package]]"):]
        for at, side in enumerate(("base", "ours", "theirs")):
            sides = [self.base] * 3
            sides[at] = twice
            with self.assertRaises(cargo_lock.MergeRefused) as caught:
                cargo_lock.merge(*sides)
            self.assertEqual(str(caught.exception), f"{side}: package left 1.1.0 is listed twice")

    def test_which_text_is_refused(self):
        words = "invalid Cargo.lock format version: `5`"
        for at, side in enumerate(("base", "ours", "theirs")):
            for wrong, why in (("version = 5", words), (b"\xff", "the bytes are no UTF-8")):
                sides = [self.base] * at + [wrong] * (3 - at)
                with self.assertRaises(cargo_lock.NotALockfile) as caught:
                    cargo_lock.merge(*sides)
                self.assertEqual(str(caught.exception), f"{side}: {why}")

class Room(unittest.TestCase):
    """What the library leaves of the room that it is given."""

    def test_each_length_of_the_room(self):
        given = LOCKFILE.encode()
        wanted = cargo_lock.tree(given, 0).encode()
        library = cargo_lock._calls._library()
        for size in range(len(wanted) + 2):
            room = ctypes.create_string_buffer(b"?" * (size + 1), size + 1)
            length = ctypes.c_size_t(7)
            status = library.cargo_lock_tree(given, len(given), 0, False, False, room, size, length)
            left = wanted if size >= len(wanted) else b""
            self.assertEqual(status, 0 if size >= len(wanted) else 5)
            self.assertEqual(length.value, len(wanted))
            self.assertEqual(room.raw, left + b"?" * (size + 1 - len(left)))

    def test_a_refusal_changes_nothing(self):
        library = cargo_lock._calls._library()
        room = ctypes.create_string_buffer(b"?" * 64, 64)
        length = ctypes.c_size_t(7)
        self.assertEqual(library.cargo_lock_packages(b"[", 1, room, 64, length), 1)
        self.assertEqual((room.raw, length.value), (b"?" * 64, 7))


class Threads(unittest.TestCase):
    def test_many_at_once(self):
        wanted = cargo_lock.packages(LOCKFILE)
        answers = []
        call = lambda: answers.extend(cargo_lock.packages(LOCKFILE) == wanted for _ in range(200))
        threads = [threading.Thread(target=call) for _ in range(4)]
        for thread in threads:
            thread.start()
        for thread in threads:
            thread.join()
        self.assertEqual(answers, [True] * 800)

    def test_the_deepest_text_on_the_promised_stack(self):
        self.assertEqual(ended(STACK), (0, b"None\n"))

    def test_the_deepest_text_on_a_small_stack(self):
        status, text = ended(64)
        self.assertLess(status, 0)
        self.assertEqual(text, b"")


def ended(kibibytes):
    """The status of a process and what it prints, which asks for the fault of the deepest text in a
    thread with so large a stack. No thread is started in it before, whose stack could be taken."""
    ran = subprocess.run([sys.executable, "-c", DEEPEST, str(kibibytes)], capture_output=True)
    return ran.returncode, ran.stdout


if __name__ == "__main__":
    unittest.main()
