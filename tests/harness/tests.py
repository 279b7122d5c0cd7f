"""The tests of the crates of this folder, as functions that a program calls by their names.

A test is a function under `#[test]`, which `rt test` runs. In a copy of the sources it becomes a
plain public function, and `table` makes the file that calls each of them. Only `main` and a test
can end the process with the runtime that they take. So each function of the copy takes besides what
ends the process, and asserts by that.
"""
import re

import crates

TEST = re.compile(r"^#\[test\]\nfn (\w+)\(rt: HostRuntime\)", re.M)
MODULE = re.compile(r"^#\[cfg\(test\)\]\nmod (\w+);", re.M)
# What ends the process where it fails: a macro, and a method.
ASSERTION = re.compile(r"\b((?:assert\w*|panic|unreachable)!\()rt;")
EXPECTATION = re.compile(r"(\.expect\()&rt,")
TABLE = """//! What `tests/harness/run` asks by a name: each test, and the examples.
//! `tests/harness/tests.py` makes this file.

use std::process::{{Abort, ExitCode, Termination}};
use std::rt::HostRuntime;

/// Whether what has this name passed, if there is such a thing.
pub fn run<A: Abort>(rt: &HostRuntime, abort: &A, name: &str) -> Option<bool> {{
    match name {{
{arms}
        _ => None,
    }}
}}

fn ended<T: Termination>(rt: &HostRuntime, answer: T) -> Option<bool> {{
    Some(answer.report(rt) == ExitCode::SUCCESS)
}}
"""


def plain(text):
    """Returns the text of a source with its tests as public functions."""
    function = r"pub fn \1<A: std::process::Abort>(rt: HostRuntime, abort: &A)"
    made = MODULE.sub(r"pub mod \1;", TEST.sub(function, text))
    made = EXPECTATION.sub(r"\1abort,", ASSERTION.sub(r"\1abort;", made))
    left = re.search(r"^.*(#\[test\]|cfg\(test\)|#\[should_panic|#\[ignore).*$", made, re.M)
    if left:
        raise ValueError(f"a test has a form that tests/harness/tests.py does not know: {left[0]}")
    return made


def path_of(crate, source):
    """Returns the path of the module that a file is, such as `library_tests::chains`."""
    parts = [crate, *source.removesuffix(".rt").split("/")]
    return "::".join(parts[:-1] if parts[-1] == "lib" else parts)


def names():
    """Returns the name of each test, as a path."""
    found = []
    for crate in crates.libraries():
        for source in crates.sources(crate):
            text = crates.read(f"{crates.HERE}/{crate}/src/{source}.in")
            found += [f"{path_of(crate, source)}::{it}" for it in TEST.findall(text)]
    return found


def has_examples():
    return "examples" in crates.libraries()


def table():
    """Returns the text of the file that calls each test by its name."""
    arms = [f'        "{it}" => ended(rt, {it}(*rt, abort)),' for it in names()]
    if has_examples():
        arms.append('        "examples" => ended(rt, examples::run(rt)),')
    return TABLE.format(arms="\n".join(arms))
