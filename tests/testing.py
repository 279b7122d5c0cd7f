"""What the tests of the program in Python share: which program is asked, a room for its files, and
the counts of what holds and what fails.

A test `tests/NAME/run` ends with `testing.run(ask)`, where `ask(program, results)` asks the program
at a path and counts each case in `results`. The last line is `N passed, N failed`. If something was
left out, it goes on with `, N skipped`, and the line before it names what. The status is 0 if each
case holds, 1 if one fails or there is none, and 2 if there is no program or the test stops.
"""
import contextlib
import glob
import multiprocessing.pool
import os
import signal
import sys
import tempfile
import traceback

ROOT = os.path.dirname(os.path.dirname(os.path.realpath(__file__)))
# Where the lockfiles of the repository are, but for those that Cargo wrote.
FOLDERS = ("crates/main/data", "tests/harness/examples/data", "tests/rows/data")
# How many faults are printed, and how many characters of each.
MOST, LONGEST = 50, 4000
# The program that `rt ci` or `./install` left.
BUILT = f"{ROOT}/crates/main/out/main"


def stop(why):
    """Ends the test by a fault: nothing more can be asked."""
    print(why, file=sys.stderr)
    sys.exit(2)


def program_at(path):
    """The absolute path of a program, or a fault if there is none."""
    program = os.path.realpath(path)
    if not os.path.isfile(program) or not os.access(program, os.X_OK):
        stop(f"no program {program}: build it by ./install or name it")
    return program


def programs_of(words):
    """The programs that are named, or else the one that was built."""
    options = [it for it in words if it.startswith("-")]
    if options:
        stop(f"an unknown option: {options[0]}")
    return [program_at(it) for it in words or [BUILT]]


def program_of(words):
    """The one program that is named, or else the one that was built."""
    programs = programs_of(words)
    if len(programs) > 1:
        stop("one program is asked at a time")
    return programs[0]


def lockfiles():
    """The paths of the lockfiles of the repository. A folder that has none is a fault."""
    found = {folder: sorted(glob.glob(f"{ROOT}/{folder}/*.lock")) for folder in FOLDERS}
    for folder in found:
        if not found[folder]:
            stop(f"no lockfile in {folder}")
    return [path for folder in FOLDERS for path in found[folder]]


@contextlib.contextmanager
def room(within=None):
    """An empty folder, which is removed at the end."""
    with tempfile.TemporaryDirectory(prefix="cargo-lock-test-", dir=within) as folder:
        yield folder


@contextlib.contextmanager
def threads():
    """A thread for each processor. Each has ended its work before the room of a test is removed."""
    pool = multiprocessing.pool.ThreadPool(os.cpu_count())
    try:
        yield pool
    finally:
        pool.terminate()
        pool.join()


class Results:
    """How many cases hold and fail, and what was left out."""

    def __init__(self):
        self.passed = self.failed = 0
        self.skipped = []

    def hold(self):
        """Counts a case that holds."""
        self.passed += 1

    def fail(self, name, why):
        """Counts a case that fails, and prints why, unless many others failed before."""
        self.failed += 1
        if self.failed <= MOST:
            print(f"failed: {name}: {str(why)[:LONGEST]}", flush=True)

    def holds(self, name, condition, why="it does not hold"):
        """Counts a case by whether the condition holds."""
        if condition:
            self.hold()
        else:
            self.fail(name, why)

    def equal(self, name, found, wanted):
        """Counts a case by whether what is found is what is wanted."""
        self.holds(name, found == wanted, f"{found!r} is not {wanted!r}")

    def skip(self, what, why):
        """Notes something that is left out, such as a shell that is not installed."""
        self.skipped.append(f"{what} ({why})")

    def finish(self):
        """Prints what was left out and the counts, and returns the status."""
        if self.failed > MOST:
            print(f"and {self.failed - MOST} other faults")
        if self.skipped:
            print(f"skipped: {'; '.join(self.skipped)}")
        left_out = f", {len(self.skipped)} skipped" if self.skipped else ""
        print(f"{self.passed} passed, {self.failed} failed{left_out}")
        is_asked = self.passed > 0 or self.skipped
        return 0 if is_asked and not self.failed else 1


def status_of(ask, *words):
    """The status of a test, which is a call whose last argument counts its cases."""
    signal.signal(signal.SIGTERM, lambda *_: sys.exit(2))
    results = Results()
    try:
        ask(*words, results)
    except Exception:
        traceback.print_exc()
        stop("the test stopped before its end")
    return results.finish()


def run(ask):
    """Asks the one program that is named, or else the one that was built, and ends the process."""
    sys.exit(status_of(ask, program_of(sys.argv[1:])))
