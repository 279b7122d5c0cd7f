"""A program whose calls of the C library fail, by the library of failing.c."""
import collections
import itertools
import os
import subprocess

HERE = os.path.dirname(os.path.realpath(__file__))
# More calls than a program makes, and more bytes than it writes.
EVER = 2**62
# How many seconds a run may take.
LIMIT = 60

# Which calls fail, as failing.c reads it.
Turns = collections.namedtuple("Turns", "first last error taken")
# How a run ended, what it printed, and the names of its calls on files that failed.
Answer = collections.namedtuple("Answer", "status out err failed")


def alone(number, error, taken):
    """The call of this number fails, counted from 1."""
    return Turns(number, number, error, taken)


def lasting(number, error, taken):
    """The call of this number fails, and all later ones."""
    return Turns(number, EVER, error, taken)


class Faulty:
    """The program at a path, run in folders of a room."""

    def __init__(self, program, room):
        self.program, self.room = program, room
        self.library = f"{room}/failing.so"
        self.numbers = itertools.count()
        subprocess.run(["gcc", "-O2", "-Wall", "-Wextra", "-Werror", "-shared", "-fPIC", "-o",
                        self.library, f"{HERE}/failing.c"], check=True)

    def folder(self, files):
        """A new folder with these files."""
        path = f"{self.room}/{next(self.numbers)}"
        os.mkdir(path)
        for name, content in files.items():
            with open(f"{path}/{name}", "wb") as file:
                file.write(content)
        return path

    def run(self, words, folder, turns=None, added=None):
        """Runs the program in a folder. `turns` has the calls that fail by the name of their kind,
        FILES, OUT or ERR, and `added` more of the environment."""
        report = f"{self.room}/{next(self.numbers)}.report"
        with open(report, "wb"):
            pass
        faults = {f"FAULTS_{kind}": " ".join(map(str, it)) for kind, it in (turns or {}).items()}
        environment = {"LD_PRELOAD": self.library, "FAULTS_REPORT": report}
        environment |= faults | (added or {})
        ran = subprocess.run([self.program, *words], cwd=folder, env=environment,
                             stdin=subprocess.DEVNULL, capture_output=True, timeout=LIMIT)
        with open(report, encoding="ascii") as file:
            failed = file.read().split()
        os.remove(report)
        return Answer(ran.returncode, ran.stdout, ran.stderr, failed)
