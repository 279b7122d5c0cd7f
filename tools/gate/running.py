"""Runs the stages of the gate: each once those that it needs have ended, and measures how long it
takes on the clock and of all processors."""
import os
import re
import signal
import subprocess
import sys
import threading
import time

from reckoning import shown

COUNTS = re.compile(r"(\d+) passed, (\d+) failed(?:, \d+ skipped)?")
SKIPPED = re.compile(r"^skipped: .*$", re.M)
# How many lines of a stage are printed: of one that passed, and of one that failed.
OF_PASSED, OF_FAILED = 3, 300
# CI ends a run after 180 minutes without a word.
CLOCK = 165 * 60


class Outcome:
    """What came of a stage."""

    def __init__(self, seconds, worked, status, said):
        self.seconds, self.worked, self.status = seconds, worked, status
        counts = COUNTS.fullmatch(said.rstrip("\n").rpartition("\n")[2])
        self.passed, self.failed = map(int, counts.groups()) if counts else (status == 0, 0)
        if status and not self.failed:
            self.failed = 1
        self.skipped = SKIPPED.findall(said)


class Run:
    """A run of stages, which are printed as they end."""

    def __init__(self, folder, log):
        self.folder, self.log = folder, log
        self.outcomes, self.children, self.lock = {}, set(), threading.Lock()
        self.ended, self.is_stopped = threading.Condition(self.lock), False
        self.began = time.monotonic()
        os.makedirs(log, exist_ok=True)
        clock = threading.Timer(CLOCK, self.stop, ["the gate was stopped after 165 minutes"])
        clock.daemon = True
        clock.start()

    def stop(self, why):
        """Ends all that runs. The stages that it ends fail."""
        with self.lock:
            self.is_stopped = True
            print(f"{why}: {', '.join(sorted(self.running())) or 'no stage'} at work", flush=True)
            for child in self.children:
                kill(child)

    def end_children(self):
        """Ends what still runs, as it does where the run is interrupted."""
        with self.lock:
            for child in self.children:
                kill(child)

    def running(self):
        return {child.stage for child in self.children}

    def call(self, name, words):
        """Runs the command of a stage, and returns its outcome."""
        began, path = time.monotonic(), f"{self.log}/{name.replace(' ', '-')}"
        with open(path, "w", encoding="utf-8") as out:
            child = subprocess.Popen(words, cwd=self.folder, stdin=subprocess.DEVNULL, stdout=out,
                                     stderr=subprocess.STDOUT, start_new_session=True)
            child.stage = name
            with self.lock:
                self.children.add(child)
                if self.is_stopped:
                    kill(child)
            _, status, used = os.wait4(child.pid, 0)
            child.returncode = os.waitstatus_to_exitcode(status)
        with self.lock:
            self.children.discard(child)
        with open(path, encoding="utf-8", errors="replace") as file:
            said = file.read()
        worked = used.ru_utime + used.ru_stime
        return Outcome(time.monotonic() - began, worked, child.returncode, said), said

    def do(self, stage, words):
        """Runs a stage, prints the end of what it said, and notes its outcome."""
        try:
            found, said = self.call(stage.name, words)
        except OSError as error:
            found, said = Outcome(0, 0, 1, ""), f"{words[0]}: {error.strerror}\n"
        lines = said.rstrip("\n").split("\n")[-(OF_FAILED if found.status else OF_PASSED):]
        self.note(stage.name, found, lines)

    def note(self, name, found, lines):
        with self.ended:
            self.outcomes[name] = found
            print(f"== {name}: {'FAILED' if found.status else 'passed'} in {shown(found.seconds)}, "
                  f"{shown(found.worked)} of all processors")
            print("".join(f"{it}\n" for it in lines if it), end="", flush=True)
            self.ended.notify_all()

    def wait(self, names):
        """Waits until stages have ended. Returns whether all of them passed."""
        with self.ended:
            self.ended.wait_for(lambda: all(it in self.outcomes for it in names))
            return all(self.outcomes[it].status == 0 for it in names)

    def begin(self, stage, words_of):
        """Begins a stage in a thread of its own, which waits for those that it needs."""
        def work():
            if self.wait(stage.needs):
                self.do(stage, words_of(stage))
            else:
                lines = [f"not run: it needs {', '.join(stage.needs)}"]
                self.note(stage.name, Outcome(0, 0, 1, ""), lines)

        thread = threading.Thread(target=work, daemon=True)
        thread.start()
        return thread


def kill(child):
    try:
        os.killpg(child.pid, signal.SIGKILL)
    except ProcessLookupError:
        # (it has ended)
        pass


def end(run, more):
    """Prints the minutes of each stage, more lines, what was skipped, and the counts. Returns the
    status."""
    found = run.outcomes
    print("minutes of each stage, on the clock and of all processors:")
    for name, it in found.items():
        failed = " FAILED" if it.status else ""
        print(f"{shown(it.seconds):>8} {shown(it.worked):>8}  {name}{failed}")
    worked = sum(it.worked for it in found.values())
    print(f"{shown(time.monotonic() - run.began):>8} {shown(worked):>8}  in all")
    for line in more:
        print(line)
    for name, it in found.items():
        for line in it.skipped:
            print(f"{name}: {line}")
    passed, failed = (sum(getattr(it, of) for it in found.values()) for of in ("passed", "failed"))
    print(f"{passed} passed, {failed} failed")
    sys.stdout.flush()
    return 1 if failed or not passed else 0
