"""Proves crates with `rt ci`, in a copy, and prints a line for each as it is proved."""
import os
import re
import shutil
import subprocess
import threading
import time

import machine
import reckoning
from machine import ROOT
from reckoning import shown

PROVED = re.compile(r"^rt: (\w+)(: its tests are)? (proved|NOT PROVED)")
KEPT = re.compile(r"^rt: (\w+) is kept")
# The parts of a crate that its program and its libraries are made of, and what programs are run on.
LEFT_OUT = ("edits", "must-fail", "out")
TICKS = os.sysconf("SC_CLK_TCK")
# The folder of a crate, or one below it.
INSIDE = re.compile(r"/crates/(\w+)(?:/|$)")


def lines_of(top):
    with open(f"{top}/crates.txt", encoding="utf-8") as file:
        return file.read().splitlines()


def needed(top, names):
    """Returns the crates that these crates need, themselves among them."""
    uses, found, left = reckoning.uses_of(lines_of(top)), set(), list(names)
    while left:
        name = left.pop()
        if name not in found:
            found.add(name)
            left += uses[name]
    return found


def copy_crates(names, folder):
    """Makes a repository of the named crates in a new folder, as they are in the working tree."""
    os.makedirs(f"{folder}/crates")
    # (`rt ci` looks for the top of a repository)
    subprocess.run(["git", "init", "--quiet", folder], check=True)
    shutil.copy(f"{ROOT}/HANDLES", folder)
    with open(f"{folder}/crates.txt", "w", encoding="utf-8") as file:
        file.writelines(f"{line}\n" for line in lines_of(ROOT)
                        if re.split(r"\W", line)[0] in names)
    for name in names:
        to = f"{folder}/crates/{name}"
        shutil.copytree(f"{ROOT}/crates/{name}", to, ignore=shutil.ignore_patterns(*LEFT_OUT))


class Watch(threading.Thread):
    """Looks once a second at the processes of some sessions, which prove a crate where they work in
    its folder, and notes for how long and with how many seconds of processors each crate was at
    work. The folder may be one in a copy of the repository: `rt ci NAME` makes one."""

    def __init__(self, names):
        super().__init__(daemon=True)
        self.names, self.sessions, self.ended = set(names), set(), threading.Event()
        self.began, self.worked = {}, {}

    def run(self):
        while not self.ended.wait(1):
            for process in filter(str.isdigit, os.listdir("/proc")):
                self.look(process)

    def look(self, process):
        try:
            with open(f"/proc/{process}/stat", encoding="utf-8") as file:
                fields = file.read().rpartition(")")[2].split()
            if int(fields[3]) not in self.sessions:
                return
            inside = INSIDE.search(os.readlink(f"/proc/{process}/cwd"))
        except OSError:
            # (it has ended)
            return
        if inside and inside[1] in self.names:
            name = inside[1]
            self.began.setdefault(name, time.monotonic())
            key = (name, process, fields[19])
            self.worked[key] = (int(fields[11]) + int(fields[12])) / TICKS

    def seconds(self):
        """Returns the seconds of processors that each crate took, once all has ended."""
        found = {}
        for (name, _, _), worked in self.worked.items():
            found[name] = found.get(name, 0) + worked
        return found


class Progress:
    """Prints a line for each crate, in `rt ci`'s order, once in several runs."""

    def __init__(self, count, watch):
        self.count, self.watch, self.ended, self.proved = count, watch, set(), 0

    def take(self, line):
        proved, kept = PROVED.match(line), KEPT.match(line)
        if kept:
            self.say(kept[1], "kept")
        elif proved and proved[3] == "NOT PROVED":
            print(f"{proved[1]}{' (tests)' if proved[2] else ''} NOT PROVED", flush=True)
        elif proved and not proved[2]:
            began = self.watch.began.get(proved[1], time.monotonic())
            self.proved += 1
            self.say(proved[1], shown(time.monotonic() - began))

    def say(self, name, what):
        if name not in self.ended:
            self.ended.add(name)
            print(f"[{len(self.ended):2}/{self.count}] {name} {what}", flush=True)


def reckoned(top):
    """Returns the seconds that the proofs of a repository are reckoned to take here, from
    nothing."""
    uses = reckoning.uses_of(lines_of(top))
    return reckoning.schedule(uses, reckoning.takes_of(uses), machine.jobs())


class Prover:
    """Runs `rt ci` at the top of a repository, and adds up what it takes. All that it prints is in
    the log."""

    def __init__(self, top, log):
        self.top, self.out, self.worked = top, open(log, "w", encoding="utf-8"), 0
        names = reckoning.uses_of(lines_of(top))
        self.watch = Watch(names)
        self.progress = Progress(len(names), self.watch)
        self.watch.start()

    def run(self, words, has_jobs, started=lambda child: None):
        """Returns the status of a run. With `has_jobs` it proves so many crates at once, each with
        one job. Else the kit shares out the processors, and gives a crate those that are idle."""
        environment = {it: os.environ[it] for it in os.environ if it != "RT_JOBS"}
        environment |= {"RT_JOBS": str(machine.jobs())} if has_jobs else {}
        child = subprocess.Popen(["rt", "ci", *words], cwd=self.top, env=environment, text=True,
                                 errors="replace", start_new_session=True,
                                 stdout=subprocess.PIPE, stderr=subprocess.STDOUT,
                                 stdin=subprocess.DEVNULL)
        self.watch.sessions.add(child.pid)
        started(child)
        for line in child.stdout:
            self.out.write(line)
            self.out.flush()
            self.progress.take(line)
        _, status, used = os.wait4(child.pid, 0)
        child.returncode = os.waitstatus_to_exitcode(status)
        self.worked += used.ru_utime + used.ru_stime
        return child.returncode

    def end(self):
        """Returns the seconds of all processors, and those of each crate."""
        self.watch.ended.set()
        self.watch.join()
        self.out.close()
        return self.worked, self.watch.seconds()


def prove(top, log, words=(), started=lambda child: None):
    """Proves a repository by one run of `rt ci`, with more words. Returns its status, the seconds
    of all processors, and those of each crate."""
    prover = Prover(top, log)
    status = prover.run(words, True, started)
    return status, *prover.end()


def runs_of(top):
    """Returns the runs that prove a repository from nothing, each with the names of its crates and
    with `has_jobs`. No name stands for all."""
    uses = reckoning.uses_of(lines_of(top))
    first, last = reckoning.alone(uses, reckoning.takes_of(uses), machine.jobs())
    found = [(first, False)] if first else []
    found += [([it for it in uses if it not in last], True)] if last else []
    return [*found, ([], not last)]


def has_parts():
    """Returns whether several runs can prove a repository: the kit keeps what one proved for the
    next, and it is not CI that asks, where `rt ci` takes no names."""
    return machine.keeps_proofs() and os.environ.get("CI") != "true"


def prove_in_parts(top, log, started=lambda child: None):
    """Proves a repository as `prove` does, by several runs where it has parts. The crates beside
    which most processors have nothing to do, at the beginning and at the end, get these too."""
    prover = Prover(top, log)
    left = runs_of(top) if has_parts() else [([], True)]
    status = 0
    while left and not status:
        names, has_jobs = left.pop(0)
        status = prover.run(names, has_jobs, started)
        if names and not prover.progress.proved:
            # (the first crates are kept, and so are most)
            left = [([], True)]
    return status, *prover.end()
