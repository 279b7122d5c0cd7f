"""What a run will take: the seconds that each crate was seen to take, and a schedule of them."""
import itertools
import os
import re

from machine import ROOT

# Seconds of one processor, from nothing: those of the machine of WORKING.md, and those of the last
# run here.
TRACKED = f"{ROOT}/tools/gate/seconds"
LAST = f"{ROOT}/out/checked/seconds"
# What a crate is reckoned to take that has no line yet.
UNKNOWN = 200


def uses_of(lines):
    """Returns the crates of the lines of a crates.txt, each with the crates that it uses."""
    rows = {re.match(r"\w+", it)[0]: it for it in lines if re.match(r"\w", it)}
    return {name: [it for it in line.partition(":")[2].split() if it in rows]
            for name, line in rows.items()}


def read(path):
    """Returns the seconds of a file, by the name of the crate or the stage."""
    if not os.path.isfile(path):
        return {}
    with open(path, encoding="utf-8") as file:
        rows = [line.rpartition(" ") for line in file if line.strip() and not line.startswith("#")]
    return {name: float(seconds) for name, _, seconds in rows}


def seconds():
    """Returns the seconds of each crate and stage: those of the last run here go before."""
    return read(TRACKED) | read(LAST)


def write(path, found):
    os.makedirs(os.path.dirname(path), exist_ok=True)
    with open(path, "w", encoding="utf-8") as file:
        file.write("# Seconds of one processor, from nothing. `./check` writes this file.\n")
        file.writelines(f"{name} {found[name]:.0f}\n" for name in sorted(found))


def chains(uses, takes):
    """Returns for each crate the seconds of the longest chain that begins with it."""
    above = {name: [] for name in uses}
    for name, below in uses.items():
        for it in below:
            above[it].append(name)
    found = {}

    def chain(name):
        if name not in found:
            found[name] = takes[name] + max(map(chain, above[name]), default=0)
        return found[name]

    for name in uses:
        chain(name)
    return found


def placed(uses, takes, lanes):
    """Returns when each begins and ends, in seconds, if each lane takes, of the crates whose own
    uses are proved, the one with the longest chain."""
    behind, ended, found, now = chains(uses, takes), set(), {}, 0
    left, running = sorted(uses, key=lambda it: -behind[it]), {}
    while left or running:
        ready = [it for it in left if ended.issuperset(uses[it])][: lanes - len(running)]
        for name in ready:
            left.remove(name)
            running[name] = now + takes[name]
            found[name] = (now, running[name])
        name = min(running, key=running.get)
        now = running.pop(name)
        ended.add(name)
    return found


def schedule(uses, takes, lanes):
    """Returns the seconds until all is proved."""
    return max((end for _, end in placed(uses, takes, lanes).values()), default=0)


def alone(uses, takes, lanes):
    """Returns the crates at the beginning of a schedule, and those at its end, beside which at
    least half of the lanes have nothing to do. A crate of the beginning has the longest chain."""
    at, behind = placed(uses, takes, lanes), chains(uses, takes)

    def is_alone(name):
        begin, end = at[name]
        worked = sum(max(0, min(end, there[1]) - max(begin, there[0])) for there in at.values())
        return worked <= (end - begin) * lanes / 2

    whole = max(behind.values())
    longest = [it for it in sorted(uses, key=at.get) if behind[it] + at[it][0] == whole]
    first = [*itertools.takewhile(is_alone, longest)]
    last = [*itertools.takewhile(is_alone, sorted(uses, key=lambda it: -at[it][1]))]
    return first, [it for it in reversed(last) if it not in first]


def takes_of(uses):
    known = seconds()
    return {name: known.get(name, UNKNOWN) for name in uses}


def shown(seconds):
    """Returns seconds as minutes and seconds."""
    return f"{int(seconds) // 60}:{int(seconds) % 60:02}"
