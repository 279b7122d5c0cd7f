"""What the gate asks of the record: whether its lines hold, and a sample of the edits, those of a
crate tried by checks of their functions alone over the libraries that `rt ci` left."""
import os
import tempfile
from collections import Counter
from concurrent.futures import ThreadPoolExecutor

import choice
import record
import rule
from kit import rt

# How many edits the gate tries, and of how many crates: where the bytes hold, or some do not, and
# where the logic is another.
USUAL, OF_LOGIC = (20, 8), (100, 100)
# The memory that a check of some edits of a crate is reckoned to take. (Those of a program have been
# seen to take more.)
NEEDED = 6_000_000_000
# What an edit was seen to take in seconds of one processor where many are tried at once, with its
# share of the checks without edits.
SECONDS = 27


def lanes():
    """Returns how many checks are made at once: one a processor, as far as free memory reaches."""
    with open("/proc/meminfo", encoding="utf-8") as file:
        kilobytes = dict(line.split(":") for line in file)["MemAvailable"].split()[0]
    return max(1, min(os.cpu_count(), 1024 * int(kilobytes) // NEEDED))


def of_crates(pairs):
    counts = Counter(crate.name for crate, _ in pairs)
    return ", ".join(f"{counts[it]} of {it}" for it in sorted(counts))


def others():
    """Returns the other logics of the record."""
    return ", ".join(sorted({*record.read_all()} - {record.logic()}))


def how_to_record(count):
    minutes = count * SECONDS // 60 + 1
    return f"`./check --record` tries all: some {minutes} minutes of a processor for these edits"


def report(states):
    """Returns what is said of the lines of the record, line by line."""
    counts = {name: len(states[name]) for name in record.STATES}
    said = [f"{counts[record.HOLDS]} lines of the record hold under logic {record.logic()}"]
    if counts[record.OTHER_LOGIC]:
        said += [f"{counts[record.OTHER_LOGIC]} lines are of logic {others()}"]
    if counts[record.VOID]:
        void = states[record.VOID]
        said += [f"{len(void)} lines do not hold: run ./check --record ({of_crates(void)})"]
        said += [how_to_record(len(void))]
    return said


def holds(states, is_strict):
    """Prints how the lines hold. Returns 1 where some are void by their bytes and that is a
    failure, as it is in CI, or where, for a release, some are of another logic."""
    for line in report(states):
        print(line)
    is_void = bool(states[record.VOID]) and (is_strict or os.environ.get("CI") == "true")
    return 1 if is_void or is_strict and states[record.OTHER_LOGIC] else 0


def is_of_logic(states):
    """Returns whether the lines fail to hold by the logic alone."""
    return states[record.OTHER_LOGIC] and not states[record.VOID] and not states[record.HOLDS]


def announce(states, drawn, seed):
    total = sum(map(len, states.values()))
    print(f"edits: sample: {len(drawn)} of {total}, seed {seed}: {of_crates(drawn)}", flush=True)
    if is_of_logic(states):
        print(f"record of logic {others()}, this is logic {record.logic()}: "
              f"{len(drawn)} of {total} tried", flush=True)


def refused_of(crate, edits):
    """Returns the edits of a crate that are refused. The checks of their functions alone say so of
    most; another one is tried over the whole crate."""
    refused = rule.try_only(crate, edits)
    for edit in [it for it in edits if it not in refused and not it.bad]:
        with tempfile.TemporaryDirectory(prefix="edits-kept-") as kept:
            if rule.try_round(crate, [edit], kept) or rule.try_alone(crate, edit, kept):
                refused = [*refused, edit]
    return refused


def tried(group):
    """Tries the edits of a crate, and returns for each whether it is refused."""
    crate, edits = group
    refused = refused_of(crate, edits)
    for edit in edits:
        said = "refused" if edit in refused else edit.bad or "NOT REFUSED"
        print(f"{edit.name}: {said}: {record.why(edit)[:160]}", flush=True)
    return [edit in refused for edit in edits]


def groups_of(pairs):
    """Returns the crates of a sample, each with its edits."""
    crates = {crate.name: crate for crate, _ in pairs}
    return [(crate, [edit for of, edit in pairs if of is crate]) for crate in crates.values()]


def run(all_edits, seed, count_of_lanes):
    """Tries a sample, and returns how many passed and how many failed."""
    states = choice.states_of(all_edits)
    drawn = choice.sample(states, seed, *(OF_LOGIC if is_of_logic(states) else USUAL))
    announce(states, drawn, seed)
    with ThreadPoolExecutor(count_of_lanes) as pool:
        found = [it for group in pool.map(tried, groups_of(drawn)) for it in group]
    return sum(found), len(found) - sum(found)
