"""Counts instructions with callgrind, which are the same on every run and on every load."""
import os
import re
import subprocess
import sys

import merges
import shapes

COMMANDS = {
    "list": ["list", "-f"],
    "translate -v 4": ["translate", "-v", "4", "-f"],
    "translate -v 3 --check": ["translate", "-v", "3", "--check", "-f"],
    "tree": ["tree", "-f"],
    "tree -i": ["tree", "-i", "-f"],
    "diff": ["diff"],
    "check": ["check", "-f"],
    "bom": ["bom", "-f"],
    "json": ["json", "-f"],
}
# `list` makes what Cargo wrote from its words: in V4 by 0.61 times the TOML alone, and in V1, whose
# values are made first, by 0.98 times. By its table it takes 1.7 times the TOML alone.
LIST_AT_MOST = 0.75
LIST_AT_MOST_IN_V1 = 1.1


def count(words):
    """The instructions of a run, in millions."""
    call = ["valgrind", "--tool=callgrind", "--callgrind-out-file=/dev/null", *words]
    ran = subprocess.run(call, stdout=subprocess.DEVNULL, stderr=subprocess.PIPE, text=True)
    found = re.search(r"Collected : (\d+)", ran.stderr)
    if not found:
        sys.exit(f"valgrind counts nothing: {ran.stderr}")
    return int(found[1]) / 1e6


def other_path(path):
    """The path of a lockfile in which every tenth checksum is another."""
    other, seen = path.replace(".lock", "-other.lock"), 0
    with open(path, encoding="utf-8") as file, open(other, "w", encoding="utf-8") as out:
        for line in file:
            if "checksum" in line:
                seen += 1
                if seen % 10 == 0:
                    line = re.sub(r'[0-9a-f]{64}"', lambda it: f'{it[0][-2::-1]}"', line)
            out.write(line)
    return other


def counts(asked, alone, path):
    """The instructions of reading the TOML alone, and of each command."""
    found = [count([alone, path])]
    for name, words in COMMANDS.items():
        paths = [other_path(path), path] if name == "diff" else [path]
        found.append(count([asked.program, *words, *paths]))
    return found


def measure_all(asked, alone, bench):
    """Prints a row for each lockfile, and returns the counts of each kind and size."""
    found = {}
    bench.head(["Lockfile", "Packages", "TOML alone", *COMMANDS])
    for names in asked.names:
        for form in asked.formats:
            for size in asked.sizes:
                path = bench.generated(asked, names, form, size)
                base, *took = found[names, form, size] = counts(asked, alone, path)
                cells = [f"{it / base:.2f}" for it in took]
                title = f"V{form}, {bench.NAMES[names][0]}"
                bench.row([title, f"{size:,}", f"{base:,.0f}", *cells])
    return found


def is_by_words(found, bench):
    """Whether no `list` takes as much as one by the table of TOML. Says which ones do."""
    kept = True
    for (names, form, size), (alone, of_list, *_) in found.items():
        most = LIST_AT_MOST_IN_V1 if form == 1 else LIST_AT_MOST
        if of_list > most * alone:
            kept = False
            print(f"\nV{form}, {bench.NAMES[names][0]}, {size:,} packages: `list` takes over "
                  f"{most} times the TOML alone")
    return kept


def print_growth(asked, found, bench):
    """Prints the growth from the least size to the greatest."""
    first, last = asked.sizes[0], asked.sizes[-1]
    print(f"\nGrowth of instructions from {first:,} to {last:,} packages:\n")
    bench.head(["Lockfile", "TOML alone", *COMMANDS])
    for names in asked.names:
        for form in asked.formats:
            pairs = zip(found[names, form, first], found[names, form, last])
            cells = [f"{last / first:.1f}" for first, last in pairs]
            bench.row([f"V{form}, {bench.NAMES[names][0]}", *cells])


def of_shape(asked, words, make, size, bench):
    """The instructions of a command over a lockfile of a shape, and what a run of it took."""
    texts, specs = make(size)
    paths = [f"{asked.work}/shape-{number}.lock" for number in range(len(texts))]
    for path, text in zip(paths, texts):
        with open(path, "w", encoding="utf-8") as out:
            out.write(text)
    call = [asked.program, *words, *paths, *specs]
    return count(call), bench.run_once(call, asked.limit)


def faults_of(name, growths, runs):
    """What is wrong with a shape: a run that took too long, an answer of another kind, or that
    instructions or memory grow by more than they may."""
    if None in runs:
        return [f"{name}: a run takes longer than the limit"]
    refused = [it.status == 2 for it in runs]
    found = [] if refused == [name == shapes.REFUSED] * 2 else [f"{name}: statuses are not as known"]
    grown = [f"{it:.2f}" for it in growths if it > shapes.MOST]
    return found + [f"{name}: growth {it}, and {shapes.MOST} is the most" for it in grown]


def print_shapes(asked, bench):
    """Prints by how much the instructions and the memory grow if a shape has twice the size. Returns
    what is wrong with them."""
    print("\nShapes, in millions of instructions, and the growth of the most memory:\n")
    bench.head(["Shape", "Command", "Packages", "Instructions", "Twice the size", "Growth", "Memory"])
    faults = []
    for name, (words, make, size) in shapes.SHAPES.items():
        counts, runs = zip(*(of_shape(asked, words, make, it, bench) for it in (size, 2 * size)))
        growths = [counts[1] / counts[0]]
        if None not in runs:
            growths.append(runs[1].megabytes / runs[0].megabytes)
        cells = [f"{it:,.0f}" for it in counts] + [f"{it:.2f}" for it in growths]
        bench.row([name, f"`{' '.join(words)}`", f"{size:,}", *cells, *["–"] * (None in runs)])
        faults += faults_of(name, growths, runs)
    return faults


# ---- merges

def written(asked, texts):
    """The paths of the three lockfiles of a merge."""
    paths = [f"{asked.work}/merge-{side}.lock" for side in ("base", "ours", "theirs")]
    for path, text in zip(paths, texts):
        with open(path, "w", encoding="utf-8") as out:
            out.write(text)
    return paths


def of_merge(asked, texts):
    """The instructions of a merge."""
    return count([asked.program, "merge", *written(asked, texts)])


def print_merges(asked, alone, bench):
    """Prints how many times the instructions of reading three TOML texts alone a merge takes, and
    by how much those of shapes grow if there are twice as many packages."""
    print("\nMerges, beside reading the three TOML texts alone:\n")
    bench.head(["Lockfiles", "Packages", "TOML alone", "merge"])
    for form in asked.formats:
        for size in asked.sizes:
            texts = merges.generated(size, form, asked.seed)
            base = sum(count([alone, path]) for path in written(asked, texts))
            cells = [f"{base:,.0f}", f"{of_merge(asked, texts) / base:.2f}"]
            bench.row([f"V{form}, many names", f"{size:,}", *cells])
    print("\nShapes of merges, in millions of instructions:\n")
    bench.head(["Shape", "Packages", "Instructions", "Twice the size", "Growth"])
    for name, (make, size) in merges.SHAPES.items():
        one, two = (of_merge(asked, make(it)) for it in (size, 2 * size))
        bench.row([name, f"{size:,}", f"{one:,.0f}", f"{two:,.0f}", f"{two / one:.2f}"])
