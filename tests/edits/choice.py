"""Which edits there are, which of them are tried, and what is recorded of them."""
import os
import random
import threading

import record
from kit import ROOT, rt
from rule import Edit

FOLDERS = ("edits", "must-fail")
# Held while the record is read and written, since the crates are tried side by side.
WRITING = threading.Lock()


class Plan:
    """What is tried of a crate: its edits, those that are due, and once they were tried, those that
    were refused."""

    def __init__(self, crate, edits, base):
        self.crate, self.edits, self.base = crate, edits, base
        self.sums = {it: record.sum_of_edit(it) for it in edits}
        self.due, self.refused, self.is_sound, self.fault = [], [], False, ""


def edits_of_all():
    """Returns the crates that have edits, each with them."""
    found = []
    for crate in rt.rtlib.crates_below(ROOT):
        edits = [Edit(crate, it) for it in paths_of(crate.folder) if it.endswith(".edit")]
        found += [(crate, edits)] if edits else []
    return found


def paths_of(folder):
    """Returns the files of a crate's folders of edits."""
    folders = [f"{folder}/{it}" for it in FOLDERS if os.path.isdir(f"{folder}/{it}")]
    return [f"{it}/{name}" for it in folders for name in sorted(os.listdir(it))]


def faults_of(all_edits):
    """Returns why edits cannot be applied or show nothing, a line each."""
    faults, names, texts = [], set(), {}
    for crate, edits in all_edits:
        for it in edits:
            key = (crate.name, *sorted(it.texts.items()))
            why = it.bad or ("a second edit has its name" if it.name in names else "")
            why = why or ("it changes nothing" if not any(it.lines.values()) else "")
            why = why or (f"it is the same as {texts[key]}" if key in texts else "")
            faults += [f"{it.name}: {why}"] if why else []
            names.add(it.name)
            texts.setdefault(key, it.name)
    return faults + strays_of({crate.name for crate, _ in all_edits})


def strays_of(names):
    """Returns the files among edits that are none, and the edits of what is no crate."""
    found = []
    for folder in sorted(os.listdir(f"{ROOT}/crates")):
        for path in paths_of(f"{ROOT}/crates/{folder}"):
            is_edit, short = path.endswith(".edit"), os.path.relpath(path, ROOT)
            is_page = path.endswith(".md")
            found += [] if is_edit or is_page else [f"{short}: no edit"]
            is_lost = is_edit and folder not in names
            found += [f"{short}: crates.txt has no {folder}"] if is_lost else []
    return found


def unknown(all_edits, names):
    """Returns a name that is neither a crate with edits nor an edit, or nothing."""
    known = {crate.name for crate, _ in all_edits}
    known |= {it.name for _, edits in all_edits for it in edits}
    return next((it for it in names if it not in known), None)


def chosen(all_edits, names):
    """Returns the crates, each with its edits that the names choose, or with all."""
    found = []
    for crate, edits in all_edits:
        edits = [it for it in edits if not names or crate.name in names or it.name in names]
        found += [(crate, edits)] if edits else []
    return found


def plans_of(crates, names, is_anew):
    """Returns a plan for each crate. What has no line that holds is due, and what is named."""
    logics, plans = record.read_all(), []
    for crate, edits in crates:
        plan = Plan(crate, edits, record.base_of(crate))
        states = {it: record.state(logics, crate, plan.base, it) for it in edits}
        is_due = lambda it: is_anew or it.name in names or states[it] != record.HOLDS
        plan.due = [it for it in edits if is_due(it)]
        plans.append(plan)
    return plans


def states_of(crates):
    """Returns the edits by how their lines of the record hold."""
    logics, found = record.read_all(), {it: [] for it in record.STATES}
    for crate, edits in crates:
        base = record.base_of(crate)
        for it in edits:
            found[record.state(logics, crate, base, it)].append((crate, it))
    return found


def sample(states, seed, count, most):
    """Draws edits over all crates: first of those whose line is void, then of those whose line is
    of another logic, then of the others. They are of at most so many crates, where these have
    enough, since a check of one takes long, however few it tries. Edits that change no function are
    not drawn: each takes a check of its whole crate."""
    drawn, found = random.Random(seed), []
    for name in (record.VOID, record.OTHER_LOGIC, record.HOLDS):
        able = [pair for pair in states[name] if pair[1].places]
        drawn.shuffle(able)
        crates = list(dict.fromkeys(crate.name for crate, _ in able))[:most]
        able.sort(key=lambda pair: pair[0].name not in crates)
        found += able[: count - len(found)]
    return found


def write_record(plan):
    """Records what was refused of a plan. Returns why it is not recorded, or nothing."""
    now = {edit: record.sum_of_edit(edit) for edit in plan.edits if os.path.isfile(edit.path)}
    if now != plan.sums or record.base_of(plan.crate) != plan.base:
        return f"{plan.crate.name}: a file changed meanwhile, so nothing is recorded"
    if not plan.is_sound:
        return f"{plan.crate.name}: nothing is recorded"
    with WRITING:
        recorded = record.read()
        recorded[plan.crate.name] = (plan.base, lines_of(plan))
        record.write(recorded)
    return ""


def join(crates, paths):
    """Writes the lines that hold for the files at hand, of the record and of those at these paths.
    Returns how many there are."""
    records = [record.read_all(it).get(record.logic(), {}) for it in (record.FILE, *paths)]
    found = {}
    for crate, edits in crates:
        base = record.base_of(crate)
        held = [it for it in edits if any(record.has(made, crate, base, it) for made in records)]
        found[crate.name] = (base, {record.short(it): record.sum_of_edit(it) for it in held})
    record.write(found)
    return sum(len(lines) for _, lines in found.values())


def forget_others(plans):
    """Takes out of the record what is of none of these plans: crates and edits that are gone."""
    recorded, found = record.read(), {}
    for it in plans:
        base, lines = recorded.get(it.crate.name, ("", {}))
        names = {record.short(edit) for edit in it.edits}
        found[it.crate.name] = (base, {name: lines[name] for name in lines if name in names})
    record.write(found)


def lines_of(plan):
    """Returns the lines of a crate's edits: of those that are refused, and by no limit, and of
    those that were not tried, since they have a line that counts."""
    refused = [it for it in plan.refused if not record.is_by_limit(it)]
    kept = [it for it in plan.edits if it in refused or it not in plan.due]
    return {record.short(it): plan.sums[it] for it in kept}
