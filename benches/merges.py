"""Three lockfiles of a merge: generated ones, and shapes in which each package, reference or
conflict might be compared with each other one."""
import random
import types

import generate
import shapes
from shapes import CRATES_IO, lockfile, package

# What of a generated lockfile each side changes: one of so many packages.
EACH = 20
COMMITS = "d56fc707", "dc4d69c0", "07fcb61b"


def generated(size, form, seed=1):
    """The texts of a base, of ours and of theirs: each side has later versions of one package of
    twenty, and new packages, one for each hundred."""
    asked = types.SimpleNamespace(
        packages=size, references=3.5, versions=1, sources="all", twins=0.01, roots=10, seed=seed
    )
    base = with_members(generate.lockfile(asked), asked.roots)
    sides = [base, changed(base, 0, seed), changed(base, EACH // 2, seed + 1)]
    return [text_of(side, form) for side in sides]


def copied(packages, change):
    """The packages, each as it is changed, with what they need among these."""
    copies = {id(one): change(at, one)._replace(needs=[]) for at, one in enumerate(packages)}
    for one in packages:
        copies[id(one)].needs.extend(copies[id(it)] for it in one.needs)
    return list(copies.values())


def with_members(packages, roots):
    """The packages, with roots that are members of a workspace: they lead to all others."""
    def change(at, one):
        return one._replace(source=None, commit=None, checksum=None) if at < roots else one

    return copied(packages, change)


def changed(packages, first, seed):
    """The packages of a side: later versions, from the first one on, and new packages."""
    def change(at, one):
        major, minor, patch = one.version
        is_later = at % EACH == first and one.checksum
        return one._replace(version=(major, minor, patch + 100)) if is_later else one

    chance = random.Random(seed)
    made = copied(packages, change)
    for number in range(len(packages) // 100):
        name = f"new-{first}-{number}"
        checksum = generate.digits(chance, 64)
        new = generate.Package(name, (1, 0, 0), CRATES_IO, None, checksum, [])
        new.needs.append(chance.choice(made[len(packages) // 2:len(packages)]))
        made[chance.randrange(10)].needs.append(new)
        made.append(new)
    for one in made:
        one.needs.sort(key=generate.place)
    return made


def text_of(packages, form):
    class Text(list):
        write = list.append

    text = Text()
    generate.write(text, packages, form)
    return "".join(text)


# ---- shapes

def left(number):
    return f"left-{number:06}"


def with_root(names, packages):
    return lockfile(package("app", "0.1.0", needs=names), *packages)


def of_members(count):
    """So many packages of one name without a source; each side has one more."""
    versions = [f"{number}.0.0" for number in range(count)]
    return [
        lockfile(*(package("left", it) for it in (*versions, *more)))
        for more in ((), ("1000000.0.0",), ("2000000.0.0",))
    ]


def of_names(count):
    """So many packages without a source, each of a name of its own, of which each side changes a
    half."""
    return [
        lockfile(*(
            package(left(it), "2.0.0" if it % 2 == change else "1.0.0") for it in range(count)
        ))
        for change in (2, 0, 1)
    ]


def of_versions(count):
    """One name in so many versions, of which each side changes a half."""
    texts = []
    for change in (2, 0, 1):
        versions = [f"{it}.0.{int(it % 2 == change)}" for it in range(1, count + 1)]
        packages = [package("left", it, CRATES_IO, f"{1:064x}") for it in versions]
        texts.append(with_root([f"left {it}" for it in versions], packages))
    return texts


def of_sources(count, source):
    """One name and version from so many sources, of which each side lacks one."""
    texts = []
    for lacking in (count, 0, 1):
        sources = [source(it) for it in range(count) if it != lacking]
        needs = [f"left 1.0.0 ({it})" for it in sources]
        commit = f"#{1:040x}" if sources[0].startswith("git") else ""
        packages = [package("left", "1.0.0", f"{it}{commit}") for it in sources]
        texts.append(with_root(needs, packages))
    return texts


def of_registries(count):
    """One name and version from so many registries."""
    return of_sources(count, lambda it: f"registry+https://index.example/{it:06}")


def with_suffix(count):
    """One name and version from so many git sources, of which two differ only in `.git`."""
    ends = ("", ".git")
    return of_sources(count, lambda it: f"git+https://git.example/{it // 2:06}{ends[it % 2]}")


def of_revisions(count):
    """One name and version from so many revisions of one repository, of which each side lacks one."""
    texts = []
    for lacking in (count, 0, 1):
        commits = [f"{it:040x}" for it in range(count) if it != lacking]
        sources = [f"git+https://git.example/all?rev={it}" for it in commits]
        packages = [package("left", "1.0.0", f"{it}#{it[-40:]}") for it in sources]
        texts.append(with_root([f"left 1.0.0 ({it})" for it in sources], packages))
    return texts


def of_tags(count):
    """One name and version from so many tags of one commit, of which each side lacks one."""
    return of_sources(count, lambda it: f"git+https://git.example/all?tag=v{it:06}")


def of_repository(count):
    """So many packages of one git source, whose commit ours changes, and theirs has one more."""
    texts = []
    for commit, more in ((1, 0), (2, 0), (1, 1)):
        source = f"git+https://git.example/all#{commit:040x}"
        names = [left(it) for it in range(count)]
        packages = [package(it, "1.0.0", source) for it in names]
        new = [package(left(count), "1.0.0", CRATES_IO, f"{1:064x}")] * more
        texts.append(with_root([*names, *[left(count)] * more], [*packages, *new]))
    return texts


def in_conflict(count):
    """So many packages, about the version of each of which the sides are in conflict."""
    texts = []
    for version in ("1.1.0", "1.0.0", "1.2.0"):
        names = [left(it) for it in range(count)]
        packages = [package(it, version, CRATES_IO, f"{1:064x}") for it in names]
        texts.append(with_root(names, packages))
    return texts


def of_commits(count):
    """So many git sources, about the commit of each of which the sides are in conflict."""
    texts = []
    for commit in COMMITS:
        names = [left(it) for it in range(count)]
        source = "git+https://git.example/{}#{}"
        packages = [package(it, "1.0.0", source.format(it, 5 * commit)) for it in names]
        texts.append(with_root(names, packages))
    return texts


def moved_to_one(count):
    """Ours updates one package, and theirs has so many new ones that depend on it."""
    names = [left(it) for it in range(count)]
    right = [package("right", it, CRATES_IO, f"{1:064x}") for it in ("1.0.0", "1.1.0")]
    new = [package(it, "1.0.0", CRATES_IO, f"{1:064x}", ["right"]) for it in names]
    base, ours = (with_root(["right"], [it]) for it in right)
    return [base, ours, with_root([*names, "right"], [*new, right[0]])]


def moved_from_one(count):
    """Ours updates so many packages, and theirs has a new one that depends on each."""
    names = [left(it) for it in range(count)]
    sides = [
        [package(it, version, CRATES_IO, f"{1:064x}") for it in names]
        for version in ("1.0.0", "1.1.0")
    ]
    base, ours = (with_root(names, it) for it in sides)
    new = package("a", "1.0.0", CRATES_IO, f"{1:064x}", names)
    return [base, ours, with_root(["a", *names], [new, *sides[0]])]


def of_one_package(count):
    """One package, on which each side lets one depend: on so many, and on other ones."""
    texts = []
    for side in ("base", "ours", "theirs"):
        names = [f"{side}-{it:06}" for it in range(count)]
        packages = [package(it, "1.0.0", CRATES_IO, f"{1:064x}") for it in names]
        texts.append(with_root(names, packages))
    return texts


def of_metadata(count):
    """V1 with so many packages, whose checksums are in the metadata, and as many keys besides."""
    texts = []
    for side in range(3):
        packages = [package(left(it), "1.0.0", CRATES_IO) for it in range(count)]
        keys = [f'"checksum {left(it)} 1.0.0 ({CRATES_IO})" = "{1:064x}"' for it in range(count)]
        keys += [f'"own {it:06}" = "{side if it % 3 == side else 0}"' for it in range(count)]
        needs = [f"{left(it)} 1.0.0 ({CRATES_IO})" for it in range(count)]
        app = package("app", "0.1.0", needs=needs)
        head = f"{shapes.HEAD}{app}{''.join(packages)}\n[metadata]\n"
        texts.append(head + "\n".join(keys) + "\n")
    return texts


def of_patches(count):
    """So many unused patches, of which each side has others."""
    texts = []
    for side in range(3):
        versions = [f"1.0.{side if it % 3 == side else 0}" for it in range(count)]
        unused = [
            f'\n[[patch.unused]]\nname = "{left(at)}"\nversion = "{it}"\n'
            for at, it in enumerate(versions)
        ]
        texts.append(lockfile(package("app", "0.1.0"), *unused))
    return texts


# What makes the texts, and the packages of the smaller lockfiles.
SHAPES = {
    "members of one name": (of_members, 1000),
    "members of other names": (of_names, 1000),
    "one name in many versions": (of_versions, 1000),
    "one name from many registries": (of_registries, 1000),
    "sources that differ in `.git`": (with_suffix, 1000),
    "revisions of one repository": (of_revisions, 1000),
    "tags of one commit": (of_tags, 1000),
    "packages of one git source": (of_repository, 1000),
    "conflicts about versions": (in_conflict, 1000),
    "conflicts about commits": (of_commits, 1000),
    "moved references to one package": (moved_to_one, 1000),
    "moved references from one package": (moved_from_one, 1000),
    "other dependencies of one package": (of_one_package, 1000),
    "metadata of V1": (of_metadata, 1000),
    "unused patches": (of_patches, 1000),
}
