# What Cargo says of merges, without a network. `tests/git/run` reads this file, and skips it where there
# is no Cargo.

# A member of the workspace with these dependencies, each a line of its manifest.
member() {
    mkdir -p "$1/src"
    touch "$1/src/lib.rs"
    printf '[package]\nname = "%s"\nversion = "0.1.0"\nedition = "2021"\n[dependencies]\n' "$1" \
        > "$1/Cargo.toml"
    printf '%s\n' "${@:2}" >> "$1/Cargo.toml"
}

# Whether Cargo takes the lockfile as it is.
is_locked() {
    cargo metadata --locked --offline --format-version 1 > /dev/null
}

# A repository with a workspace of two members, of which one uses an old version of a crate.
workspace() {
    repository "$1"
    printf '[workspace]\nmembers = ["app", "lib"]\nresolver = "2"\n' > Cargo.toml
    member app 'syn = "1"'
    member lib 'ident = "1"'
    holds "$1: a lockfile" cargo generate-lockfile --offline
    holds "$1: an old version" cargo update --offline -p syn --precise 1.1.0
    holds "$1: the base" commits start
    git checkout -q -b other
}

# Has Cargo write the lockfile again, and commits it as a branch.
locked() {
    holds "$1: Cargo writes it" cargo metadata --offline --format-version 1
    holds "$1: the branch" commits "$1"
}

with_cargo() {
    "$here/tests/git/registry" "$folder/registry" "$CARGO_HOME"
    workspace 'two dependencies'
    member lib 'ident = "1"' 'session = "1"'
    locked 'theirs'
    git checkout -q main
    member app 'sector = "1"' 'syn = "1"'
    locked 'ours'
    holds 'two branches add a dependency each' git merge -q -m merged other
    unprinted moved:
    holds 'Cargo takes the merge' is_locked
    git show HEAD^1:Cargo.lock > "$folder/ours"
    git show HEAD~2:Cargo.lock > "$folder/base"
    git show other:Cargo.lock > "$folder/theirs"
    fails 'the lines have a conflict' git merge-file "$folder/ours" "$folder/base" "$folder/theirs"
    holds 'the merge has both' grep -q sector Cargo.lock
    holds 'and is committed' git diff --quiet HEAD

    workspace 'a moved reference'
    member lib 'seven = "1"'
    locked 'theirs'
    git checkout -q main
    holds 'ours updates' cargo update --offline -p syn
    holds 'ours is committed' commits ours
    holds 'an update and a new user of the old version' git merge -q -m merged other
    printed 'moved: seven 1.0.0 on syn 1.2.0 (theirs: seven 1.0.0 on syn 1.1.0)'
    holds 'Cargo takes it' is_locked

    workspace 'a requirement'
    member lib 'syn = "=1.1.0"'
    locked 'theirs'
    git checkout -q main
    holds 'ours updates, and theirs needs the old version' cargo update --offline -p syn
    holds 'ours is committed' commits ours
    holds 'no lockfile has the requirement' git merge -q -m merged other
    printed 'moved: lib 0.1.0 on syn 1.2.0 (theirs: lib 0.1.0 on syn 1.1.0)'
    fails 'Cargo refuses it' is_locked
    with_raised_members
    with_checksums
}

# Gives the member of a workspace this version.
raise_to() {
    sed -i "s/^version = .*/version = \"$2\"/" "$1/Cargo.toml"
}

# Both branches raise the version of a member, and theirs that of another one too. The manifests are in
# conflict then, and Cargo is asked of the merged lockfile with either of them.
with_raised_members() {
    workspace 'raised members'
    raise_to app 0.2.0
    raise_to lib 0.2.0
    locked 'theirs'
    git checkout -q main
    raise_to app 0.3.0
    locked 'ours'
    fails 'two branches raise a member' git merge -q -m merged other
    printed 'version: app: 0.3.0 (ours), 0.2.0 (theirs): its manifest decides'
    unprinted 'version: lib'
    holds 'the lockfile is merged' test -z "$(git ls-files -u -- Cargo.lock)"
    git show :Cargo.lock > "$folder/merged"
    git checkout -q --theirs app/Cargo.toml
    fails 'Cargo refuses it with the other manifest' is_locked
    holds 'the lockfile is as it was' cmp Cargo.lock "$folder/merged"
    holds 'Cargo writes it' cargo metadata --offline --format-version 1
    sed 's/"0\.3\.0"/"0.2.0"/' "$folder/merged" > "$folder/wanted"
    holds 'its version alone changes' cmp Cargo.lock "$folder/wanted"
    cp "$folder/merged" Cargo.lock
    git checkout -q --ours app/Cargo.toml
    holds 'Cargo takes it with the manifest of the greater version' is_locked
    holds 'it is committed' commits merged
}

# Edits the lockfile of a branch by sed, without the hook, while ours adds a dependency.
with_edit() {
    workspace "$1"
    sed -i "/^name = \"syn\"/,/^checksum = /{/^checksum = /$2}" Cargo.lock
    git commit -qam theirs --no-verify
    git checkout -q main
    member lib 'ident = "1"' 'session = "1"'
    locked 'ours'
}

with_checksums() {
    with_edit 'a lost checksum of Cargo' d
    holds 'a checksum that theirs lost is kept' git merge -q -m merged other
    printed 'alarm: syn 1.1.0: checksum gone in theirs'
    holds 'Cargo takes it' is_locked
    holds 'the lockfile of ours is the merge' git diff --quiet HEAD^1 -- Cargo.lock
    git show other:Cargo.lock > Cargo.lock
    fails 'Cargo refuses that of theirs' is_locked

    with_edit 'a changed checksum of Cargo' 's/"[0-9a-f]*"/"'"$(printf '%064d' 0)"'"/'
    fails 'a checksum that theirs changed' git merge -q -m merged other
    printed 'conflict: checksum of syn 1.1.0: '
    printed "$(printf '%064d' 0) (theirs)"
    git checkout -q --ours Cargo.lock
    holds 'Cargo takes that of ours' is_locked
    git checkout -q --theirs Cargo.lock
    fails 'Cargo refuses that of theirs with another checksum' cargo fetch --locked --offline
}

if command -v cargo > /dev/null; then
    with_cargo
else
    skip 'what Cargo says of merges' 'there is no cargo'
fi
