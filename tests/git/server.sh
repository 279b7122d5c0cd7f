# Merge commits as a server makes them, without the driver and the hooks, and the lines of docs/GIT.md
# that compare them with a merge by packages. `tests/git/run` reads this file.

sed -n '/^<!-- merge -->$/,/^$/s/^ \{10\}//p' "$here/docs/GIT.md" > "$folder/compare"
[ -s "$folder/compare" ] || stop 'no recipe merge in docs/GIT.md'

# Whether the lines take HEAD.
compares() {
    bash -e "$folder/compare"
}

# Merges the other branch as a server does: line by line.
serves() {
    rm -f .git/info/attributes
    git -c core.hooksPath=/dev/null merge -q -m merged other
}

branches 01 'a merge of the driver' .
holds 'the driver merges' git merge -q -m merged other
holds 'the lines take its merge' compares
git -c core.hooksPath=/dev/null commit -q --amend -m merged --no-edit
git checkout -q HEAD^1 -- Cargo.lock
holds 'ours alone has no finding' git commit -q --amend --no-edit
fails 'the lines find that theirs is lost' compares
printed '- session 1.0.0'
git checkout -q HEAD^2 -- Cargo.lock
holds 'theirs alone has no finding' git commit -q --amend --no-edit
fails 'the lines find that ours is lost' compares
printed '- sector 1.0.0'

branches 04 'a moved reference of the driver' .
holds 'the driver moves a reference' git merge -q -m merged other
holds 'the lines take that merge' compares
printed "$(cat "$here/tests/merge/rows/04/wanted.told")"

branches 12 'a merge of a server' .
holds 'lines without a conflict' serves
fails 'the lines find the conflict of packages' compares
printed 'conflict: '

# Theirs takes a package out on which ours begins to depend.
repository 'a lost package'
{ head; package a; package b; package c; root a b c; } > Cargo.lock
holds 'three packages' commits start
git checkout -q -b other
{ head; package b; package c; root b c; } > Cargo.lock
holds 'one is taken out' commits theirs
git checkout -q main
{ head; package a; package b; package c a; root a b c; } > Cargo.lock
holds 'it is needed' commits ours
holds 'a server merges both' serves
fails 'the lines find the package' compares
printed "parse error: couldn't resolve dependency: a"

committed 'no merge'
fails 'the lines of a commit that is no merge' compares
