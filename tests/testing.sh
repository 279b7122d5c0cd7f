# What the tests of the program in bash share: which program is asked, a room for its files, and the
# counts of what holds and what fails. A test `tests/NAME/run` reads this file, and its last line is
# `finish`.
#
# `here` is the folder of the repository, `program` the absolute path of the program that is named,
# or else of the one that `rt ci` or `./install` left, and `folder` a room, which is removed at the
# end. The last line of a test is `N passed, N failed`. If something was left out, it goes on with
# `, N skipped`, and the line before it names what. The status is 0 if each case holds, 1 if one
# fails or there is none, and 2 if there is no program or the test stops before its end.

here=$(cd "$(dirname "${BASH_SOURCE[0]}")/.." > /dev/null && pwd)
name=
passed=0
failed=0
skipped=()
as=()
# The processes that end with the test.
children=()
is_finished=false

# Ends the test by a fault: nothing more can be asked.
stop() {
    is_finished=true
    echo "$*" >&2
    exit 2
}

# Ends what the test began, and removes the room. A test that stops before its end is a fault.
leave() {
    local status=$?
    [ ${#children[@]} = 0 ] || kill "${children[@]}" 2> /dev/null || true
    cd /
    chmod -R u+rwx "$folder" 2> /dev/null || true
    rm -rf "$folder"
    if ! $is_finished; then
        echo "the test stopped before its end, with status $status: $name" >&2
        exit 2
    fi
}

[ $# -le 1 ] || stop 'one program is asked at a time'
program=$(realpath -m -- "${1:-$here/crates/main/out/main}")
[[ -f "$program" && -x "$program" ]] || stop "no program $program: build it by ./install or name it"
folder=$(mktemp -d)
trap leave EXIT
trap 'exit 2' INT TERM

# Puts a copy of the program into the room, which each user may run, in place of the program.
copy_program() {
    chmod 755 "$folder"
    cp "$program" "$folder/cargo-lock"
    program=$folder/cargo-lock
}

# A case: an empty folder of this name in the room, which is made the current one.
room_of() {
    name=$1
    as=()
    mkdir "$folder/$name"
    cd "$folder/$name"
}

# What is run by `"${as[@]}"` from here to the end of the case is run as one whom rights stop.
without_rights() {
    if [ "$(id -u)" = 0 ]; then
        chown -R nobody .
        as=(setpriv --reuid=nobody --clear-groups --inh-caps=-all)
    fi
}

# Counts a thing that holds.
hold() {
    passed=$((passed + 1))
}

# Counts a thing that fails, and prints why.
fail() {
    echo "failed: ${name:+$name: }$*"
    failed=$((failed + 1))
}

# Counts whether a text is as another.
equal() {
    if [ "$1" = "$2" ]; then hold; else fail "$1 is not $2"; fi
}

# Counts whether a file has the bytes of another.
same() {
    if cmp -s "$1" "$2"; then hold; else fail "$1 is not as $2"; fi
}

# Prints how a file differs from a text, and another file, such as a message.
differ() {
    diff <(printf '%s\n' "$1") "$2" || true
    cat "$3"
}

# Notes something that is left out, and why.
skip() {
    skipped+=("$1 ($2)")
}

# Prints what was left out and the counts, and ends the test.
finish() {
    local left_out=''
    if [ ${#skipped[@]} != 0 ]; then
        left_out=$(printf '; %s' "${skipped[@]}")
        echo "skipped: ${left_out#; }"
        left_out=", ${#skipped[@]} skipped"
    fi
    is_finished=true
    echo "$passed passed, $failed failed$left_out"
    exit $((failed > 0 || passed + ${#skipped[@]} == 0))
}

# The JSON of the origin of this source, which is that of a registry, with an index in git or a sparse
# one.
origin_json() {
    local kind=registry is_crates_io=false
    [[ "$1" != sparse+* ]] || kind=sparse-registry
    [ "$1" != registry+https://github.com/rust-lang/crates.io-index ] || is_crates_io=true
    printf '{"kind":"%s","url":"%s","reference":null,"precise":null,"crates_io":%s}' "$kind" \
        "${1#*+}" $is_crates_io
}

# The number of the line of Cargo.lock in which the package of this name and version begins, or null.
line_of() {
    awk -v name="name = \"$1\"" -v version="version = \"$2\"" '
        $0 == "[[package]]" { begins = FNR; is_named = 0 }
        $0 == name { is_named = begins > 0 }
        $0 == version && is_named { print begins; is_found = 1; exit }
        END { if (!is_found) print "null" }' Cargo.lock
}
