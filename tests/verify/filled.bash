# Functions for tests over folders that Cargo itself fills, without a network. A test reads
# `tests/testing.sh` before this file.

# Packs a library of this name, version and text, and with this line in its manifest, for the registry
# in this folder.
packed() {
    mkdir -p "made/$2/src"
    printf '[package]\nname = "%s"\nversion = "%s"\nedition = "2018"\n%s\n' "$2" "$3" "${5:-}" \
        > "made/$2/Cargo.toml"
    echo "$4" > "made/$2/src/lib.rs"
    (cd "made/$2" && cargo package --quiet --no-verify --allow-dirty --offline 2> /dev/null)
    mkdir -p "$1"
    cp "target/package/$2-$3.crate" "$1"
}

# Makes a home of Cargo in the current folder.
cargo_home() {
    export RUSTUP_HOME=${RUSTUP_HOME:-$HOME/.rustup} CARGO_HOME=$PWD/home
    export CARGO_TARGET_DIR=$PWD/target no_proxy=127.0.0.1 NO_PROXY=127.0.0.1
    mkdir -p home
}

# Waits for a file, for ten seconds at most.
wait_for() {
    local turn
    for ((turn = 0; turn < 200; turn++)); do
        [ ! -e "$1" ] || return 0
        sleep 0.05
    done
    stop "no $1"
}

# Serves the registries in the folder `served`: `io` in place of crates.io, and `own`. The start of
# their URLs is then in `url`.
serve() {
    "$here/tests/verify/registry" served 2> /dev/null &
    children+=($!)
    wait_for served/port
    url=sparse+http://127.0.0.1:$(cat served/port)
    cat > home/config.toml <<END
[source.crates-io]
replace-with = "io"
[source.io]
registry = "$url/io/"
[registries.own]
index = "$url/own/"
END
}

# Makes a package `app` that needs packages, each with what is behind `=` in its line.
needing() {
    mkdir -p src
    rm -f Cargo.lock
    printf '[package]\nname = "app"\nversion = "0.1.0"\nedition = "2018"\n[dependencies]\n' > Cargo.toml
    printf '%s\n' "$@" >> Cargo.toml
}
