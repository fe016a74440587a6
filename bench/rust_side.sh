# What bench/beside_rust.sh and compare/run.sh read first: how both prove what they build, and build a side in Rust. `name` is
# the script's folder, and `top` the top of the repository. Variables:
#
#     CRATE=FOLDER      the source of the Rust crate `scroll` 0.13.0, instead of the one in cargo's registry
#     VENDORED=FOLDER   the folder of crates that cargo takes in place of its registry, as `cargo vendor` and Debian's
#                       librust-*-dev make them
#     ROOM=FOLDER       a folder that keeps the build for the next run
#     JOBS=N            the jobs of each check, instead of rt's own choice
#
# Folders are named from the top of the repository on.
set -u
export PYTHONDONTWRITEBYTECODE=1
here=$top/$name

fail() {
    echo "$name: $*" >&2
    exit 1
}

# Makes `room`, which goes at the end unless ROOM names it, and names `side` there, in which cargo builds.
make_room() {
    if [ -n "${ROOM:-}" ]; then
        mkdir -p "$ROOM" && room=$(CDPATH='' cd -- "$ROOM" && pwd) || exit 1
    else
        room=$(mktemp -d) || exit 1
        trap 'rm -rf "$room"' EXIT
        trap 'exit 1' HUP INT TERM
    fi
    side=$room/$1
}

# Runs a command, and shows the end of its output if it fails.
quietly() {
    "$@" >"$room/said" 2>&1 || {
        grep -v ': proved' "$room/said" | tail -n 20 | cut -c 1-200 >&2
        fail "$*"
    }
}

# Prints the path of a folder that a variable names.
folder_of() {
    (cd "$top" && cd -- "$1" && pwd) || fail "$1 is no folder"
}

# Proves a crate, and builds it: by `rt lib`, or by other words of rt.
prove() {
    cd "$1" || exit 1
    shift
    quietly rt "${@:-lib}" ${JOBS:+--jobs "$JOBS"}
}

# Lets cargo take crates from a folder in place of its registry.
take_crates_from() {
    printf '[source.crates-io]\nreplace-with = "folder"\n[source.folder]\ndirectory = "%s"\n' "$1" >"$side/.cargo/config.toml" || exit 1
}

# Makes the folder in which cargo builds these sources.
make_side() {
    rm -rf "$side/src" "$side/.cargo" "$side/Cargo.lock"
    mkdir -p "$side/src" "$side/.cargo" && cp "$@" "$side/src/" && cp "$here/build.rs" "$side/" || exit 1
    export CARGO_TARGET_DIR="$side/target"
}

# Writes what Rust declares of a crate's exports.
declare_exports() {
    python3 "$top/embed/library.py" --declare "$1" >"$side/src/exports.rs" || exit 1
}

# Writes how cargo has the Rust crate.
depend_on_crate() {
    crate='"=0.13.0"'
    if [ -n "${CRATE:-}" ]; then
        folder=$(folder_of "$CRATE") || exit 1
        crate="{ path = \"$folder\" }"
    fi
    if [ -n "${VENDORED:-}" ]; then
        folder=$(folder_of "$VENDORED") || exit 1
        take_crates_from "$folder"
    fi
    sed "s|@CRATE@|$crate|" "$here/Cargo.toml.in" >"$side/Cargo.toml" || exit 1
}
