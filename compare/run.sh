#!/bin/sh
# Compares the Rust crate `scroll` with the model of the program on sessions, and with the proved library on random calls.
#
#     sh compare/run.sh [SEED] [COUNT]
#     sh compare/run.sh --gate
#
# The stored sessions and COUNT random ones (10000) go to the Rust crate, which answers them as crates/scroll_run/README.md says
# (compare/src/spoken.rs), and its answers are compared with those that are stored and with gate/sessions/model.py:
# gate/sessions/stored.py and gate/sessions/random_sessions.py take it in place of the proved program. Forty times as many calls go
# through the library (crates/compare_calls) and through the crate, with types, contexts and sizes that no session has, on up to a
# megabyte. SEED (1) is what all of them are made from. At the end the crate's answers are made wrong at one place, which has to be
# found. With --gate, half as many are run.
#
# It prints how many of each kind were tried, and how many differ. What differs is made smaller while it still differs, and
# printed with both answers; a session can be stored as it is printed. What differs as docs/FROM-RUST.md tells is counted by itself.
# The last line is `N passed, M failed`, which counts kinds, with `, K skipped` after it where derived structs can't be compared.
#
# It needs cargo, rt and Python 3. Variables, besides those of bench/rust_side.sh, by which structs are compared if cargo has
# `scroll_derive`:
#
#     WORKERS=N         how many cases are tried at a time, instead of one for each processor
#
# The exit status is 0 if nothing differs, 1 if something does or a build fails, and 2 if the Rust crate can't be had,
# which --gate skips.
name=compare
top=$(CDPATH='' cd -- "$(dirname -- "$0")/.." && pwd) || exit 1
. "$top/bench/rust_side.sh"

# Ends where the Rust crate can't be had.
lack() {
    line="compare: $*: cargo takes the Rust crate scroll 0.13.0 from its registry, from VENDORED=FOLDER, or from CRATE=FOLDER, its source"
    [ -n "$gate" ] || { echo "$line" >&2; exit 2; }
    echo "$line"
    echo "0 passed, 0 failed, 1 skipped"
    exit 0
}

gate=
[ "${1:-}" != --gate ] || { gate=yes; set -- 1 5000; }
seed=${1:-1}
count=${2:-10000}
case $seed$count in
    *[!0-9]*) fail "SEED and COUNT are numbers: sh compare/run.sh [SEED] [COUNT]" ;;
esac
command -v cargo >/dev/null || lack "cargo is not there"
command -v rt >/dev/null || fail "rt is not there"
make_room side

# Looks whether cargo has the Rust crate, and the derives.
find_crate() {
    make_side "$here"/src/*.rs
    declare_exports "$top/crates/compare_calls"
    depend_on_crate
    features=derive
    fetch && return
    features=
    sed -i '/^scroll_derive/d; /^derive = /d' "$side/Cargo.toml" && fetch || lack "scroll isn't found"
    echo "compare: derived structs are left out, since cargo doesn't find scroll_derive" >&2
}

fetch() {
    (cd "$side" && cargo fetch) >"$room/said" 2>&1
}

build() {
    echo "compare: the library and the calls are proved and built" >&2
    prove "$top/crates/compare_calls"
    echo "compare: cargo builds the Rust side" >&2
    cd "$side" || exit 1
    export CALLS="$top/crates/compare_calls/out"
    quietly cargo build --release ${features:+--features "$features"}
}

# Runs a part, prints what it says, and adds up its counts.
run_part() {
    "$@" >"$room/found"
    sed '$d' "$room/found"
    # shellcheck disable=SC2046 # words
    set -- $(tail -n 1 "$room/found" | sed -n 's/ passed, / /; s/ failed\(, \)*/ /; s/ skipped//; /^[0-9 ]*$/p')
    [ $# -ge 2 ] || fail "a part ended without its counts"
    passed=$((passed + $1)) failed=$((failed + $2)) skipped=$((skipped + ${3:-0}))
}

# A run with the crate's answers wrong at one place, which has to fail.
run_lie() {
    "$side/target/release/compare" --lie "$seed" 3000 "$workers" >"$room/found"
    if [ $? -eq 1 ] && grep -q ', [1-9][0-9]* differ' "$room/found"; then
        passed=$((passed + 1))
        echo "compare: with a wrong answer of the crate's side, $(tail -n 1 "$room/found")"
    else
        failed=$((failed + 1))
        echo "compare: a wrong answer of the crate's side isn't found"
    fi
}

find_crate
build
workers=${WORKERS:-$(getconf _NPROCESSORS_ONLN)}
passed=0 failed=0 skipped=0
run_part python3 "$top/gate/sessions/stored.py" --program "$side/target/release/spoken"
run_part python3 "$top/gate/sessions/random_sessions.py" --program "$side/target/release/spoken" --seed "$seed" --count "$count"
run_part "$side/target/release/compare" "$seed" $((40 * count)) "$workers"
run_lie
[ "$skipped" -eq 0 ] && skipped= || skipped=", $skipped skipped"
echo "$passed passed, $failed failed$skipped"
[ "$failed" -eq 0 ] && [ "$passed" -gt 0 ]
