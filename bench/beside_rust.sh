#!/bin/sh
# Times loops over the proved library against the same loops in Rust: over the crate `scroll`, std's `CStr`, and a loop
# in gimli's form for writes of LEB128.
#
#     sh bench/beside_rust.sh [SET..]
#     sh bench/beside_rust.sh jobs
#
# It proves the library where necessary, and the loops (bench/sets), builds them as a static library, links that with
# the loops in Rust (bench/src) four times, with all code shifted by 0, 16, 32 and 48 bytes, and runs each program
# twice. Without a SET it runs all sets, and writes bench/results/ and the summary by use in docs/SPEED.md. With names of sets
# it runs these, prints their rows, and writes nothing into the repository.
#
# `jobs` times whole jobs by the clients beside `object`, `goblin`, `gimli`, `zip`, `scroll_derive`, `zerocopy` and
# `byteorder`, or loops by hand, and writes bench/results/jobs.csv and the table of jobs in docs/SPEED.md. It takes these crates from
# Debian's packages (librust-NAME-dev), says which are missing, and runs what it can without them. If the results of a
# job differ, it stops there and names it.
#
# It needs cargo, rt, a C compiler and Python 3, and `jobs` wat2wasm. Variables, besides those of bench/rust_side.sh:
#
#     ROUNDS=N        how often a program runs each loop; the best time counts (200)
#     KEEP=1          `jobs` writes nothing into the repository
#     ONLY=TEXT       `jobs` runs those whose names have this text; with KEEP=1
#
# The exit status is 0 if everything was built and both sides agree on every sum and on every byte that they write.
name=bench
top=$(CDPATH='' cd -- "$(dirname -- "$0")/.." && pwd) || exit 1
. "$top/bench/rust_side.sh"
all='numbers floats writes texts slices leb128 own errors streams calls files'

need() {
    command -v "$1" >/dev/null || fail "$1 is not there: $2"
}

need cargo "the loops in Rust are built by it, with the crate scroll 0.13.0 from its registry, or from a folder (CRATE=FOLDER)"
need rt "the library and the loops over it are proved and built by the Rattle kit's command"
need cc "the files that the set files reads are made by a C compiler"
need python3 "the table and the charts are made by a script in Python"

if [ "$*" = jobs ]; then
    need wat2wasm "it makes the module of WebAssembly (apt-get install wabt)"
    sets=jobs
elif [ $# -gt 0 ]; then
    sets=$*
    for set in $sets; do
        [ -f "$here/sets/$set.rt.txt" ] || fail "$set: no such set; there are: $all"
    done
else
    sets=$all
fi

if [ "$sets" = jobs ]; then
    make_room jobs_side
    tree=$room/jobs_tree
else
    make_room side
    tree=$room/tree
fi

# Proves and builds libraries in the tree itself, and copies the crates into a workspace, with one more, `loops`, over these
# libraries. (rt takes their builds over.)
make_workspace() {
    for library in "$@"; do
        prove "$top/crates/$library"
    done
    loops=$tree/crates/loops
    mkdir -p "$loops" && cp "$top/HANDLES" "$tree/" || exit 1
    find "$tree/crates" -mindepth 2 -maxdepth 2 ! -name out -exec rm -rf {} + || exit 1
    tar -C "$top" --exclude=out -cf - crates | tar -C "$tree" -xf - && mkdir "$loops/src" || exit 1
    { cat "$top/crates.txt" && echo "loops staticlib: $*"; } >"$tree/crates.txt" || exit 1
}

build_loops() {
    echo "bench: the library and the loops over it are proved and built" >&2
    make_workspace scroll scroll_formats
    {
        echo '//! Loops over the library, whose time is taken.'
        echo '#![tactic(auto)]'
        echo
        for set in $sets; do
            echo "pub mod $set;"
            cp "$here/sets/$set.rt.txt" "$loops/src/$set.rt" || exit 1
        done
    } >"$loops/src/lib.rt"
    prove "$loops"
}

# Builds a program of cargo with both sides and these features, once for each layout.
build_layouts() {
    program=$1
    shift
    cd "$side" || exit 1
    export LOOPS="$loops/out" RUSTFLAGS='-C target-cpu=x86-64-v2'
    for shift in 0 16 32 48; do
        export SHIFT="$shift"
        quietly cargo build --release "$@"
        cp "target/release/$program" "side_$shift" || exit 1
    done
    ! cmp -s side_0 side_16 || fail 'the code is not shifted'
}

build_programs() {
    echo "bench: cargo builds the loops in Rust, in four layouts" >&2
    make_side "$here"/src/*.rs
    declare_exports "$loops"
    depend_on_crate
    build_layouts side_by_side --features "$(echo "$sets" | tr ' ' ',')"
}

# Makes an object file with debugging information, for the set `files`.
make_sample() {
    cd "$room" || exit 1
    cp "$here/sample.c" "$here/sample.h" "$room/" || exit 1
    flags='-g -gdwarf-5 -O2 -ffunction-sections -c sample.c -o sample.o'
    # (gcc writes views between the lists of locations by default)
    # shellcheck disable=SC2086 # words
    cc -gno-variable-location-views $flags 2>"$room/said" || quietly cc $flags
}

# Builds the jobs over the clients as a static library, and the records that bench/jobs/records.py writes.
build_jobs() {
    echo "bench: the library, the clients and the jobs are proved and built" >&2
    make_workspace scroll scroll_formats scroll_layouts debug_tables object_files git_index packets zip tls dns wasm gzip tar
    cp "$here/jobs/jobs.rt.txt" "$loops/src/lib.rt" && cp "$tree/crates/described/src/kinds.rt" "$loops/src/" || exit 1
    quietly python3 "$here/jobs/records.py" "$loops/src" "$room/records.rs"
    prove "$loops"
}

# Writes the dependencies on the crates that Debian's packages have, and prints those that are missing.
find_peers() {
    peers=
    for peer in object goblin gimli zip scroll scroll_derive zerocopy byteorder; do
        found=$(ls -d "/usr/share/cargo/registry/$peer"-[0-9]* 2>/dev/null | head -n 1)
        if [ -n "$found" ]; then
            version=${found##*/"$peer"-}
            echo "$peer $version" >>"$room/versions"
            case $peer in
                object) more=', default-features = false, features = ["read_core", "elf", "std"]' ;;
                gimli) more=', default-features = false, features = ["read", "std"]' ;;
                zip) more=', default-features = false' ;;
                scroll)
                    more=
                    ls -d /usr/share/cargo/registry/scroll_derive-[0-9]* >/dev/null 2>&1 && more=', features = ["derive"]'
                    ;;
                *) more= ;;
            esac
            peers="$peers$peer = { version = \"=$version\", optional = true$more }
"
        else
            echo "bench: the crate $peer is missing (apt-get install librust-$(echo "$peer" | tr _ -)-dev): its rows are left out" >&2
        fi
    done
    printf '%s' "$peers"
}

# Makes an object file of some 4,000 sections, and an archive of 20,000 files.
make_files() {
    python3 - "$room" <<'END' || exit 1
import sys
import zipfile

with open(f"{sys.argv[1]}/many.c", "w") as file:
    for i in range(4000):
        name = "a_function_of_some_number_"[: 1 + i * 7 % 26]
        file.write(f"int {name}{i}(int a) {{ return a + {i}; }}\n")
with zipfile.ZipFile(f"{sys.argv[1]}/archive.zip", "w") as archive:
    for i in range(20000):
        archive.writestr(zipfile.ZipInfo(f"folder{i // 100}/file{i}.txt"), b"contents " * (i % 7))
END
    (cd "$room" && quietly cc -O1 -ffunction-sections -fno-asynchronous-unwind-tables -c many.c -o many.o) || exit 1
    quietly python3 "$here/jobs/formats.py" "$room"
}

# Builds the programs with the jobs, once for each layout, with the crates of Debian's packages.
build_job_programs() {
    echo "bench: cargo builds the jobs, in four layouts" >&2
    : >"$room/versions"
    find_peers >"$room/peers"
    make_side "$here"/jobs/*.rs "$here/src/host.rs" "$here/src/timing.rs" "$here/src/inputs.rs" "$here/src/dwarf.rs" "$room/records.rs"
    declare_exports "$loops"
    take_crates_from /usr/share/cargo/registry
    awk -v peers="$room/peers" '/@PEERS@/ { while ((getline line < peers) > 0) print line; next } { print }' "$here/jobs/Cargo.toml.in" >"$side/Cargo.toml" || exit 1
    features=$(cut -d ' ' -f 1 "$room/versions" | tr '\n' ',')
    build_layouts jobs_beside --offline --features "${features%,}"
}

if [ "$sets" = jobs ]; then
    build_jobs
    build_job_programs
    make_files
    export SECTIONS="$room/many.o" ARCHIVE="$room/archive.zip"
    export HELLOS="$room/hellos" ANSWERS="$room/answers" MODULE="$room/module" MEMBERS="$room/members" ENTRIES="$room/entries"
else
    build_loops
    build_programs
fi
make_sample

# Twice in turn, so that no layout runs at a quieter time than the others.
raw=$room/raw.csv
: >"$raw"
status=0
for pass in 1 2; do
    for shift in 0 16 32 48; do
        echo "bench: pass $pass, code shifted by $shift bytes" >&2
        SAMPLE=$room/sample.o "$side/side_$shift" >"$room/rows" 2>"$room/said" || status=1
        grep '^DIFFER' "$room/said" >&2
        [ "$status" -eq 0 ] || tail -n 3 "$room/said" >&2
        sed "s/^/$shift,/" "$room/rows" >>"$raw"
    done
done
[ "$status" -eq 0 ] || fail 'the two sides disagree, or a program failed'

if [ "$sets" = jobs ]; then
    python3 "$here/jobs.py" "$raw" "$room/said" "$room/versions" "$side/side_$shift" ${KEEP:+--keep}
elif [ $# -gt 0 ]; then
    python3 "$here/draw.py" "$raw"
else
    python3 "$here/draw.py" "$raw" "$top"
fi
