#!/usr/bin/env python3
"""Makes the library of embed/ for C, Rust and Python, and tries it in each:

    python3 gate/embed.py [COUNT]

embed/library.py makes it of crates/scroll_ffi. embed/list.c, compiled with warnings as errors, with sanitizers and without, and the
Python module read real files, and say what `readelf`, `zipinfo` and Python's `zipfile` say; the module writes an archive again as it
was. embed/damage.c, with sanitizers, compares the answers for COUNT files that are cut and damaged (5,000), in four threads, and
tries the arguments that the border refuses and memory that is refused; a few files are read under the sanitizer of threads. cargo
runs the Rust crate's documentation tests, one of which must not compile. `nm` finds no names in the libraries but those of the
header, and nothing that is written there. The command refuses the exports that make no library, and there is an edit for each
function (gate/edits/refused.py tries them).

Without a C compiler all is skipped; without `readelf`, `zipinfo` or cargo, what needs it.
"""

import mmap
import os
import re
import shutil
import sys
import zipfile
from pathlib import Path
from typing import Any, Callable, List, Optional, Tuple

from edits.files import read_edits
from step import TOP, Step, Stop, count_workers, run_step

sys.path.insert(0, str(TOP / "embed"))
CRATE = TOP / "crates" / "scroll_ffi"
WARNINGS = ("-std=c11", "-Wall", "-Wextra", "-Werror")
SANITIZERS = ("-g", "-O1", "-fsanitize=address,undefined", "-fno-sanitize-recover=all")
DAMAGE = ("-pthread", "-Wl,--wrap=malloc,--wrap=realloc")
LINE = re.compile(r"\s*\[\s*(\d+)\] (\S*)\s+\S+\s+([0-9a-f]{16}) ([0-9a-f]+) ([0-9a-f]+) ([0-9a-f]+) .*?\s(\d+)\s+(\d+)\s+(\d+)")


def differ(got: object, wanted: object) -> Optional[str]:
    return None if got == wanted else f"    expected {wanted}\n    got      {got}"[:2000]


def write_archives(room: Path) -> List[Path]:
    """Returns archives that `zipfile` wrote: with extra fields and comments, and with nothing."""
    full, empty = room / "full.zip", room / "empty.zip"
    with zipfile.ZipFile(full, "w") as archive:
        for i in range(40):
            info = zipfile.ZipInfo(f"folder {i % 3}/{i}.txt", (2024, 2, 29, 12, 34, 2 * (i % 30)))
            info.extra, info.comment = b"\xfe\xca\x02\x00ab" * (i % 3), b"comment" * (i % 2)
            archive.writestr(info, bytes(range(i)) * i)
        archive.comment = b"an archive"
    zipfile.ZipFile(empty, "w").close()
    return [full, empty]


def list_entries(path: Path) -> List[Tuple[bytes, bytes]]:
    with zipfile.ZipFile(path) as archive:
        infos = sorted(archive.infolist(), key=lambda it: it.header_offset)
        return [(it.filename.encode(), archive.read(it)) for it in infos]


def list_sections(step: Step, path: Path) -> List[Tuple[str, ...]]:
    """Returns what `readelf` says of each section: its index, name, address, offset, size, and the last four numbers."""
    said = step.run(step.room, "readelf", "-SW", path).said
    return [it.groups() for it in map(LINE.match, said.splitlines()) if it]


def try_c(step: Step, cc: List[str], out: Path, objects: List[Path], archives: List[Path]) -> None:
    for kind, flags in (("", ("-O2",)), (" with sanitizers", SANITIZERS)):
        program = step.room / f"list{kind[-10:]}"
        built = step.run(step.room, *cc, *WARNINGS, *flags, "-I", out, TOP / "embed" / "list.c", out / "libscroll_ffi.a", "-o", program)
        step.count(f"list.c{kind}", built.end() if built.status else None)
        if built.status:
            continue
        for path in archives:
            wanted = "".join(f"{len(contents)} {name.decode()}\n" for name, contents in list_entries(path))
            said = step.run(step.room, program, path).said
            step.count(f"{path.name} by list.c{kind}", differ(re.sub(r"(?m)^\d+ ", "", said), wanted))
        if not shutil.which("readelf"):
            step.skipped += 1
            continue
        for path in objects:
            wanted = "".join(f"{it[0]} {int(it[4], 16)} {it[1]}\n" for it in list_sections(step, path))
            step.count(f"{path.name} by list.c{kind}", differ(step.run(step.room, program, path).said, wanted))


def try_damage(step: Step, cc: List[str], out: Path, files: List[Path], count: int) -> None:
    for kind, flags, number in (("", SANITIZERS, count), (" with the sanitizer of threads", ("-g", "-O1", "-fsanitize=thread"), 80)):
        program = step.room / f"damage{number}"
        source = (TOP / "embed" / "damage.c", out / "libscroll_ffi.a", *DAMAGE)
        built = step.run(step.room, *cc, *WARNINGS, *flags, "-I", out, *source, "-o", program)
        step.count(f"damage.c{kind}", built.end() if built.status else None)
        if not built.status:
            ran = step.run(step.room, program, number, *files)
            step.count(f"damaged files{kind}", ran.end(60) if ran.status else None)
            step.tell(ran.said.strip()[:200])


def try_names(step: Step, out: Path) -> None:
    """Tries what `nm` says of the libraries: the names that they export, and what is written there."""
    header = (out / "scroll_ffi.h").read_text(encoding="utf-8")
    names = sorted(re.findall(r"(?m)^(?:const )?\w+ \*?(\w+)\(.*\);$", header))
    for file, flag in (("libscroll_ffi.a", "-g"), ("libscroll_ffi.so", "-D")):
        said = step.run(out, "nm", flag, "--defined-only", file).said
        step.count(f"the names of {file}", differ(sorted(re.findall(r"(?m)^[0-9a-f]+ \w (\S+)$", said)), names))
    written = re.findall(r"(?m) [bBcCdD] (\S+)$", step.run(out, "nm", "libscroll_ffi.a").said)
    # (the kit's address of an allocation of no bytes)
    step.count("nothing is written in the library", differ(sorted({*written} - {"nothing"}), []))


def try_edits(step: Step, exports: List[str]) -> None:
    faults: List[str] = []
    told = " ".join(it.bug for it in read_edits(CRATE, faults))
    faults += [f"no edit is for {it}" for it in exports if f"`{it}`" not in told]
    step.count("an edit for each function", "\n".join(f"    {it}" for it in faults) or None)


def fails(call: Callable[[], object], kind: type) -> Optional[str]:
    """Returns a fault unless the call raises such an exception."""
    try:
        call()
    except kind:
        return None
    return f"    no {kind.__name__}"


def write_again(formats: Any, archive: bytes) -> bytes:
    """Writes an archive again from what is read of it, with the directory as it was."""
    copy, offset = bytearray(len(archive)), 0
    for entry in formats.entries(archive):
        offset = formats.put_entry(copy, offset, entry)
    record, comment = formats.end(archive)
    copy[offset : record.offset] = archive[offset : record.offset]
    formats.put_end(copy, record.offset, record, comment)
    return bytes(copy)


def try_python(step: Step, out: Path, objects: List[Path], archives: List[Path]) -> None:
    os.environ["SCROLL_FFI"] = str(out)
    import scroll_ffi as formats

    for path in archives:
        archive = path.read_bytes()
        step.count(f"{path.name} by Python", differ([(it.name, it.contents) for it in formats.entries(archive)], list_entries(path)))
        step.count(f"{path.name}, written again", differ(write_again(formats, archive) == archive, True))
        if shutil.which("zipinfo"):
            said = step.run(step.room, "zipinfo", "-1", path).said
            names = [it.name.decode() for it in formats.entries(archive)]
            step.count(f"{path.name} by zipinfo", differ(names, said.splitlines() if names else []))
        else:
            step.skipped += 1
    for path in objects:
        with open(path, "rb") as file, mmap.mmap(file.fileno(), 0, access=mmap.ACCESS_READ) as mapped:
            found = list(formats.sections(mapped))
        step.count(f"{path.name}, as bytes and mapped", differ(list(formats.sections(path.read_bytes())), found))
        if shutil.which("readelf"):
            wanted = [
                (name.encode(), int(address, 16), int(offset, 16), int(size, 16), int(entry, 16), int(link), int(info), int(align))
                for _, name, address, offset, size, entry, link, info, align in list_sections(step, path)
            ]
            got = [(it.name, it.address, it.offset, it.size, it.entry_size, it.link, it.info, it.alignment) for it in found]
            step.count(f"{path.name} by Python", differ(got, wanted))
        else:
            step.skipped += 1
    bad: List[Tuple[str, Callable[[], object], type]] = [
        ("no file", lambda: list(formats.sections(b"")), formats.Error),
        ("a cut file", lambda: list(formats.sections(objects[0].read_bytes()[:-1])), formats.Error),
        ("a text", lambda: list(formats.sections("text")), TypeError),
        ("a buffer in pieces", lambda: list(formats.sections(memoryview(bytes(128))[::2])), BufferError),
        ("a write into bytes", lambda: formats.put_end(bytes(22), 0, formats.end(archives[1].read_bytes())[0], b""), BufferError),
        ("a write past the end", lambda: formats.put_end(bytearray(21), 0, formats.end(archives[1].read_bytes())[0], b""), formats.Error),
    ]
    for what, call, kind in bad:
        step.count(f"Python at {what}", fails(call, kind))


# Exports that make no library, and a word of why.
REFUSED = [
    ('#[unsafe(no_mangle)]\npub extern "C" fn f(a: &[u8]) -> u64 {\n', "returns no i32"),
    ('#[unsafe(no_mangle)]\npub extern "C" fn f(a: bool) -> i32 {\n', "the type bool"),
    ('#[unsafe(no_mangle)]\npub extern "C" fn f(a: u32) -> i32\n    requires { a < 3 }\n{\n', "a requires"),
    ("#[unsafe(no_mangle)]\nfn f(a: u32) -> i32 {\n", "no_mangle"),
    ("#[repr(C)]\npub struct S {\n    pub a: u32,\n    b: u32,\n}\n", "public fields"),
    ("pub const BAD: i32 = -2;\n", "exports no function"),
]


def try_refusals(step: Step, library: Any) -> None:
    """Tries forms that the command must refuse."""
    source = step.room / "refused" / "src" / "lib.rt"
    source.parent.mkdir(parents=True)
    for text, why in REFUSED:
        source.write_text(text, encoding="utf-8")
        try:
            said = str(library.read_crate(source.parents[1]))
        except library.Refused as refused:
            said = str(refused)
        step.count(f"a crate that is refused: {why}", None if why in said else f"    {said}")


def try_page(step: Step, library: Any) -> None:
    """Tries that the example of embed/README.md is an export."""
    source = step.room / "first" / "src" / "lib.rt"
    source.parent.mkdir(parents=True)
    blocks = re.findall(r"(?ms)^```rust\n(.*?)^```$", (TOP / "embed" / "README.md").read_text(encoding="utf-8"))
    source.write_text("".join(blocks), encoding="utf-8")
    crate = library.read_crate(source.parents[1])
    step.count("the example of embed/README.md", differ([it.name for it in crate.exports], ["sample_rate"]))


def try_rust(step: Step, out: Path) -> None:
    if not shutil.which("cargo"):
        step.tell("cargo is not there, so the Rust crate is not tried")
        step.skipped += 1
        return
    crate = step.room / "rust"
    shutil.copytree(TOP / "embed" / "rust", crate)
    variables = {**os.environ, "SCROLL_FFI": str(out), "CARGO_TARGET_DIR": str(step.room / "target"), "RUSTFLAGS": "-D warnings"}
    ran = step.run(crate, "cargo", "test", "--offline", "--quiet", env=variables)
    tests = sum(int(it) for it in re.findall(r"test result: ok\. (\d+) passed; 0 failed; 0 ignored", ran.said))
    step.count("the Rust crate", ran.end(40) if ran.status or tests < 4 else None)


def try_library(step: Step, library: Any, cc: List[str], count: int) -> None:
    try_refusals(step, library)
    try_page(step, library)
    out = step.room / "out"
    try:
        library.embed(CRATE, out)
    except library.Refused as why:
        raise Stop(str(why)) from why
    try_edits(step, [it.name for it in library.read_crate(CRATE).exports])
    sample = step.room / "sample.o"
    built = step.run(step.room, *cc, "-g", "-ffunction-sections", "-c", TOP / "bench" / "sample.c", "-o", sample)
    if built.status:
        raise Stop(f"bench/sample.c is not compiled\n{built.end()}")
    objects, archives = [sample, out / "libscroll_ffi.so"], write_archives(step.room)
    try_c(step, cc, out, objects, archives)
    try_damage(step, cc, out, [*objects, *archives], count)
    try_names(step, out)
    try_python(step, out, objects, archives)
    try_rust(step, out)


def work(step: Step, words: List[str]) -> None:
    cc = os.environ.get("CC", "cc").split()
    if not shutil.which(cc[0]):
        step.tell("there is no C compiler, so the library for C, Rust and Python is not tried")
        step.skipped += 1
        return
    import library

    os.environ.setdefault("JOBS", str(count_workers()))
    try_library(step, library, cc, int(words[0]) if words else 5000)


if __name__ == "__main__":
    sys.exit(run_step("embed", lambda step: work(step, sys.argv[1:])))
