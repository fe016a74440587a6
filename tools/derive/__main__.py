"""Writes the implementations of the traits of `scroll` for the structs and enums of a crate that ask for them.

    python3 tools/derive CRATE
    python3 tools/derive --check CRATE     says which files aren't what would be written, and writes nothing

CRATE is the folder of a crate. For each file of its src/ in which a struct or an enum stands behind the line
`// #[derive(Pread, Pwrite)]` a file `derived.rt` is written, a module of that file, which says `mod derived;`. `rt fmt` lays it
out. docs/GUIDE.md has the notes.

A file that no struct asks for any more is removed. Where nothing asks for one, a line says so. So does one for each function that says
of a struct with a float that what was read is written back, which no proof finds.

The exit status is 0; or 1 if --check finds a file that is stale, missing or left over; or 2 with one line on standard error,
with the file and the line, where something isn't supported. Then nothing is written.
"""

import sys
from pathlib import Path
from typing import List

sys.dont_write_bytecode = True

from crate_files import derived_files, is_same, left_over
from tokens import MARK, Refused

USAGE = "usage: python3 tools/derive [--check] CRATE"


def main(words: List[str]) -> int:
    is_check = words[:1] == ["--check"]
    names = words[1:] if is_check else words
    if len(names) != 1 or names[0].startswith("-"):
        print(USAGE, file=sys.stderr)
        return 2
    try:
        files, told = derived_files(Path(names[0]))
        left = left_over(Path(names[0]), files)
    except Refused as refused:
        print(f"derive: {refused}", file=sys.stderr)
        return 2
    for it in told:
        print(it)
    stale = [path for path, text in files.items() if not path.is_file() or not is_same(path.read_text(encoding="utf-8"), text)]
    if is_check:
        for path, what in [*((it, "stale") for it in stale), *((it, "left over") for it in left)]:
            print(f"{path} is {what}: run `python3 tools/derive {names[0]}`")
        return 1 if stale or left else 0
    for path in stale:
        path.parent.mkdir(parents=True, exist_ok=True)
        path.write_text(files[path], encoding="utf-8")
    for path in left:
        path.unlink()
    if not files:
        print(f"{names[0]}: nothing is written, since no struct or enum stands behind the line `// {MARK}`")
    return 0


if __name__ == "__main__":
    sys.exit(main(sys.argv[1:]))
