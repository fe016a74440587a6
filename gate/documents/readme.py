#!/usr/bin/env python3
"""Does what README says.

    python3 gate/documents/readme.py

It runs the program by README's first command, without proof. Then it copies the libraries with their proofs to an empty folder,
pastes the first file and a format of one's own, and derives and proves that: the commands and the files are README's own blocks,
and what is printed last must be README's text. The libraries are proved in this repository first, by `rt lib` over what out/
keeps, so that they aren't proved twice. The examples of the documentation are the tests of the crate `documented`, which
gate/documents/doc_examples.py makes and `rt try` runs. Each of these is a check.
"""

import os
import subprocess
import sys
from pathlib import Path
from typing import List

sys.path.insert(0, str(Path(__file__).resolve().parents[1]))
import markdown
from documents import doc_examples
from documents.layers import LIBRARIES
from step import FOLDERS, TOP, Ran, Step, Stop, below, copy_kept, read_crates, run_step

COMMANDS = "Three commands"
FIRST = "One file to paste"
OWN = "A format of your own"
# What tools/begin refuses, and why.
REFUSED = {
    "first": "there is a crate first already",
    "hex": "there is a library or a client 'hex'",
    "zip": "there is a library or a client 'zip'",
    "fn": "'fn' can't be the name of a crate",
    "A b": "'A b' can't be the name of a crate",
    "--help": "usage: python3 tools/begin NAME",
}
# The functions of the format's file.
USERS = ("read_sample", "name_again", "copy_sample")
PROGRAM = TOP / "crates" / "scroll_run"


def blocks_of(language: str, section: str) -> List[str]:
    """Returns the texts of a section's blocks in a language."""
    blocks = markdown.read(TOP / "README.md").blocks
    found = ["".join(f"{line}\n" for line in it.code) for it in blocks if (it.language, it.section) == (language, section)]
    if not found:
        raise Stop(f"README has no block of {language} in '{section}'")
    return found


def count(step: Step, what: str, is_well: bool, ran: Ran = Ran(0, "")) -> None:
    step.count(what, None if is_well else ran.end())
    if is_well:
        step.tell(f"{what}: passed")


def run_program(step: Step) -> None:
    """README's first command prints what the stored run must."""
    command = blocks_of("sh", COMMANDS)[0].splitlines()[0]
    status, said = step.call("sh", "-euc", command, cwd=TOP, stderr=subprocess.DEVNULL)
    is_well = not status and said == (PROGRAM / "stdout").read_bytes()
    count(step, "run the first command", is_well, Ran(status, said.decode(errors="replace")))


def copy_libraries(step: Step, own: Path) -> None:
    """Copies the libraries with their proofs to a new repository as README says."""
    for name in LIBRARIES:
        ran = step.run(TOP / "crates" / name, "rt", "lib")
        count(step, f"build {name}", not ran.status, ran)
    ran = step.run(own, "sh", "-euc", blocks_of("sh", FIRST)[0], env={**os.environ, "SCROLL": str(TOP)})
    copied = [it for it in read_crates(own) if it in read_crates()] == [*LIBRARIES] and (own / "HANDLES").is_file()
    for crate in (own / "crates" / it for it in LIBRARIES):
        there = [(crate / it).exists() for it in ("src/lib.rt", "out")]
        copied = copied and all(there) and not any((crate / it).exists() for it in (*FOLDERS, "out/incremental"))
    count(step, f"copy {' '.join(LIBRARIES)}", not ran.status and copied, ran)
    for name, why in REFUSED.items():
        ran = step.run(own, sys.executable, TOP / "tools" / "begin", name)
        count(step, f"refuse {name}", ran.status == 2 and why in ran.said, ran)
    ran = step.run(own, sys.executable, TOP / "tools" / "begin", "second", "packets")
    added = [it for it in read_crates(own) if it not in LIBRARIES] == ["first", "packets", "second"]
    count(step, "add a crate and a client", not ran.status and added and (own / "crates/packets/src/lib.rt").is_file(), ran)


def run_examples(step: Step) -> None:
    """The examples of the documentation pass as tests, in a workspace of their own with the libraries that they use."""
    crates, tree = read_crates(), step.room / "documented"
    names = dict.fromkeys(it for library in LIBRARIES for it in [*below(library, crates), library])
    for name in names:
        copy_kept(crates[name].folder, tree / "crates" / name, [*FOLDERS, "out"])
    (tree / "crates.txt").write_text("".join(f"{crates[it].line}\n" for it in names) + f"documented: {' '.join(LIBRARIES)}\n")
    examples = tree / "crates" / "documented"
    (examples / "src").mkdir(parents=True)
    (examples / "src" / "lib.rt").write_text(doc_examples.crate())
    ran = step.run(examples, "rt", "try", "--test")
    passed = f"test result: ok. {len(doc_examples.examples())} passed; 0 failed; 0 ignored"
    count(step, "run the examples of the documentation", not ran.status and passed in ran.said, ran)


def prove_files(step: Step) -> None:
    """The first file and the users of a format in it are proved, and the file's tests pass."""
    own = step.room / "own"
    source = own / "crates" / "first" / "src"
    own.mkdir()
    copy_libraries(step, own)
    struct, users = blocks_of("rust", OWN)
    (source / "sample.rt").write_text(struct)
    head, _, rest = blocks_of("rust", FIRST)[0].partition("static BYTES")
    (source / "lib.rt").write_text(f"{head}{users}\nstatic BYTES{rest}")
    ran = step.run(own, "sh", "-euc", blocks_of("sh", OWN)[0], env={**os.environ, "SCROLL": str(TOP)})
    count(step, "derive the format, prove and run the file", not ran.status and ran.said.endswith(blocks_of("text", FIRST)[0]), ran)
    for it in USERS:
        count(step, f"prove {it}", not ran.status and f"\nfn first::{it}: proved\n" in ran.said, ran)


def work(step: Step) -> None:
    run_program(step)
    run_examples(step)
    prove_files(step)


if __name__ == "__main__":
    sys.exit(run_step("readme", work))
