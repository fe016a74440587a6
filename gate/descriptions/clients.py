#!/usr/bin/env python3
"""Compares what the clients tls, wasm, gzip, tar and dns read and write with the programs that such files come from.

    python3 gate/descriptions/clients.py [SEED]

A hundred files of each are made by gate/descriptions/other_files.py, by draws from SEED (3): first messages of Python's `ssl`, with
other names, protocols, versions and ciphers; modules of `wat2wasm`; members of Python's `gzip`, half of them with parts that it leaves
out; headers of Python's `tarfile`; and messages of DNS, by an encoder in Python. What was asked of that program is what has to be read.
A program over the crates, which promises nothing more and so is built by `rt try`, reads each file, and writes it back byte for byte.
It reads it cut and damaged too, which is refused, or read as gate/descriptions/other_readers.py says and written back.

Each format is a check of whole files, of cut ones and of damaged ones; and so is that a lie in what is expected is found. A format
whose program isn't there is skipped.
"""

import random
import re
import shutil
import subprocess
import sys
from pathlib import Path
from typing import Dict, List, NamedTuple

sys.path.insert(0, str(Path(__file__).resolve().parents[1]))
from descriptions.other_files import MAKERS
from descriptions.other_readers import READERS, Wrong
from descriptions.random_descriptions import damaged
from step import FOLDERS, TOP, Step, Stop, below, copy_kept, read_crates, run_step

SEED, FILES = 3, 100
NAME = "clients"
# How often a file is cut, and damaged.
CUTS, DAMAGES = 8, 8
# How many files the program is given at once, since what it prints has a limit.
SHARE = 100
# What makes the files, where that isn't Python itself.
PROGRAMS = {"wasm": "wat2wasm"}
REFUSED = "refused"


class Case(NamedTuple):
    """Bytes, of which kind they are, and what the program prints for them, where it isn't refused."""

    kind: str
    made: bytes
    wanted: str


def cases_of(name: str, seed: str, room: Path) -> List[Case]:
    rng = random.Random(f"{seed} {name}")
    found = []
    for _ in range(FILES):
        file = MAKERS[name](rng, room)
        found.append(Case("whole", file.made, f"{file.fields} {file.made.hex()}"))
        cuts = rng.sample(range(len(file.made)), CUTS)
        found += [Case("cut", file.made[:cut], expected(name, file.made[:cut])) for cut in cuts]
        others = [damaged(file.made, rng) for _ in range(DAMAGES)]
        found += [Case("damaged", it, expected(name, it)) for it in others]
    return found


def expected(name: str, made: bytes) -> str:
    try:
        fields, read = READERS[name](made)
        return f"{fields} {read.hex()}".lstrip()
    except Wrong:
        return REFUSED


def is_so(case: Case, line: str) -> bool:
    return line.startswith(f"{REFUSED} ") if case.wanted == REFUSED else line == case.wanted


def faults_of(cases: List[Case], lines: List[str]) -> str:
    if len(lines) != len(cases):
        return f"    {len(lines)} lines for {len(cases)}: {''.join(lines[-1:])[:200]}\n"
    wrong = [(it, line) for it, line in zip(cases, lines) if not is_so(it, line)]
    told = [f"    {it.made.hex()[:300]}\n    wanted {it.wanted[:300]}\n    got    {line[:300]}\n" for it, line in wrong[:3]]
    return "".join([*told, f"    {len(wrong)} differ\n"]) if wrong else ""


def write_program(step: Step, names: List[str]) -> Path:
    """Writes the program in a workspace of its own, over the crates, and returns its folder."""
    crates, room = read_crates(), step.room / NAME
    needed = list(dict.fromkeys(it for name in names for it in [*below(name, crates), name]))
    for it in needed:
        copy_kept(crates[it].folder, room / "crates" / it, [*FOLDERS, "out"])
    lines = [*(crates[it].line for it in needed), f"{NAME}: {' '.join(needed)} hex"]
    (room / "crates.txt").write_text("".join(f"{it}\n" for it in lines), encoding="utf-8")
    shutil.copy(TOP / "HANDLES", room)
    folder = room / "crates" / NAME
    (folder / "src").mkdir(parents=True)
    shutil.copy(TOP / "gate" / "descriptions" / f"{NAME}.txt", folder / "src" / "main.rt")
    return folder


def judge(step: Step, name: str, cases: List[Case], lines: List[str]) -> None:
    """Counts what the program read and wrote of the files of a format."""
    for kind in ("whole", "cut", "damaged"):
        chosen = [at for at, it in enumerate(cases) if it.kind == kind]
        of_kind = [lines[at] for at in chosen] if len(lines) == len(cases) else lines
        step.count(f"{kind} files of {name}", faults_of([cases[at] for at in chosen], of_kind) or None)
    lies = [it._replace(wanted=REFUSED if it.wanted != REFUSED else "0") for it in cases]
    step.count(f"a lie about {name} is found", "" if any(is_so(*it) for it in zip(lies, lines)) else None)


def work(step: Step, seed: str) -> None:
    skipped = [it for it, program in PROGRAMS.items() if not shutil.which(program)]
    step.skipped += len(skipped)
    cases: Dict[str, List[Case]] = {it: cases_of(it, seed, step.room) for it in MAKERS if it not in skipped}
    folder = write_program(step, [*MAKERS])
    inputs = step.room / "cases"
    inputs.mkdir()
    for name, asked in cases.items():
        for at in range(0, len(asked), SHARE):
            text = "".join(f"{name} {it.made.hex()}\n" for it in asked[at : at + SHARE])
            (inputs / f"{name}{at:05}").write_text(text, encoding="utf-8")
    ran = step.run(folder, "rt", "try", "--steps", 1, "--cases", inputs, stderr=subprocess.PIPE)
    if ran.status:
        raise Stop(f"the program ends with status {ran.status}\n{ran.end()}")
    # (what it says of each case is on standard error, which comes last)
    parts = re.split(r"(?m)^== (\w+)\n", re.split(r"(?m)^case=", ran.said)[0])
    said = sorted(zip(parts[1::2], parts[2::2]))
    for name, asked in cases.items():
        judge(step, name, asked, [line for share, text in said if share.startswith(name) for line in text.splitlines()])
        read = sum(it.wanted != REFUSED for it in asked if it.kind == "damaged")
        step.tell(f"{name}: {FILES} files, {len(asked)} lines compared, {read} of the damaged files are read")


if __name__ == "__main__":
    sys.exit(run_step(NAME, lambda step: work(step, sys.argv[1] if len(sys.argv) > 1 else str(SEED))))
