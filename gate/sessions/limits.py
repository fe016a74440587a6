#!/usr/bin/env python3
"""Runs the program on long inputs, where memory and the streams don't fail: it must not run out of memory.

    python3 gate/sessions/limits.py [--program PROGRAM]
    python3 gate/sessions/limits.py --edits

A function of the library, or of the program's `Memory`, that allocates and says `out of memory` at some input meets its
contract; the program's other functions don't. So this gives the program inputs of each kind, of each length that is short and on
both sides of each power of two: texts, slices and C strings that are read, written and printed, lines, words, commands, numerals,
bad lines, whole inputs and a long output. The status must be 0 or, of a bad or too long input, 2. PROGRAM is as in
gate/sessions/stored.py.

`--edits` plants the bugs of gate/sessions/limits/CRATE.edits, which the prover passes: of a crate all that break different inputs or
tests in one copy of it, which `rt try` builds. Their form is that of CONTRIBUTING, with a line `file:`. The program must then run out
of memory at the input that `breaks:` names, `KIND, N`; or the tests that it names must fail, and no others. The tests of another
crate stand after its name, as in "zip: `tests::records_are_read`".

A kind of input, or an edit, is a check.
"""

import argparse
import re
import shutil
import sys
from concurrent.futures import ThreadPoolExecutor
from pathlib import Path
from typing import Dict, Iterator, List, Set, Tuple

sys.path.insert(0, str(Path(__file__).resolve().parents[1]))
from edits.files import Bad, Block, Edit, Texts
from sessions.stored import find_program, run
from step import TOP, Step, Stop, count_workers, run_step

LONGEST = 65536
SIZES = [*range(1101), *(2**n + d for n in range(11, 15) for d in (-1, 0, 1)), 5000, 30000]
COMMANDS = {
    "answers": "gread uleb",
    "long answers": "pread 0 u128 be",
    "writes": "gwrite u8 le 1",
}


def session(*lines: str) -> bytes:
    return "".join(f"{line}\n" for line in lines).encode()


def with_buffer(count: int, more: str, *commands: str) -> bytes:
    return session(f"buffer {'61' * count + more or '-'}", "cursor 0", *commands)


def good_inputs(n: int) -> Iterator[Tuple[str, bytes]]:
    """Inputs of each kind with something of the length `n`, which end with status 0."""
    yield "buffers", with_buffer(n, "")
    yield "slices", with_buffer(n, "", f"pread 0 bytes {n}")
    for text in ("str delim 00", "str until 00 30001", "strx2 delim 00", "cstr", "cstring"):
        yield f"texts by {text.split(' 3')[0]}", with_buffer(n, "006200", f"gread {text}")
    for put in ("bytes", "str", "cstr"):
        yield f"{put} that is written", with_buffer(0, "", f"gwrite {put} {'61' * n or '-'}")
    for kind, command in COMMANDS.items():
        yield kind, with_buffer(16, "", *[command] * n)
    yield "numerals", session("buffer 00", f"cursor {'0' * n}0", f"pread {'0' * n}0 u8 le")


def bad_inputs(n: int) -> Iterator[Tuple[str, bytes]]:
    """The same with status 2."""
    head = ("buffer 00", "cursor 0")
    yield "first lines", session("x" * n)
    yield "second lines", session("buffer 00", "x" * n)
    yield "later lines", session(*head, "x" * n)
    yield "words of a line", session(*head, " ".join(["pread"] * n))
    yield "lines before a bad one", session(*head, *["gread uleb"] * n, "x")
    yield "empty lines", session("buffer 00", *[""] * n)


def inputs() -> Iterator[Tuple[str, int, bytes, int]]:
    """Each kind with its lengths, the inputs, and the statuses that they end with."""
    for n in SIZES:
        for status, given in ((0, good_inputs(n)), (2, bad_inputs(n))):
            yield from ((kind, n, it, status) for kind, it in given if len(it) <= LONGEST)
    for n in (LONGEST - 1, LONGEST, LONGEST + 1, 2 * LONGEST):
        yield "whole inputs", n, b"0" * n, 2
    yield "long outputs", 140, with_buffer(30000, "", *["pread 0 bytes 30000"] * 140), 0


def try_inputs(step: Step, program: str) -> None:
    """Counts the kinds, each with what is wrong in its first bad run."""

    def fault_of(given: Tuple[str, int, bytes, int]) -> Tuple[str, str]:
        kind, n, text, status = given
        found, said, _ = run(program, text)
        return kind, "" if found == status else f"    at {n} the status is {found}, and {status} is wanted: {said[:60]!r}"

    kinds: Dict[str, str] = {}
    count = 0
    with ThreadPoolExecutor(count_workers()) as pool:
        for kind, fault in pool.map(fault_of, inputs()):
            kinds[kind] = kinds.get(kind) or fault
            count += 1
    for kind, fault in kinds.items():
        step.count(kind, fault or None)
    step.tell(f"{count} inputs of {len(kinds)} kinds")


def read_edits(path: Path) -> List[Edit]:
    texts = path.read_text(encoding="utf-8").rstrip("\n").split("\n\n")
    heads = [(text.split("\n")[0], text.split("\n")[1:]) for text in texts]
    return [Block(str(path), "bugs", title, "", lines).read(path.stem) for title, lines in heads]


def is_tested(edit: Edit) -> bool:
    """Whether tests tell an edit, and not an input."""
    return "`" in edit.breaks


def crate_of(edit: Edit) -> str:
    """Returns the crate whose tests tell an edit."""
    other = re.match(r"(\w+): `", edit.breaks)
    return other[1] if other else edit.crate


def names_of(edit: Edit) -> Set[str]:
    """Returns the input, or the tests, that an edit breaks."""
    return {*re.findall(r"`(.*?)`", edit.breaks)} or {edit.breaks}


def batches(edits: List[Edit]) -> List[List[Edit]]:
    """Returns the edits in batches, in each of which they break different inputs or tests, and change different lines."""

    def parts(edit: Edit) -> Set[str]:
        return names_of(edit) | {f"{it.file}: {it.old}" for it in edit.pairs}

    def fits(edit: Edit, batch: List[Edit]) -> bool:
        alike = (is_tested(edit), crate_of(edit)) == (is_tested(batch[0]), crate_of(batch[0]))
        return alike and not parts(edit) & {part for it in batch for part in parts(it)}

    found: List[List[Edit]] = []
    for edit in edits:
        room = next((it for it in found if fits(edit, it)), None)
        if room is None:
            found.append([edit])
        else:
            room.append(edit)
    return found


def run_broken(step: Step, crate: str, edits: List[Edit]) -> str:
    """Builds a copy of a crate with the edits, and returns what its tests, or the program at their inputs, print."""
    tree = step.room / f"{crate}-{edits[0].name}"
    shutil.copytree(TOP, tree, symlinks=True, ignore=shutil.ignore_patterns(".git", "out"))
    for file, text in Texts(TOP / "crates" / crate).after(edits)[0].items():
        (tree / "crates" / crate / file).write_text(text, encoding="utf-8")
    words = ["--test"]
    if not is_tested(edits[0]):
        cases = step.room / f"cases-{edits[0].name}"
        cases.mkdir()
        given = {f"{kind}, {n}": it for kind, n, it, _ in inputs()}
        for edit in edits:
            if edit.breaks not in given:
                raise Bad(f"{edit.name}: there is no input `{edit.breaks}`")
            (cases / edit.name).write_bytes(given[edit.breaks])
        words = ["--cases", str(cases)]
    return step.run(tree / "crates" / crate_of(edits[0]), "rt", "try", *words).said


def is_caught(edit: Edit, said: str) -> bool:
    if not is_tested(edit):
        return re.search(rf"^== {edit.name}\b.*\nout of memory$", said, re.M) is not None
    return names_of(edit) <= failed_tests(said)


def failed_tests(said: str) -> Set[str]:
    return {*re.findall(r"^test (\S+) \.\.\. FAILED", said, re.M)}


def try_edits(step: Step) -> None:
    for path in sorted((TOP / "gate" / "sessions" / "limits").glob("*.edits")):
        for edits in batches(read_edits(path)):
            said = run_broken(step, path.stem, edits)
            for edit in edits:
                step.count(edit.name, None if is_caught(edit, said) else f"    {edit.breaks} doesn't tell:\n{said[-600:]}")
            for name in failed_tests(said) - {name for edit in edits for name in names_of(edit)}:
                step.count(name, f"    it fails too, and none of these names it: {', '.join(it.name for it in edits)}")


def work(step: Step, given: argparse.Namespace) -> None:
    try:
        if given.edits:
            try_edits(step)
            return
        program = find_program(given.program)
        if not program:
            raise Stop("there is no program")
        try_inputs(step, program)
    except Bad as why:
        raise Stop(str(why)) from why


def main() -> int:
    words = argparse.ArgumentParser(description="Runs the program on long inputs.")
    words.add_argument("--program", help="the program, in place of the one that was proved")
    words.add_argument("--edits", action="store_true", help="plants the bugs that only these inputs and the tests tell")
    given = words.parse_args()
    return run_step("limits", lambda step: work(step, given))


if __name__ == "__main__":
    sys.exit(main())
