"""Tests the judge of edits on the crate in gate/edits/judge.txt: bugs that must be refused, and edits that must fail."""

import re
import shutil
import time
from typing import List

from edits.files import Edit, Texts, read_edits
from edits.judge import Judge
from edits.refused import Gate, processor_seconds, try_all
from step import TOP, Step

# The expected result of each edit: a word of the reason why it fails, or nothing if it is refused.
WANTED = {
    "half_is_a_third": "",
    "half_is_a_quarter": "",
    "constant_is_101": "",
    "constant_is_102": "doesn't name",
    "means_the_same": "not refused",
    "means_the_same_above_a_bug": "not refused",
    "does_not_compile": "can't read it",
    "takes_a_name_away": "only because a proof names",
}


def make_base(step: Step) -> Gate:
    """Makes a tree with the crate `judged`, whose files are in gate/edits/judge.txt, each below a line `==> PATH`."""
    gate = Gate(step, step.room / "base")
    crate = gate.base / "judged" / "crates" / "judged"
    _, *parts = re.split(r"^==> (\S+)\n", (TOP / "gate" / "edits" / "judge.txt").read_text(), flags=re.M)
    for path, text in zip(parts[::2], parts[1::2]):
        (crate / path).parent.mkdir(parents=True, exist_ok=True)
        (crate / path).write_text(text.rstrip("\n") + "\n")
    (gate.base / "judged" / "crates.txt").write_text("judged:\n")
    shutil.copy(TOP / "HANDLES", gate.base / "judged")
    status, said = gate.run_rt(crate, "check")
    if status:
        print(said)
    return gate


def compare(step: Step, judge: Judge, edits: List[Edit], how: str) -> None:
    for edit in edits:
        what = judge.failed.get(edit.name, "")
        wanted = WANTED[edit.name]
        is_well = bool(what) and wanted in what if wanted else edit.name in judge.refused
        said = f"{how}: {edit.name}: {what or 'refused ' + judge.refused.get(edit.name, 'not at all')}"[:200]
        step.count(said, None if is_well else "")
        if is_well:
            print(said)


def self_test(step: Step, workers: int) -> None:
    start = time.time()
    gate = make_base(step)
    crate = gate.base / "judged" / "crates" / "judged"
    failures: List[str] = []
    edits = read_edits(crate, failures)
    failures += [f"there is no edit {it}" for it in WANTED.keys() - {it.name for it in edits}]
    for it in failures:
        step.count(it, "")
    together = Judge(crate, Texts(crate))
    try_all(gate, {"judged": together}, edits, workers)
    compare(step, together, edits, "together")
    for edit in edits:
        alone = Judge(crate, Texts(crate))
        try_all(gate, {"judged": alone}, [edit], 1)
        compare(step, alone, [edit], "alone")
    step.tell(f"{gate.count} checks, {time.time() - start:.0f} s, {processor_seconds():.0f} processor seconds")
