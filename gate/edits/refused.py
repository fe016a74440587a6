#!/usr/bin/env python3
"""Tries the edits of the crates: bugs in code, each of which the prover must refuse in the function that has it.

    python3 gate/edits/refused.py [CRATE|CRATE/EDIT..]
    python3 gate/edits/refused.py --list [CRATE|CRATE/EDIT..]
    python3 gate/edits/refused.py --self-test

It tries all edits, or the named edits and those of the named crates. gate/edits/files.py says what an edit is. `--list`
tries none: for each it prints the source file, the name, the bug, what it breaks, and the promise that it is for.

A check of a crate says of each function whether it is proved. So one check tries a batch of edits, each in a different
function, in a copy of the crate with what the tree's own checks kept. An edit

- is refused if the prover leaves a goal of its function open, or rejects an answer to one (proofs/../FUNCTION/);
- fails if that happens only because a proof names what the edit removed;
- goes into a later check if its function isn't refused and only calls one that another edit broke;
- is tried alone if its function is proved, or if the check can't read it. It then passes if another function is refused
  by a proper note, and the edit's line `breaks:` names that function; otherwise it fails.

One edit of each folder must-fail/ is also tried by `rt must-fail`, so that their form stays one that the toolchain reads.

A check has two jobs, and three checks run in parallel on four processors, since parts of a check run on one. Each has 4 GB
of memory. The variable WORKERS sets another number of processors. `--self-test` tries the script itself
(gate/edits/judge_test.py).
"""

import argparse
import resource
import shutil
import sys
import time
from concurrent.futures import FIRST_COMPLETED, Future, ThreadPoolExecutor, wait
from dataclasses import dataclass
from pathlib import Path
from typing import Dict, Iterable, List, Optional, Set, Tuple

sys.path.insert(0, str(Path(__file__).resolve().parents[1]))
from edits.files import Edit, Function, Texts, read_edits
from edits.judge import Judge, Said, parse
from step import TOP, Step, Stop, copy_crate, count_workers, read_crates, run_step

# The number of jobs of a check.
JOBS = 2


@dataclass
class Gate:
    """The copies in which edits are tried. `base` has a workspace for each crate, with what the check of it as it is kept."""

    step: Step
    base: Path
    count: int = 0

    def run_rt(self, folder: Path, *words: str) -> Tuple[int, str]:
        """Runs `rt` in a folder, and returns its status and its output."""
        return self.step.run(folder, "rt", *words)

    def check(self, judge: Judge, batch: List[Edit]) -> Tuple[Dict[str, Set[Function]], Said, float]:
        """Checks a copy of the crate with the edits of a batch applied."""
        if self.step.is_ended:
            raise Stop("it was ended")
        start = time.time()
        self.count += 1
        tree = self.step.room / f"batch{self.count}"
        crate = copy_crate(judge.crate.name, tree, self.base / judge.crate.name)
        try:
            texts, places = judge.texts.after(batch)
            for file, text in texts.items():
                (crate / file).write_text(text, encoding="utf-8")
            _, said = self.run_rt(crate, "check", "--jobs", str(JOBS))
        finally:
            shutil.rmtree(tree, ignore_errors=True)
        return places, parse(said), time.time() - start


def try_all(gate: Gate, judges: Dict[str, Judge], edits: List[Edit], workers: int) -> None:
    """Tries all edits, in as many parallel checks as there are workers, until each is judged."""
    running: "Dict[Future[Tuple[Dict[str, Set[Function]], Said, float]], List[Edit]]" = {}
    with ThreadPoolExecutor(workers) as pool:

        def submit(more: List[Edit]) -> None:
            for name, judge in judges.items():
                for batch in judge.batches([it for it in more if it.crate == name]):
                    running[pool.submit(gate.check, judge, batch)] = batch

        submit(edits)
        again: List[Edit] = []
        while running:
            for done in wait(running, return_when=FIRST_COMPLETED).done:
                batch = running.pop(done)
                places, said, seconds = done.result()
                left = judges[batch[0].crate].judge(batch, places, said)
                again += left
                names = f" ({batch[0].name})" if len(batch) == 1 else f", {len(left)} to be tried again"
                print(f"edits: {batch[0].crate}: a check of {len(batch)}{names}, {seconds:.0f} s", flush=True)
            # (edits that wait are collected, so that few checks try them)
            if again and (not running or len(running) < workers):
                more, again = again, []
                submit(more)


def prepare(step: Step, names: Iterable[str], workers: int) -> Optional[Gate]:
    """Copies the crates with what their checks kept, and checks there that each is proved without an edit."""
    gate = Gate(step, step.room / "base")
    for name in names:
        ran = step.run(copy_crate(name, gate.base / name), "rt", "check", "--jobs", JOBS * workers)
        if ran.status:
            print(ran.end())
            step.count(f"{name}: it is not proved without an edit", "")
            return None
    return gate


def try_forms(gate: Gate, edits: List[Edit]) -> None:
    """Tries the first edit of each folder must-fail/ by `rt must-fail`."""
    for name in sorted({it.crate for it in edits if it.folder == "must-fail"}):
        edit = next(it for it in edits if it.crate == name and it.folder == "must-fail")
        tree = gate.step.room / "form" / name
        crate = copy_crate(name, tree, gate.base / name)
        (crate / edit.folder).mkdir()
        shutil.copy(TOP / "crates" / name / edit.folder / f"{edit.name}.edit", crate / edit.folder)
        status, said = gate.run_rt(tree, "must-fail", name)
        is_tried = status == 0 and edit.name in said
        gate.step.count(f"{name}: {edit.name} by rt must-fail", None if is_tried else "".join(f"    {it}\n" for it in said.splitlines()[-8:]))


def count_checks() -> int:
    """Returns how many checks run in parallel."""
    return max(1, 3 * count_workers() // 4)


def processor_seconds() -> float:
    used = resource.getrusage(resource.RUSAGE_CHILDREN)
    return used.ru_utime + used.ru_stime


def main() -> int:
    words = argparse.ArgumentParser(description="Tries the edits of the crates.")
    words.add_argument("--list", action="store_true", help="lists the edits, and tries none")
    words.add_argument("--self-test", action="store_true", help="tries the judge itself")
    words.add_argument("names", nargs="*", metavar="CRATE|CRATE/EDIT")
    given = words.parse_args()
    names = given.names or [name for name, it in read_crates().items() if it.is_edited]
    if given.self_test:
        from edits.judge_test import self_test

        return run_step("edits", lambda step: self_test(step, count_checks()))
    if given.list:
        failures: List[str] = []
        for it in chosen(names, failures):
            print(f"{it.crate}/{it.pairs[0].file}: {it.name}: {it.bug}: breaks {it.breaks}: {', '.join(it.promises)}")
        print(*failures, sep="\n", end="\n" if failures else "")
        return 1 if failures else 0
    return run_step("edits", lambda step: work(step, names))


def chosen(names: List[str], failures: List[str]) -> List[Edit]:
    """Returns the named edits, and those of the named crates."""
    crates = [TOP / "crates" / it for it in sorted({it.partition("/")[0] for it in names})]
    edits = [it for crate in crates for it in read_edits(crate, failures)]
    known = {name for it in edits for name in (it.crate, f"{it.crate}/{it.name}")}
    failures += [f"there is no edit {it}" for it in names if it not in known]
    return [it for it in edits if {it.crate, f"{it.crate}/{it.name}"} & {*names}]


def work(step: Step, names: List[str]) -> None:
    start = time.time()
    workers = count_checks()
    failures: List[str] = []
    edits = chosen(names, failures)
    for failure in failures:
        step.count(failure, "")
    judges = {name: Judge(TOP / "crates" / name, Texts(TOP / "crates" / name)) for name in sorted({it.crate for it in edits})}
    gate = prepare(step, judges, workers)
    if gate:
        step.tell(f"the copy and the crates without an edit took {time.time() - start:.0f} s")
        try_all(gate, judges, edits, workers)
        try_forms(gate, edits)
    for edit in edits:
        judge = judges[edit.crate]
        if edit.name in judge.refused:
            print(f"refused {edit.crate}/{edit.name}: {judge.refused[edit.name]}")
        fault = None if edit.name in judge.refused else f"    {judge.failed.get(edit.name, 'not tried')}"
        step.count(f"{edit.crate}/{edit.folder}/{edit.name}", fault)
    step.tell(f"{len(edits)} edits, {gate.count if gate else 0} checks by {workers} workers, {time.time() - start:.0f} s, {processor_seconds():.0f} processor seconds")


if __name__ == "__main__":
    sys.exit(main())
