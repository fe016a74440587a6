#!/usr/bin/env python3
"""Prints what the descriptions of catalogue/ need, proves it, and runs their tests.

    python3 gate/descriptions/catalogue.py

The folder has descriptions and tests alone: what `python3 tools/derive` prints for them isn't stored, and so they are no crate, whose
files `rt ci` would prove, and end in `.rt.txt`. They become one in a copy, over the libraries as `rt lib` proves them in this
repository; `rt check` proves it, and `rt try --test` runs the tests, whose bytes other programs made. Each format is a check that
all of its functions are proved, with no proof by hand; each test is one too.
"""

import re
import sys
from pathlib import Path
from typing import Dict, List

sys.path.insert(0, str(Path(__file__).resolve().parents[1]))
from descriptions.random_descriptions import LIBRARY, write_crate
from step import TOP, Step, Stop, count_workers, run_step

NAME = "catalogue"
VERDICT = re.compile(rf"(?m)^fn {NAME}::(\w+)::(\S+): (.*)")
RESULT = re.compile(r"(?m)^test result: \w+\. (\d+) passed; (\d+) failed; 0 ignored")


def work(step: Step) -> None:
    source = TOP / NAME
    texts = {str(it.relative_to(source)).removesuffix(".rt.txt"): it.read_text(encoding="utf-8") for it in source.rglob("*.rt.txt")}
    ran = step.run(TOP / "crates" / LIBRARY, "rt", "lib", "--jobs", count_workers())
    if ran.status:
        raise Stop(f"{LIBRARY} is not proved\n{ran.end()}")
    folder = write_crate(step, step.room, NAME, texts)
    ran = step.run(folder, "rt", "check", "--jobs", count_workers())
    verdicts: Dict[str, List[str]] = {}
    for module, function, verdict in VERDICT.findall(ran.said):
        verdicts.setdefault(module, []).append(f"{function}: {verdict}")
    if not verdicts:
        raise Stop(f"no function of {NAME} has a verdict\n{ran.end()}")
    formats = [it for it in sorted(texts) if "/" not in it and it not in ("lib", "tests")]
    for it in formats:
        left = [said for said in verdicts.get(it, ["it has no verdict"]) if not said.endswith(": proved")]
        step.count(f"{NAME}::{it}", "".join(f"    {said}"[:200] + "\n" for said in left) if left else None)
    if ran.status and not step.failed:
        step.count(NAME, ran.end())
    ran = step.run(folder, "rt", "try", "--test")
    found = RESULT.search(ran.said)
    passed, failed = (int(found[1]), int(found[2])) if found else (0, 1)
    step.passed += passed
    if failed:
        step.count("the tests", ran.end())
    step.tell(f"{len(formats)} formats, {sum(map(len, verdicts.values()))} functions")


if __name__ == "__main__":
    sys.exit(run_step(NAME, work))
