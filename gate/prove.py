#!/usr/bin/env python3
"""Proves crates over what earlier checks kept, with which other steps of the gate begin:

    python3 gate/prove.py CRATE..

rt ci keeps no proofs that a further check could begin with. So this runs `rt lib` for each library, or `rt check` for a program; the
libraries below it are proved and built first, and once. A crate is a check.
"""

import sys
import time
from typing import List

from step import Step, Stop, count_workers, read_crates, run_step


def work(step: Step, names: List[str]) -> None:
    crates = read_crates()
    for name in names:
        if name not in crates:
            raise Stop(f"there is no crate '{name}'")
        begun = time.time()
        ran = step.run(crates[name].folder, "rt", "check" if crates[name].is_program else "lib", "--jobs", count_workers())
        step.count(name, ran.end(40, 300) if ran.status else None)
        step.tell(f"{name}, {time.time() - begun:.0f} s")


if __name__ == "__main__":
    sys.exit(run_step("prove", lambda step: work(step, sys.argv[1:])))
