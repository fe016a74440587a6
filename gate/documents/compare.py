#!/usr/bin/env python3
"""Compares the documents with the sources.

    python3 gate/documents/compare.py          compares
    python3 gate/documents/compare.py write    writes first what is made from the sources: docs/API.md, docs/DEFINITIONS.md, the
                                               lists of docs/PROVED.md, the code in docs/GUIDE.md, the clients' columns of lines,
                                               and README's numbers

The code in docs/GUIDE.md is put there from clients and proofs (guide.py). The names and clauses that the documents cite are
declared, and their links lead somewhere (cited.py). docs/API.md has the library's doc comments (api.py), and
docs/DEFINITIONS.md what the comments in specs/ say (spec_comments.py). docs/PROVED.md has the promises of promises.txt, each
with its clauses and how many edits there are for it (promises.py). crates/README.md has the lines of each client
and README's numbers (sizes.py). A crate names no proofs of another but those for callers (layers.py).
docs/SPEED.md has the summary of the times in bench/results (speed.py).
"""

import sys
from pathlib import Path
from typing import List

sys.path.insert(0, str(Path(__file__).resolve().parents[1]))
from documents import api, cited, guide, layers, promises, sizes, spec_comments, speed
from step import Step, Stop, run_step


def work(step: Step, words: List[str]) -> None:
    if words not in ([], ["write"]):
        raise Stop(f"'{' '.join(words)}' is not `write`")
    api.try_all(step, words == ["write"])
    spec_comments.try_all(step, words == ["write"])
    promises.try_all(step, words == ["write"])
    sizes.try_all(step, words == ["write"])
    guide.try_all(step, words == ["write"])
    cited.try_all(step)
    speed.try_all(step)
    layers.try_all(step)


if __name__ == "__main__":
    sys.exit(run_step("documents", lambda step: work(step, sys.argv[1:])))
