"""Prints what a crate's descriptions need, lays its files out, and proves it.

    python3 tools/check CRATE             and then `rt check`
    python3 tools/check CRATE test        and then `rt test`; other words are given to `rt` too

CRATE is the folder of a crate. So no description is proved by implementations that were printed before it changed: where one can't
be printed, nothing else is done. The exit status is that of `rt`, or 2 where it isn't reached.
"""

import subprocess
import sys
from pathlib import Path
from typing import List

sys.dont_write_bytecode = True

TOOLS = Path(__file__).resolve().parents[1]
USAGE = "usage: python3 tools/check CRATE [WORDS OF rt]"


def main(words: List[str]) -> int:
    if not words or words[0].startswith("-"):
        print(USAGE, file=sys.stderr)
        return 2
    folder, *rest = words
    if subprocess.run([sys.executable, str(TOOLS / "derive"), folder], check=False).returncode:
        return 2
    try:
        if subprocess.run(["rt", "fmt"], cwd=folder, stdout=subprocess.DEVNULL, check=False).returncode:
            return 2
        words = rest if rest and not rest[0].startswith("-") else ["check", *rest]
        return subprocess.run(["rt", *words], cwd=folder, check=False).returncode
    except FileNotFoundError:
        print("check: there is no `rt`", file=sys.stderr)
        return 2


if __name__ == "__main__":
    sys.exit(main(sys.argv[1:]))
