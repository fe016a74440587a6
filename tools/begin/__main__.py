"""Begins a crate of one's own over copies of the libraries, with their proofs if they are there.

    python3 tools/begin NAME [CLIENT..]

In a folder without a crates.txt it begins a repository. Where there is one, it adds to it: a crate that isn't there, and each CLIENT,
whose files are copied, and over which the crate then stands. In a new crate src/ is empty. The exit status is 2, with a line on standard
error, where a name can't be a crate's or nothing would be new; then nothing is written.
"""

import re
import shutil
import subprocess
import sys
from pathlib import Path
from typing import Dict, Iterator, List

sys.dont_write_bytecode = True

TOP = Path(__file__).resolve().parents[2]
LIBRARIES = ["scroll", "scroll_formats", "scroll_layouts"]
# What serves the work on a crate, and not its users.
LEFT_OUT = shutil.ignore_patterns("must-fail", "bugs", "incremental")
USAGE = "usage: python3 tools/begin NAME [CLIENT..]"
# Words that no crate is named.
WORDS = {
    *"abstract as async await become box break const continue crate do dyn else enum extern false final fn for gen ghost if".split(),
    *"impl in let loop macro match mod move mut override priv prove pub ref return self static struct super trait true try type".split(),
    *"typeof union unsafe unsized use virtual where while yield core alloc std test tests out src rattle".split(),
}


def read_crates(top: Path) -> Dict[str, str]:
    """Returns each line of crates.txt by its crate."""
    lines = (top / "crates.txt").read_text(encoding="utf-8").splitlines()
    return {re.split(r"[ :]", line)[0]: line for line in lines if line and not line.startswith("#")}


def with_those_below(name: str, crates: Dict[str, str]) -> Iterator[str]:
    """Returns the crates of this repository on which a crate stands, and the crate."""
    for it in crates[name].partition(":")[2].split():
        if it in crates:
            yield from with_those_below(it, crates)
    yield name


def kit_has(name: str) -> bool:
    """Returns whether the kit has a crate of this name."""
    try:
        ran = subprocess.run(["rt", "doc"], stdout=subprocess.PIPE, text=True, check=False)
    except FileNotFoundError:
        return False
    return any((Path(it).parent / "rattle" / name).is_dir() for it in ran.stdout.split())


def fault_of(names: List[str], crates: Dict[str, str], there: Dict[str, str]) -> str:
    """Returns why nothing can be written, or nothing."""
    if not names or any(it.startswith("-") for it in names):
        return USAGE
    name, *clients = names
    if not re.fullmatch(r"[a-z][a-z0-9_]*", name) or name in WORDS:
        return f"begin: '{name}' can't be the name of a crate: take small letters, digits and `_`, and no word of the language"
    if name in crates or kit_has(name):
        return f"begin: there is a library or a client '{name}', which the crate's name can't be"
    unknown = next((it for it in clients if it not in crates), None)
    if unknown is not None:
        return f"begin: there is no client {unknown}"
    if name in there and not {*clients} - {*there}:
        return f"begin: there is a crate {name} already" + (", and each client" if clients else "")
    if name not in there and Path("crates", name).exists():
        return f"begin: there is a folder crates/{name} already"
    return ""


def main(names: List[str]) -> int:
    crates = read_crates(TOP)
    is_new = not Path("crates.txt").exists()
    there = {} if is_new else read_crates(Path())
    fault = fault_of(names, crates, there)
    if fault:
        print(fault, file=sys.stderr)
        return 2
    name, *clients = names
    used = list(dict.fromkeys(it for top in [*LIBRARIES, *clients] for it in with_those_below(top, crates)))
    copied = [it for it in used if it not in there]
    taken = next((it for it in copied if Path("crates", it).exists()), None)
    if taken:
        print(f"begin: there is a folder crates/{taken} that no line of crates.txt names", file=sys.stderr)
        return 2
    for it in copied:
        shutil.copytree(TOP / "crates" / it, Path("crates", it), symlinks=True, ignore=LEFT_OUT)
    Path("crates", name, "src").mkdir(parents=True, exist_ok=True)
    head, _, before = there.get(name, f"{name}:").partition(":")
    line = f"{head}: {' '.join(dict.fromkeys([*used, *before.split()]))}"
    written = [] if is_new else Path("crates.txt").read_text(encoding="utf-8").splitlines()
    lines = [*(it for it in written if it != there.get(name)), *(crates[it] for it in copied), line]
    Path("crates.txt").write_text("".join(f"{it}\n" for it in lines), encoding="utf-8")
    if not Path("HANDLES").exists():
        shutil.copy(TOP / "HANDLES", ".")
    return subprocess.run(["git", "init", "-q"], check=False).returncode if is_new else 0


if __name__ == "__main__":
    sys.exit(main(sys.argv[1:]))
