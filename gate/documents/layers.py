"""The crates of crates.txt by what they are for, and checks of what stands on what.

- A crate names no proofs of another crate but the lemmas for callers, and none of its own that are for callers.
- A module of the product uses none that uses it, but for the modules below its own path.
- A definition of specs/, and a lemma, is named in another place than its own: in its file, by an import, or by what tools/derive
  prints.

Each of these is a check of a crate.
"""

import re
from pathlib import Path
from typing import Dict, Iterator, List, Set, Tuple

from step import TOP, Step, read_crates

LIBRARIES = ("scroll", "scroll_formats", "scroll_layouts")
PRODUCT = (*LIBRARIES, "scroll_run")
FOR_CHECKS = ("scroll_ffi", "compare_calls", "workloads", "described")
CALLERS = r"(?:\.|::)lemmas(?:\.|::)callers\b"
USE = re.compile(r"(?ms)^(?:pub )?use (?:crate::)?([\w:]+?)(?:::\{([^}]*)\})?;$")
IMPORT = re.compile(r"\b(\w+)(?=(?:\.|::)(?:\{([^}]*)\}|([\w-]+)))")
NAMED = re.compile(r"(?m)^ *(?:pub |abbrev |unfoldable |record |data |ruleset )*([^\s(){}:=]+)(?= :| [({]| = \()")


def list_clients() -> List[str]:
    """Returns the crates that show the libraries' use."""
    return [it for it in read_crates() if it not in (*PRODUCT, *FOR_CHECKS)]


def files_of(crate: str, *parts: str) -> Iterator[Tuple[Path, str]]:
    for part in parts:
        for file in sorted((TOP / "crates" / crate / part).rglob("*.*t")):
            yield file, file.read_text(encoding="utf-8")


def wrong_proofs(crate: str, others: Set[str]) -> Iterator[str]:
    """Returns the lines that name proofs of other crates that aren't for callers, or the crate's own that are."""
    named = re.compile(rf"\b(?:{'|'.join(others)})(?:\.|::)proofs\b(?!{CALLERS})|\b(?:{crate}|crate)(?:\.|::)proofs{CALLERS}")
    for file, text in files_of(crate, "src", "specs", "proofs"):
        if "callers" not in file.parts:
            yield from (f"{file.relative_to(TOP)}: {it}" for it in text.splitlines() if named.search(it))


def used_modules(crate: str) -> Dict[str, Set[str]]:
    """Returns for each module of a crate the modules whose items it imports, but for those that it stands below."""
    src = TOP / "crates" / crate / "src"
    texts = {"::".join(file.relative_to(src).with_suffix("").parts): text for file, text in files_of(crate, "src") if "tests" not in str(file.relative_to(src))}
    used: Dict[str, Set[str]] = {}
    for module, text in texts.items():
        paths = [f"{it[0]}::{name.strip()}" for it in USE.findall(text) for name in it[1].split(",")]
        ends = {it[:at] for path in paths for it in (path, f"{module}::{path}") for at in range(len(it) + 1) if it[at : at + 2] in ("::", "")}
        used[module] = {it for it in ends & {*texts} if it != module and not module.startswith(f"{it}::")} if module not in ("lib", "main") else set()
    return used


def cycles(crate: str) -> Iterator[str]:
    used = used_modules(crate)
    for module in used:
        reached, left = set(), {*used[module]}
        while left:
            it = left.pop()
            reached.add(it)
            left |= used[it] - reached
        if module in reached:
            yield f"{module} uses {', '.join(sorted(it for it in used[module] if module in used[it] | {it}) or sorted(used[module]))}"


def uncited(crate: str, imported: Dict[str, Set[str]]) -> Iterator[str]:
    """Returns the definitions and the lemmas of a crate that are named in no other place."""
    for file, text in files_of(crate, "specs", "proofs/lemmas"):
        # (a definition's fields are no names of it, and a lemma may be the field of a record)
        inner = "    " if "lemmas" in file.parts else " "
        pieces = re.sub(r"(?m)^ *(?:--|(?:pub )?use ).*", "", text).split("\n\n")
        for piece in pieces:
            here = {*re.findall(r"[^\s(){},.;]+", "\n".join(it for it in pieces if it is not piece))}
            names = {it[1] for it in NAMED.finditer(piece) if not it[0].startswith(inner)} - {"let", "in"}
            if names and not names & (here | imported.get(file.stem, set()) | imported[""]):
                yield f"{file.relative_to(TOP)}: {', '.join(sorted(names))}"


def try_all(step: Step) -> None:
    crates = [*read_crates()]
    imported = {"": {it for file in TOP.glob("tools/derive/*.py") for it in re.findall(r"[\w-]+", file.read_text(encoding="utf-8"))}}
    for crate in crates:
        for file, text in files_of(crate, "src", "specs", "proofs"):
            for stem, many, one in IMPORT.findall(text):
                if stem != file.stem:
                    imported.setdefault(stem, set()).update(map(str.strip, (many or one).split(",")))
    for crate in crates:
        faults = {
            "names a proof of another crate that is not for callers, or one of its own that is": wrong_proofs(crate, {*crates} - {crate}),
            "has modules that use each other": cycles(crate) if crate in PRODUCT else iter(()),
            "has definitions or lemmas that nothing cites": uncited(crate, imported),
        }
        for what, found in faults.items():
            step.count(f"{crate} {what}", "\n".join(f"    {it}" for it in found) or None)
