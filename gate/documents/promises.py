"""Makes the lists of docs/PROVED.md from gate/documents/promises.txt and from the lines `promise:` of the edits, and compares them.

An item is a promise: how many edits there are for it, what it says, the clauses that state it, each with a link to the line where
the contract is, and where it is tested too. A clause must be one of its function, and a test must be there; a function all of whose
named clauses are cited is printed without them. The line `promise:` of an edit has the names of the promises that it is for, with
`, ` between two. Each promise is a check.
"""

import re
from itertools import groupby
from typing import Dict, List, NamedTuple, Optional

from documents.declarations import Declarations
from documents.layers import PRODUCT
from edits.files import Edit, read_edits
from step import TOP, Step

PAGE = TOP / "docs" / "PROVED.md"
SOURCE = TOP / "gate" / "documents" / "promises.txt"
BEGIN, END = "<!-- promises: begin -->\n", "<!-- promises: end -->\n"
# So many clauses of a promise are a list of their own, with an item for each file.
MANY = 8
CITED = re.compile(r"(?P<name>[\w:<>]+)(?: of (?P<of>\[T; N\]|[&\w:\[\]]+))?(?: (?P<clauses>\w+(?:, \w+)*))?")


class Promise(NamedTuple):
    section: str
    name: str
    says: str
    by: str
    tests: List[str]


class Bad(Exception):
    """A promise cites what isn't there."""


def read_promises() -> List[Promise]:
    found: List[Promise] = []
    section = ""
    for line in SOURCE.read_text(encoding="utf-8").splitlines():
        if line.startswith("## "):
            section = line[3:]
        elif line.startswith("  test: "):
            found[-1] = found[-1]._replace(tests=line[8:].split(", "))
        elif line.startswith("  "):
            found[-1] = found[-1]._replace(by=line[2:])
        elif line and not line.startswith("# "):
            name, _, says = line.partition(":")
            found.append(Promise(section, name, says.strip(), "", []))
    return found


def cited(text: str, declared: Declarations) -> str:
    """Returns a citation with a link to its line."""
    if text.startswith('"'):
        return text.strip('"')
    parts = CITED.fullmatch(text)
    if not parts:
        raise Bad(f"`{text}` is no function with its clauses")
    name, of, clauses = parts["name"], parts["of"] or "", [it for it in (parts["clauses"] or "").split(", ") if it]
    places = declared.places(name, of)
    if not places:
        raise Bad(f"`{text}`: there is no such declaration")
    for clause in clauses:
        if clause not in declared.clauses(name):
            raise Bad(f"`{name}` has no clause `{clause}`")
    best = max(places, key=lambda it: (it[0].relative_to(TOP).parts[1] in PRODUCT, bool(set(clauses) & it[2])))
    line = best[1]
    for it in declared.found(name):
        if (it.file, it.line) == best[:2] and clauses and clauses[0] in it.clauses:
            line = it.clauses[clauses[0]]
    words = f"`{name}`" + (f" of `{of}`" if of else "")
    link = f"[{words}](../{best[0].relative_to(TOP).as_posix()}#L{line})"
    shown = [] if {*clauses} == (best[2] or declared.clauses(name)) - {""} else clauses
    return f"{link} {', '.join(f'`{it}`' for it in shown)}".strip()


def edits_by_promise(step: Step) -> Dict[str, List[Edit]]:
    """Returns the edits for each promise. One without a promise is a failure."""
    edits: Dict[str, List[Edit]] = {}
    for crate in PRODUCT:
        failures: List[str] = []
        for edit in read_edits(TOP / "crates" / crate, failures):
            if not edit.promises:
                failures.append(f"{edit.crate}/{edit.name} has no line `promise:` with a name of gate/documents/promises.txt")
            for it in edit.promises:
                edits.setdefault(it, []).append(edit)
        for failure in failures:
            step.count(failure, "")
    return edits


def item(promise: Promise, edits: int, declared: Declarations) -> str:
    for test in promise.tests:
        if not declared.resolves(test):
            raise Bad(f"there is no test `{test}`")
    by = [cited(it, declared) for it in re.split(r"; (?!N\])", promise.by)]
    tests = [", ".join(f"`{it}`" for it in promise.tests)] if promise.tests else []
    head = f"- **{promise.name}**" + (f" ({edits})" if edits else "") + (f": {promise.says}" if promise.says else "")
    if len(by) < MANY:
        return f"{head}: {'; '.join(by + tests)}"
    files = ["; ".join(those) for _, those in groupby(by, key=lambda it: it.partition("](")[2].partition("#")[0])]
    return "\n  - ".join([f"{head}:", *files, *tests])


def try_all(step: Step, is_writing: bool) -> None:
    edits = edits_by_promise(step)
    declared = Declarations()
    lines: List[str] = []
    section: Optional[str] = None
    names: List[str] = []
    for it in read_promises():
        if it.section != section:
            section = it.section
            lines += ["", f"### {section}", ""]
        fault = "    it stands twice" if it.name in names else None
        names.append(it.name)
        try:
            lines.append(item(it, len(edits.get(it.name, [])), declared))
        except Bad as why:
            fault = f"    {why}"
        step.count(f"gate/documents/promises.txt: {it.name}", fault)
    for name in sorted(edits.keys() - {*names}):
        step.count(f"{', '.join(edit.name for edit in edits[name])}: gate/documents/promises.txt has no promise `{name}`", "")
    listed = "\n".join(lines).lstrip("\n") + "\n\n"
    before, _, rest = PAGE.read_text(encoding="utf-8").partition(BEGIN)
    is_same = rest.partition(END)[0] == "\n" + listed
    if is_writing:
        PAGE.write_text(before + BEGIN + "\n" + listed + END + rest.partition(END)[2], encoding="utf-8")
    step.count("docs/PROVED.md has other lists", None if is_same or is_writing else "    python3 gate/documents/compare.py write makes them")
    step.tell(f"{len(names)} promises have {sum(map(len, edits.values()))} edits")
