"""The declarations of the crates: each module, type, trait and function with its members and the names of its
clauses, and where it stands. gate/documents/cited.py resolves what the documents cite against them, and gate/documents/promises.py
links to them.
"""

import re
from collections import defaultdict
from dataclasses import dataclass, field
from pathlib import Path
from typing import Dict, Iterator, List, Optional, Set, Tuple

from step import TOP

ITEM = re.compile(
    r"(?P<indent>(?:    )*)(?:pub(?:\([a-z]+\))? )?(?:final |const |unsafe )*"
    r"(?P<kind>trait|struct|enum|fn|const|static|type|impl|mod|ghost)\b(?P<rest>.*)"
)
CLAUSE = re.compile(r"\s+(?:requires|ensures|succeeds) (?:(\w+) )?\{")
MEMBER = re.compile(r"    (?:pub(?:\([a-z]+\))? )?([A-Za-z_]\w*)[,({: ]")
GHOST = re.compile(r"\s+(?:pub )?(?:default )?(\w+)")
COMMENT = re.compile(r"//.*")
EXPORTED = re.compile(r"^pub(?:\([a-z]+\))? use ([\w:]+)::(?:\{([^}]*)\}|(\w+));", re.M)
ALIAS = re.compile(r"^pub type (\w+) = (\w+)<", re.M)
PARAMETERS = re.compile(r"<(?:[^<>]|<(?:[^<>]|<[^<>]*>)*>)*>")


@dataclass
class Function:
    """A function: its file, its line, and for each clause the line where that begins."""

    file: Path
    line: int
    clauses: Dict[str, int] = field(default_factory=dict)


class Declarations:
    def __init__(self) -> None:
        # The functions with a path of two words or more, such as `Pread::gread_with` and `slice::pwrite`, and of one.
        self.functions: Dict[str, List[Function]] = defaultdict(list)
        # What else a path of two words or more names: variants, fields, constants, types in modules.
        self.members: Dict[str, List[Tuple[Path, int]]] = defaultdict(list)
        self.owners: Set[str] = set()
        self.in_traits: Set[Tuple[Path, int]] = set()
        # What is exported under another path, and the other names of types.
        self.aliases: Dict[str, str] = {}
        for path in sorted(TOP.glob("crates/*/src/**/*.rt")):
            self.read(path)

    def read(self, path: Path) -> None:
        parts = list(path.relative_to(TOP).parts)
        crate, inner = parts[1], [it.split(".")[0] for it in parts[3:]]
        module = [] if inner in (["lib"], ["main"]) else inner
        paths = [module[at:] for at in range(len(module))] + [[crate, *module]]
        owners: List[str] = []
        kind = ""
        function: Optional[Function] = None
        text = path.read_text(encoding="utf-8")
        self.aliases.update(ALIAS.findall(text))
        for source, many, one in EXPORTED.findall(text):
            for name in filter(None, map(str.strip, (many or one).split(","))):
                whole = "::".join([*module, source.removeprefix("crate::").removeprefix("self::"), name])
                self.aliases.update({"::".join([*it, name]): whole for it in paths})
        lines = [COMMENT.sub("", it).rstrip() for it in text.split("\n")]
        for number, line in enumerate(lines, 1):
            clause = CLAUSE.match(line)
            if clause and function:
                function.clauses.setdefault(clause[1] or "", number)
                continue
            item = ITEM.fullmatch(line)
            if not item:
                member = MEMBER.match(line + " ") if kind in ("struct", "enum") else None
                for owner in owners if member else []:
                    self.members[f"{owner}::{member[1]}"].append((path, number))  # type: ignore[index]
                continue
            name = re.match(r"\s*(\w+)", item["rest"])
            if not item["indent"]:
                kind = item["kind"]
                rest = item["rest"]
                for more in lines[number:] if kind == "impl" else []:
                    if "{" in rest:
                        break
                    rest += f" {more.strip()}"
                owners = owners_of(kind, rest.strip())
                self.owners.update(owners)
                self.owners.update("::".join(it) for it in paths if it)
                if kind in ("trait", "struct", "enum", "const", "static", "type", "mod") and name:
                    for it in paths:
                        self.members["::".join([*it, name[1]])].append((path, number))
            if kind == "trait" and item["indent"]:
                self.in_traits.add((path, number))
            of = owners if item["indent"] else ["::".join(it) for it in paths]
            function = self.take(path, number, item["kind"], name[1] if name else "", of, function)

    def take(self, path: Path, number: int, kind: str, name: str, owners: List[str], before: Optional[Function]) -> Optional[Function]:
        """Takes an item in, and returns the function whose clauses follow."""
        if kind == "fn":
            function = Function(path, number)
            for key in {name, *(f"{owner}::{name}" for owner in owners if owner)}:
                self.functions[key].append(function)
            return function
        if kind in ("const", "type", "ghost") and name:
            for owner in owners:
                self.members[f"{owner}::{name}"].append((path, number))
        return before if kind == "ghost" else None

    def paths(self, name: str) -> Set[str]:
        """Returns the paths that a citation may stand for: without parameters, and what its parts are other names of."""
        found = {it.removeprefix("crate::").removeprefix("scroll::").removeprefix("scroll_formats::") for it in (name, PARAMETERS.sub("", name))}
        for _ in range(3):
            for it in list(found):
                parts = it.split("::")
                for end in range(1, len(parts) + 1):
                    other = self.aliases.get("::".join(parts[:end]))
                    found.update(["::".join([other, *parts[end:]])] if other else [])
        return found | {it.split("::", 1)[1] for it in found if it.split("::")[0] in ("scroll", "scroll_formats", "crate") and "::" in it}

    def resolves(self, name: str) -> bool:
        """Whether a path of two words or more leads to a declaration."""
        owner, _, last = name.rpartition("::")
        if last == "*":
            return bool(self.paths(owner) & self.owners)
        return any(it in self.functions or it in self.members or it in self.owners for it in self.paths(name))

    def places(self, name: str, of: str = "") -> List[Tuple[Path, int, Set[str]]]:
        """Returns where a citation leads: the file and the line, and for a function its clauses; with `of`, in implementations for
        this type alone, if there is one."""
        last = name.split("::")[-1]
        own = {(it.file, it.line) for it in self.found(f"{of}::{last}")}
        own |= {it for path in self.paths(f"{of}::{last}") for it in self.members.get(path, [])}
        found = [(it.file, it.line, set(it.clauses)) for it in self.found(name)]
        found += [(*it, set()) for path in sorted(self.paths(name)) for it in self.members.get(path, [])]
        # (what has the parameters of the citation comes first, and what a trait declares before its implementations)
        exact = {(it.file, it.line) for it in self.functions.get(name, [])}
        found.sort(key=lambda it: (it[:2] not in exact, it[:2] not in self.in_traits))
        return [it for it in found if not of or it[:2] in own]

    def found(self, name: str) -> List[Function]:
        """Returns the functions that a citation names."""
        return [it for path in sorted(self.paths(name)) for it in self.functions.get(path, [])]

    def clauses(self, name: str) -> Set[str]:
        """Returns the names of the clauses of the functions of this name."""
        return {clause for it in self.found(name) for clause in it.clauses}

    def names(self) -> Iterator[str]:
        """Returns each declared name by itself, and each clause."""
        for key, found in self.functions.items():
            yield from key.split("::")
            for it in found:
                yield from it.clauses
        for key in (*self.members, *self.owners):
            yield from key.split("::")


def owners_of(kind: str, rest: str) -> List[str]:
    """Returns what members of an item are cited by: a type or a trait; of an implementation both, and `Trait for Type`."""
    if kind != "impl":
        found = re.match(r"\s*(\w+)", rest)
        return [found[1]] if found else []
    text = re.split(r"\s+where\b|\s*\{", PARAMETERS.sub("", rest, count=1) if rest.startswith("<") else rest)[0].strip()
    found: List[str] = []
    for whole in (re.sub(r"'\w+ ", "", it.strip()) for it in text.split(" for ")):
        plain = PARAMETERS.sub("", whole)
        found += dict.fromkeys([whole, plain, plain.split("::")[-1]])
    return list(dict.fromkeys(re.sub(r"<'\w+>", "", it) for it in found))
