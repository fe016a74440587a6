"""What a name means in a file: by its own items, its `use` lines and modules, as Rust has it."""

from pathlib import Path
from typing import Dict, List, NamedTuple, Sequence, Set, Tuple

from items import Constant, Import, Item, SourceFile

# A module, by the names on the way to it from the crate's root.
Module = Tuple[str, ...]


class Target(NamedTuple):
    """What a name means: a name at the top of a file of the crate; or, without a file, a path into another crate."""

    file: "SourceFile | None"
    path: Tuple[str, ...]
    # Whether an import on the way is there only under a condition.
    is_conditional: bool = False

    @property
    def name(self) -> str:
        return self.path[-1]

    @property
    def items(self) -> List[Item]:
        return [it for it in self.file.items if it.name == self.name] if self.file else []

    @property
    def constants(self) -> List[Constant]:
        return self.file.constants.get(self.name, []) if self.file else []


class Scopes:
    """The modules of a crate, and where their names lead."""

    def __init__(self, source: Path, files: Dict[str, SourceFile]) -> None:
        self.source = source
        self.modules: Dict[Module, SourceFile] = {self.module(path): file for path, file in files.items()}

    def module(self, path: str) -> Module:
        """Returns the module of a file."""
        parts = Path(path).relative_to(self.source).with_suffix("").parts
        parts = parts[:-1] if parts[-1] == "mod" else parts
        is_root = parts == ("lib",) or (parts == ("main",) and not (self.source / "lib.rt").exists())
        return () if is_root else tuple(parts)

    def lookup(self, file: SourceFile, text: str) -> List[Target]:
        """Returns what a name or a path may mean in a file, each once."""
        found: List[Target] = []
        for it in self.along(self.module(file.path), tuple(text.split("::")), set()):
            if not any(it.file is other.file and it.path == other.path for other in found):
                found.append(it)
        return found

    def along(self, module: Module, path: Sequence[str], seen: Set[Tuple[Module, str]]) -> List[Target]:
        """Returns where a path leads that is written in a module."""
        first, *others = path
        if not others and first not in ("crate", "self", "super"):
            return self.within(module, first, seen)
        starts = {"crate": (), "self": module, "super": module[:-1]}
        if first in starts:
            return self.below(starts[first], others, seen)
        if (*module, first) in self.modules:
            return self.below((*module, first), others, seen)
        # (a module may be imported by its name)
        modules = [it.path for it in self.modules[module].imports if it.name == first] if module in self.modules else []
        if modules and modules[0] != tuple(path[: len(modules[0])]) and (module, first) not in seen:
            return self.along(module, (*modules[0], *others), seen | {(module, first)})
        return [Target(None, tuple(path))]

    def below(self, module: Module, path: Sequence[str], seen: Set[Tuple[Module, str]]) -> List[Target]:
        """Returns where a path leads from a module on."""
        while len(path) > 1 and ((*module, path[0]) in self.modules or path[0] == "super"):
            module, path = module[:-1] if path[0] == "super" else (*module, path[0]), path[1:]
        return self.within(module, path[0], seen) if len(path) == 1 else []

    def within(self, module: Module, name: str, seen: Set[Tuple[Module, str]]) -> List[Target]:
        """Returns what a name means in a module: what is there, what is imported by its name, or else what comes with all of another
        module."""
        file = self.modules.get(module)
        if not file or (module, name) in seen:
            return []
        seen = seen | {(module, name)}
        if any(it.name == name for it in file.items) or name in file.constants or name in file.others:
            return [Target(file, (name,))]
        named = [it for it in file.imports if it.name == name and it.path[-1] != "*"]
        if named:
            return [found for it in named for found in self.by(it, module, it.path, seen)]
        every = [it for it in file.imports if it.path[-1] == "*"]
        return [found for it in every for found in self.by(it, module, (*it.path[:-1], name), seen)]

    def by(self, of: Import, module: Module, path: Sequence[str], seen: Set[Tuple[Module, str]]) -> List[Target]:
        """Returns where a path leads by an import."""
        return [it._replace(is_conditional=it.is_conditional or of.is_conditional) for it in self.along(module, path, seen)]
