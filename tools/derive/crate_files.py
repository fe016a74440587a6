"""The text of each `derived.rt` of a crate."""

import re
from pathlib import Path
from typing import Any, Dict, Iterator, List, NamedTuple, Set, Tuple

from crates import Crate
from fixed_types import is_exact_type, names_of
from floats import too_much
from items import Item, SourceFile
from model import Enum, ListType, Struct
from names import CHOICE, CODE, GHOST, qualified
from printing import Printer
from readers import read_form
from records import record_text
from scopes import Target
from tables import table
from text import alias_of, formatted, lay_out
from tokens import OWN

HEAD = "// Printed by tools/derive from "


def derived_path(path: str) -> Path:
    """Returns where the implementations for a file stand."""
    file = Path(path)
    return file.with_name("derived.rt") if file.stem in ("lib", "main", "mod") else file.with_suffix("") / "derived.rt"


class Written(NamedTuple):
    """The text of each file that is to be written, and what is told beside it."""

    files: Dict[Path, str]
    told: List[str]


def derived_files(folder: Path) -> Written:
    crate = Crate(folder, read_form)
    marked = [(file, item) for file in crate.files.values() for item in crate.marked(file)]
    forms = {id(item): None if crate.is_fixed(item) else crate.form(item) for _, item in marked}
    files: Dict[Path, str] = {}
    for file in crate.files.values():
        items = crate.marked(file)
        if items:
            files[derived_path(file.path)] = print_file(crate, file, [(it, forms[id(it)]) for it in items])
    with_floats = [item.name.replace(OWN, "") for _, item in marked if not is_exact(crate, item, forms[id(item)])]
    return Written(dict(zip(files, formatted([*files.values()]))), too_much(crate.texts, with_floats))


def is_exact(crate: Crate, item: Item, form: Any) -> bool:
    """Returns whether what is read of a struct or an enum is written back byte for byte: whether it has no float."""
    return is_exact_type(crate.record(item)) if form is None else isinstance(form, ListType) or form.is_exact


def is_same(text: str, other: str) -> bool:
    """Returns whether two texts differ in their layout alone."""
    first, second = (re.sub(r",(?=[)\]}>])", "", re.sub(r"\s+", "", it)) for it in (text, other))
    return first == second


def left_over(folder: Path, files: Dict[Path, str]) -> List[Path]:
    """Returns the files that were written and that no struct asks for any more."""
    found = [it for it in sorted((folder / "src").rglob("derived.rt")) if it not in files]
    return [it for it in found if it.read_text(encoding="utf-8").startswith(HEAD)]


def print_file(crate: Crate, file: SourceFile, items: List[Tuple[Item, Any]]) -> str:
    texts: List[str] = []
    # The constants that are named, by their modules in the logic.
    inside: Dict[str, Set[str]] = {}
    # (a C string is that of the crate or of std, as the file imports it)
    own: Set[str] = {"CStr", *(item.name for item, _ in items)}
    modules: Dict[str, str] = {}
    # What an `impl` block imports: at the top, a type would lead back to itself by what says what its lists are.
    inner: Dict[str, str] = {}
    # (the lists that a type is printed around)
    around: Set[str] = set()
    constants: List[Target] = []
    for item, form in items:
        if form is None:
            record = crate.record(item)
            texts.append(record_text(record))
            own |= {name for _, of in record.fields for name in names_of(of)}
            continue
        printer = Printer(form)
        texts += printer.print()
        own |= {*form.used}
        constants += form.constants
        if form.error and form.error.module:
            own.add(form.error.name)
            modules[form.error.module] = alias_of(form.error.name)
        modules["Rattle.scroll.specs.declared.endian.Endian.TheVariants"] = "endian_is"
        if isinstance(form, Enum):
            inner[alias_of(item.name)] = f"{crate.declared(item)}.TheVariants as {alias_of(item.name)}"
        lists = crate.lists.get((file.path, item.name), [])
        for name in (*printer.names, *(f"{it}Part" for it in lists)):
            if name in own or name in [it.name for it in file.items]:
                item.refuse(f"has a type {name} printed, whose name another has")
        texts += [Printer.print_part(it) for it in lists if it not in around]
        around |= {*lists}
    constants += [it for item, _ in items for it in crate.lengths.get((item.path, item.name), [])]
    for it in constants:
        assert it.file
        module = crate.module(it.file.path)
        inside.setdefault(".".join(["Rattle", crate.name, "specs.declared", *module, "TheConstants"]), set()).add(it.name)
        own.add(it.name)
    here = ".".join(["Rattle", crate.name, "specs.declared", *crate.module(file.path), "derived"])
    inner |= {f"{it}Part": f"{here}.{it}Part.{{{it}Part}}" for it in around}
    texts = [with_imports(it, inner) for it in texts]
    clashes = {it[1:] for it in own if it.startswith(OWN)}
    texts, own = [qualified(it, clashes, crate.name) for it in texts], {it.replace(OWN, "") for it in own}
    tables = {it.name.replace(OWN, ""): table(crate, it, form.words if isinstance(form, Struct) else {}) for it, form in items}
    texts = [with_table(it, tables) for it in texts]
    body = "\n".join(row for line in "\n\n".join(texts).split("\n") for row in lay_out(line))
    lines = [*constant_lines(inside, body), *imports(crate, own, modules, body)]
    return "\n".join([f"{HEAD}{Path(file.path).name}.", *lines, "", body, ""]).replace(OWN, "")


def constant_lines(modules: Dict[str, Set[str]], body: str) -> Iterator[str]:
    """Returns the lines that import the constants that clauses name."""
    ghost = clauses(body)
    for module, names in modules.items():
        found = [it for it in sorted(names) if is_said(it, ghost)]
        if found:
            yield f"ghost use {module}.{{{', '.join(found)}}};"


def with_table(text: str, tables: Dict[str, List[str]]) -> str:
    """Returns an item with its table before it, if it is the implementation that says what a struct, an enum or a list is."""
    found = re.match(r"impl(?:<'a>)? (?:\w+::)*(?:Shape|Record|Split|Listed<'a>) for (\w+)", text)
    return "\n".join([*tables[found[1]], text]) if found and found[1] in tables else text


def clauses(text: str) -> str:
    """Returns the ghost members and the clauses of a text."""
    return "\n".join(re.findall(r"ghost \w+ = \{.*?(?=\n\n|\Z)|ensures \{.*?(?=\n    \{)", text, re.S))


def with_imports(text: str, inner: Dict[str, str]) -> str:
    """Returns an item with what its block imports."""
    ghost = clauses(text)
    found = [said for name, said in inner.items() if re.search(rf"(?<![\w.]){name}\b", ghost)]
    lines = "".join(f"    ghost use {it};\n" for it in found)
    return re.sub(r"^(impl[^{]*\{\n)", rf"\1{lines}\n", text, count=1) if found else text


def imports(crate: Crate, own: Set[str], modules: Dict[str, str], body: str) -> Iterator[str]:
    """Returns the lines that import what a text names."""
    ghost = clauses(body)
    for module, names in GHOST.items():
        found = [it for it in names if is_said(it, ghost)]
        if found:
            yield f"ghost use {module}.{{{', '.join(found)}}};"
    yield from (f"ghost use {module} as {name};" for module, name in modules.items() if f"{name}." in ghost)
    yield ""
    # (not the variants of enums, and not what only a comment names)
    code = re.sub(r"(?m)^ *//.*", "", body)
    words = {*re.findall(r"(?<![\w.:-])[\w-]+", code)}
    yield from use_lines("super", own & words)
    for module, names in CODE.items():
        called = {it for it in names if f"{it}(" in code or f"{it}::<" in code}
        found = {it for it in names if it in (called if it.islower() or module == CHOICE else words)}
        yield from use_lines(re.sub(rf"^{crate.name}\b", "crate", module), found - own)


def use_lines(module: str, names: Set[str]) -> Iterator[str]:
    if names:
        yield f"use {module}::{{{', '.join(sorted(names))}}};"


def is_said(name: str, ghost: str) -> bool:
    """Returns whether a name stands in clauses."""
    if name in ("not", "if◌then◌else◌"):
        return f"({name[:3].strip('◌')} " in ghost
    if "◌" in name:
        return name in ("◌≡◌", "◌<◌", "◌^◌") or f" {name.strip('◌')} " in ghost
    # (before `=` is the name of a field)
    return name in ghost if name == "[]" else re.search(rf"(?<![\w.-]){re.escape(name)}(?![\w-])(?! = )", ghost) is not None
