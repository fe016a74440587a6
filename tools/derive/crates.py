"""A crate: its files, its structs and enums, and what names and literals mean in them."""

import re
from pathlib import Path
from typing import Any, Callable, Dict, List, Optional, Tuple

from fixed_types import PLAIN, Array, Fixed, Record, width_of
from items import Item, Named, Note, RawField, SourceFile, Type, read_file
from literals import bytes_of, number_of
from model import Known, OwnError
from names import PLACES
from pointers import read_pointer
from scopes import Scopes, Target
from sums import Value
from tokens import MARK, OWN, Refused


class Crate:
    """The files of a crate's src/. A path in a message is that of the crate and below it."""

    def __init__(self, folder: Path, read: "Callable[[Crate, Item, Tuple[Item, ...]], Any]") -> None:
        self.folder, self.name, self.read = folder, folder.resolve().name, read
        source = folder / "src"
        if not source.is_dir():
            raise Refused(str(folder), 0, "there is no src/ in this folder, so it is no crate")
        self.files: Dict[str, SourceFile] = {}
        self.texts: Dict[str, str] = {}
        self.forms: Dict[int, Any] = {}
        # The lists that are parts of each struct or enum, by its file and its name.
        self.lists: Dict[Tuple[str, str], List[str]] = {}
        # The constants that are lengths of arrays, by the file and the name of what has these.
        self.lengths: Dict[Tuple[str, str], List[Target]] = {}
        for path in sorted(source.rglob("*.rt")):
            if path.name != "derived.rt":
                try:
                    text = path.read_bytes().decode("utf-8")
                except (OSError, UnicodeDecodeError) as error:
                    raise Refused(str(path), 0, str(error)) from error
                self.texts[str(path)] = text
                self.files[str(path)] = read_file(str(path), text)
        self.scopes = Scopes(source, self.files)
        roots = [it for path, it in self.files.items() if Path(path).parent == source and Path(path).stem in ("lib", "main")]
        if len(roots) > 1:
            for it in roots[1].items:
                if it.is_marked:
                    it.refuse("stands in main.rt beside a lib.rt: put it into a module of lib.rt")
        own = {path: {it for it in PLACES if self.is_own(it, path)} for path in self.files}
        self.files = {path: read_file(path, text, own[path]) for path, text in self.texts.items()}
        self.scopes = Scopes(source, self.files)
        for file in self.files.values():
            self.check(file)

    def check(self, file: SourceFile) -> None:
        """Refuses what no struct can be."""
        names: Dict[str, Item] = {}
        for item in file.items:
            if item.name in names and (item.is_marked or names[item.name].is_marked):
                raise Refused(file.path, item.line, f"there is a second {item.word} {item.name} in this file")
            names[item.name] = item
            if not item.is_marked:
                continue
            if not file.has_module:
                item.refuse("needs `mod derived;` in this file")
            if item.has_parameters:
                item.refuse("has parameters, and takes one lifetime at most")
            if (item.is_kept or item.is_part) and ("items" in item.notes or self.is_fixed(item)):
                word = "Kept" if item.is_kept else "Part"
                item.refuse(f"takes no `{word}`, being a list or of a fixed size: write `// {MARK}`")
            if item.is_kept and "given" in item.notes:
                item.refuse(f"takes no `Kept`, being given what no call of these says: write `// {MARK}`")
            if "items" in item.notes and (item.fields or item.is_enum or item.lifetime):
                item.refuse(f"names a list: write `struct {item.name};`")
            if not item.fields and "items" not in item.notes:
                item.refuse(f"has no {'variants' if item.is_enum else 'fields'}")
            for at, it in enumerate(item.fields):
                if it.name in item.names[:at]:
                    it.refuse(f"has the name of another {it.word}")

    def form(self, item: Item, outer: Tuple[Item, ...] = ()) -> Any:
        """Returns a struct of any size, an enum or a list, which is read once."""
        if id(item) not in self.forms:
            self.forms[id(item)] = self.read(self, item, outer)
        return self.forms[id(item)]

    def marked(self, file: SourceFile) -> List[Item]:
        return [it for it in file.items if it.is_marked]

    def find(self, name: str, at: Named) -> Optional[Item]:
        """Returns the struct or the enum that a name means where something stands."""
        targets = self.scopes.lookup(self.files[at.path], name)
        if any(it.is_conditional and it.items for it in targets):
            at.refuse(f"names {name}, which is imported only under a condition")
        found = [it for target in targets for it in target.items]
        if found and found[0].name != name:
            at.refuse(f"names {name}, which is {found[0].name} of {found[0].path}: import it by its own name")
        if len(found) > 1:
            places = " and ".join(sorted(it.path for it in found))
            at.refuse(f"names {name}, which may be that of {places}: import one of them by its name")
        return found[0] if found else None

    def is_library(self, name: str, path: str) -> bool:
        """Returns whether a name that the libraries or std have means what is theirs in a file."""
        home = PLACES[name].split("::")[0]
        targets = self.scopes.lookup(self.files[path], name)
        if home == self.name:
            return any(it.file and it.name == name for it in targets)
        return any(not it.file and it.name == name and it.path[0] in (home, "scroll_layouts", "std", "core") for it in targets)

    def check_library(self, name: str, at: Named, note: Optional[Note] = None) -> None:
        """Refuses a name that a note takes for the libraries', where the file has another one."""
        if self.scopes.lookup(self.files[at.path], name) and not self.is_library(name, at.path):
            at.refuse(f"names {name}, which in this file isn't that of `{PLACES[name]}`", note)

    def is_own(self, name: str, path: str) -> bool:
        """Returns whether such a name means what the crate itself has, and isn't a library's crate."""
        targets = self.scopes.lookup(self.files[path], name)
        return any(it.file for it in targets) and not self.is_library(name, path)

    def module(self, path: str) -> List[str]:
        """Returns the module of a file."""
        return [*self.scopes.module(path)]

    def declared(self, item: Item) -> str:
        """Returns how clauses name a struct or an enum."""
        return ".".join(["Rattle", self.name, "specs", "declared", *self.module(item.path), item.name])

    # Literals and constants

    def constant(self, at: Named, text: str, note: Optional[Note] = None) -> Optional[Target]:
        """Returns the constant that a name means where something stands, if it means one."""
        if not re.fullmatch(rf"{OWN}?[A-Za-z_]\w*(::\w+)*", text):
            return None
        found = [it for it in self.scopes.lookup(self.files[at.path], text) if it.constants]
        if any(it.is_conditional for it in found):
            at.refuse(f"names the constant {text}, which is imported only under a condition", note)
        if len(found) == 1 and found[0].name != text:
            at.refuse(f"names the constant {found[0].name} as {text}: import it, and write its own name", note)
        if len(found) > 1 or (found and len(found[0].constants) > 1):
            at.refuse(f"names the constant {text}, of which there are two", note)
        if found and found[0].constants[0].is_conditional:
            at.refuse(f"names the constant {text}, which is there under a condition alone", note)
        return found[0] if found else None

    def number(self, at: Named, text: str, constants: List[Target], note: Optional[Note] = None) -> Known:
        """Returns a literal number, or a constant that is one, of which a use is added to `constants`; or one below zero."""
        value = number_of(text)
        if value >= 0:
            said = str(value) if text.startswith("b") else text
            return Known(value, Value(str(value), said))
        found = self.constant(at, text, note)
        value = number_of(found.constants[0].value) if found else -1
        if not found or value < 0:
            return Known(-1, Value("", ""))
        constants.append(found)
        return Known(value, Value(found.name, found.name), found.constants[0].type)

    def bytes(self, at: Named, text: str, constants: List[Target], note: Optional[Note] = None) -> Optional[Known]:
        """Returns a literal of bytes, or a constant that is an array of them, or nothing."""
        value = bytes_of(text)
        if value is not None:
            listed = [*map(str, value)]
            return Known(value, Value(f"({' ∷ '.join([*listed, '[]'])})", f"[{', '.join(listed)}]"))
        found = self.constant(at, text, note)
        value = bytes_of(found.constants[0].value) if found else None
        if not found or value is None:
            return None
        if not re.fullmatch(r"\[u8; ?\w+\]", found.constants[0].type):
            at.refuse(f"is {text}, which is of {found.constants[0].type}: make it an array, `[u8; {len(value)}]`", note)
        constants.append(found)
        return Known(value, Value(found.name, found.name), found.constants[0].type)

    # Types of a fixed size

    def is_fixed(self, item: Item, outer: Tuple[Item, ...] = ()) -> bool:
        """Returns whether a struct is of a fixed size: no field has a note or borrows, and each has a fixed size."""
        if item.is_enum or item.lifetime or item.notes or any(it is item for it in outer) or not item.fields:
            return False
        within = (*outer, item)
        return all(not it.notes and not it.is_ghost and self.is_fixed_type(item, it.type, within) for it in item.fields)

    def is_fixed_type(self, item: Item, of: Type, outer: Tuple[Item, ...] = ()) -> bool:
        if of.name in PLAIN:
            return True
        if of.name == "[;]":
            return self.is_fixed_type(item, of.arguments[0], outer)
        if of.name == "Pointer":
            return True
        found = self.find(of.name, item) if of.text == of.name else None
        return bool(found and found.is_marked and self.is_fixed(found, outer))

    def fixed(self, item: Item, at: RawField, of: Type) -> Fixed:
        """Returns a type of a fixed size."""
        if of.name in PLAIN:
            return PLAIN[of.name]
        if of.name == "[;]":
            constants = self.lengths.setdefault((item.path, item.name), [])
            element, length = self.fixed(item, at, of.arguments[0]), self.number(at, of.length, constants).value
            if length < 0:
                at.refuse(f"has the length {of.length}, which is no literal, and no constant that is one")
            return Array(element, length, of.text)
        if of.name == "Pointer":
            return read_pointer(self, item, at, of)
        found = self.find(of.name, item)
        if not found or not self.is_fixed_type(item, of):
            at.refuse(self.why_not(item, of))
        return self.record(found)

    def record(self, item: Item) -> Record:
        made = Record(item.name, tuple((it.name, self.fixed(item, it, it.type)) for it in item.fields), item.is_tuple)
        if width_of(made) == 0:
            item.refuse("has no bytes")
        return made

    def why_not(self, item: Item, of: Type) -> str:
        """Says why a type can't be that of a field."""
        found = self.find(of.name, item)
        if found and not found.is_marked:
            return f"is of {of.text}, before which there is no line `// {MARK}`"
        if of.name in ("usize", "isize"):
            return f"is of {of.name}, whose size no format says: take u32 or u64"
        if of.name in ("Uleb128", "Sleb128"):
            return f"is of {of.name}: as a part of a format it is `{of.name[:4]}`, of `scroll_layouts`"
        if of.name in ("String", "CString", "Vec"):
            return f"is of {of.text}, which owns memory: borrow `&'a str`, `CStr<'a>`, `&'a [u8]` or `Items<'a, ..>`"
        if of.name in ("bool", "char"):
            return f"is of {of.name}: take a number"
        if re.search(r"\bstatic\b", of.text):
            return f"is of {of.text}, which isn't read"
        if re.match(r"&.*\[", of.text):
            return f"is of {of.text}, whose elements are read where they lie: take `Table<'a, ..>`"
        if re.fullmatch(r"[ui]\d+", of.name):
            return f"is of {of.name}, which is no type: take a greater number, as `u32` with `bits = 24`"
        if found:
            return f"is of {of.text}, which has no fixed size"
        elsewhere = [it for file in self.files.values() for it in file.items if it.name == of.name]
        if elsewhere:
            path = "::".join(["crate", *self.module(elsewhere[0].path), of.name])
            return f"is of {of.text}, which this file doesn't import: `use {path};`"
        return f"is of the type {of.text}, which is none of `scroll_layouts` and no struct or enum of this crate"

    # Errors

    def error(self, item: Item) -> Optional[OwnError]:
        """Returns the error type that a note says."""
        note = item.notes.get("error")
        if not note:
            return None
        if note.text == "SmallError":
            return OwnError("SmallError", "", "", ())
        name, _, variant = note.text.partition("::")
        found = self.find(name, item)
        if not found or not found.is_enum:
            said = f"the error {note.text} is no `SmallError`, and no variant of an enum of this crate"
            raise Refused(item.path, note.line, said)
        if variant not in found.names:
            said = f"{name}::{found.names[0]}" if found.names else name
            said = f"the error {note.text} is no variant of {name}: write one that holds an `Error`, as `{said}`"
            raise Refused(item.path, note.line, said)
        return OwnError(name, variant, f"{self.declared(found)}.TheVariants", tuple(found.names))
