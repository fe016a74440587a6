"""Structs and enums as they are written, with their notes."""

import re
from dataclasses import dataclass, field
from typing import AbstractSet, Dict, List, NamedTuple, NoReturn, Optional, Set, Tuple

from comments import ATTRIBUTE, OTHERS, is_near, spelled
from tokens import KEPT, MARK, PART, Comment, Refused, Token, Tokens, read_tokens, tokens_of


class Note(NamedTuple):
    """What a note says under a name."""

    value: Tokens
    text: str
    line: int

    @property
    def tokens(self) -> Tokens:
        """Its tokens, from the first one on."""
        return Tokens(self.value.path, self.value.tokens)


Notes = Dict[str, Note]


@dataclass(frozen=True)
class Type:
    """A type: `&[u8]` and `&str` are names; an array's is `[;]`, with its element as argument and its length."""

    name: str
    arguments: Tuple["Type", ...]
    has_lifetime: bool
    length: str
    text: str


@dataclass
class Named:
    """What a file has under a name: what it is, and where it stands."""

    path: str
    word: str
    name: str
    line: int
    notes: Notes

    def refuse(self, message: str, note: Optional[Note] = None) -> NoReturn:
        """Says what isn't supported of it, or of a note before it."""
        raise Refused(self.path, (note or self).line, f"the {self.word} {self.name} {message}")


@dataclass
class RawField(Named):
    """A field, or a variant of an enum, whose values are `types`. A field has one type."""

    types: List[Type]
    is_ghost: bool = False
    has_names: bool = False

    @property
    def type(self) -> Type:
        return self.types[0]


@dataclass
class Item(Named):
    """A struct or an enum."""

    is_marked: bool
    is_kept: bool
    is_part: bool
    fields: List[RawField] = field(default_factory=list)
    lifetime: str = ""
    has_parameters: bool = False
    is_tuple: bool = False
    # The lines of what stands before it, and of its end.
    begin: int = 0
    end: int = 0

    @property
    def is_enum(self) -> bool:
        return self.word == "enum"

    @property
    def names(self) -> List[str]:
        return [it.name for it in self.fields]


class Import(NamedTuple):
    """What a `use` line names: a path, of which the last name is `*` where all that a module has is imported, its name here, and whether
    it is imported only under a condition."""

    path: Tuple[str, ...]
    name: str
    is_conditional: bool = False


class Constant(NamedTuple):
    """A constant: its type and its value, as they are written; and whether it is there only under a condition, such as for tests."""

    type: str
    value: str
    line: int
    is_conditional: bool


@dataclass
class SourceFile:
    """A file: what stands at its top, not inside a function, a module or a block: items, constants, imports and other types; the
    comments that look like notes; and whether it has the module that is printed."""

    path: str
    has_module: bool = False
    items: List[Item] = field(default_factory=list)
    constants: Dict[str, List[Constant]] = field(default_factory=dict)
    imports: List[Import] = field(default_factory=list)
    others: Set[str] = field(default_factory=set)
    comments: List[Comment] = field(default_factory=list)


def read_file(path: str, text: str, own: AbstractSet[str] = frozenset()) -> SourceFile:
    """Returns what stands at the top of a file, in which some names are the crate's own and the libraries' too."""
    tokens, comments = read_tokens(path, text, own)
    file = SourceFile(path, comments=comments)
    notes: Notes = {}
    mark: Optional[Token] = None
    depth, begin, is_conditional = 0, 0, False
    while True:
        token = tokens.take()
        if token.kind == "mark":
            if mark:
                tokens.refuse(token.line, f"this is a second line `// {MARK}` before one struct")
            mark = token
            tokens.read.add(token.line)
        elif token.kind == "name" and token.text in ("struct", "enum") and tokens.next.kind == "name":
            item = read_item(tokens, token, notes, mark)
            item.begin, item.end = begin, tokens.line
            if is_conditional and item.is_marked:
                item.refuse("is there only under a condition, as its implementations aren't")
            refuse_comments(item, comments)
            if depth and item.is_marked:
                item.refuse("stands inside a module, a function or a block of this file: write it at the top of a file")
            if not depth:
                file.items.append(item)
            notes, mark, begin, is_conditional = {}, None, tokens.line, False
        elif token.text == "#":
            is_conditional |= skip_attribute(tokens, token.line) == "cfg"
        elif not read_between(tokens, token, notes):
            if mark or notes:
                tokens.refuse((mark or next(iter(notes.values()))).line, "the note stands before no struct, enum or field")
            if token.kind == "end":
                tokens.refuse_unread()
                return file
            depth += (token.text in ("(", "[", "{")) - (token.text in (")", "]", "}"))
            if not depth:
                read_other(tokens, token, file, is_conditional)
            begin, is_conditional = tokens.line, False


def refuse_comments(item: Item, comments: List[Comment]) -> None:
    """Refuses comments above a struct or an enum, or inside it, that look like notes and are none."""
    for it in comments:
        # (behind the code before it an attribute alone may be meant for it)
        begin = item.begin if ATTRIBUTE.search(it.text) else item.begin + 1
        if not begin <= it.line <= item.end:
            continue
        if it.is_mark:
            said = f"this line isn't read, and looks like one of `// {MARK}`, `// {KEPT}` and `// {PART}`: write one of them"
            raise Refused(item.path, it.line, said)
        if item.is_marked:
            said = spelled(it.text)
            said = f"write `{said}` on a line of its own" if said else "a note is a line of its own, `// #[scroll(NAME = ..)]`"
            raise Refused(item.path, it.line, f"this comment looks like a note, and is none: {said}")


def read_other(tokens: Tokens, token: Token, file: SourceFile, is_conditional: bool) -> None:
    """Reads another item, of which the first word was taken, as far as others may name it."""
    if token.text == "ghost" and tokens.next.text == "use":
        tokens.until(";")
    elif token.text == "use":
        inside = tokens.until(";")
        inside.has("::")
        file.imports += [it._replace(is_conditional=is_conditional) for it in read_use(inside, ()) if it.path]
    elif token.text == "mod" and tokens.next.text == "derived":
        file.has_module = True
    elif token.text == "const" and tokens.next.kind == "name" and tokens.before not in ("<", ",") and tokens.next.text != "fn":
        name, line = tokens.take().text, token.line
        inside = tokens.until(";")
        inside.has(":")
        type_, value = inside.until("=").said, inside.part(inside.place).said
        file.constants.setdefault(name, []).append(Constant(type_, value, line, is_conditional))
    elif token.text in ("type", "trait", "union", "static") and tokens.next.kind == "name":
        file.others.add(tokens.next.text)


def read_use(tokens: Tokens, before: Tuple[str, ...]) -> List[Import]:
    """Reads what stands behind `use`, or between its brackets."""
    found: List[Import] = []
    for inside in tokens.split("{", "}"):
        path = before
        while inside.next.kind == "name" or inside.next.text == "*":
            path = (*path, inside.take().text)
            if not inside.has("::"):
                break
        if inside.next.text == "{":
            found += read_use(inside.inside(), path)
            continue
        name = path[-1] if path else ""
        if name == "self":
            path, name = path[:-1], path[-2] if len(path) > 1 else ""
        if inside.has("as"):
            name = inside.take().text
        found.append(Import(path, name))
    return found


def read_between(tokens: Tokens, token: Token, notes: Notes) -> bool:
    """Reads what may stand before a struct, an enum or a field, and returns whether this token began it."""
    if token.kind == "note":
        read_note(tokens, token.text, token.line, notes)
    elif token.text == "#":
        skip_attribute(tokens, token.line)
    elif token.text == "pub":
        if tokens.next.text == "(":
            tokens.inside()
    else:
        return False
    return True


def skip_attribute(tokens: Tokens, line: int) -> str:
    """Skips an attribute, of which `#` was taken, and returns its name."""
    tokens.has("!")
    if tokens.next.text != "[":
        return ""
    inside = tokens.inside()
    name = inside.next.text
    if is_near(name.lower(), "scroll", 2):
        tokens.refuse(line, f"`#[{name}(..)]` has to be a comment: `// #[scroll(..)]`")
    if name == "derive" and any(it.text in ("Pread", "Pwrite", "Part") for it in inside.tokens):
        tokens.refuse(line, f"`#[{name}(..)]` has to be a comment: `// #[{name}(..)]`")
    if name == "path":
        tokens.refuse(line, "`#[path = ..]` isn't read, so names in this module may be others: move the file")
    if name in OTHERS:
        tokens.refuse(line, f"`#[{name}(..)]` isn't read: write `// #[scroll(..)]`")
    return name


def read_note(tokens: Tokens, text: str, line: int, notes: Notes) -> None:
    """Adds what a note says."""
    tokens.read.add(line)
    inside = tokens_of(tokens.path, text, line, tokens.own)
    if inside.is_done:
        tokens.refuse(line, "the note is empty")
    for said in inside.split("([{", ")]}"):
        name = said.take().text
        if not re.fullmatch(r"[a-z]+", name) or not said.has("=") or said.is_done:
            tokens.refuse(line, f"`{said.said}` is not `NAME = ..`")
        if name in notes:
            tokens.refuse(line, f"there are two notes `{name} = ..`")
        value = said.part(said.place)
        notes[name] = Note(value, value.said, line)


def read_item(tokens: Tokens, word: Token, notes: Notes, mark: Optional[Token]) -> Item:
    """Reads a struct or an enum, of which the first word was taken."""
    name = tokens.take()
    said = mark.text if mark else ""
    item = Item(tokens.path, word.text, name.text, name.line, notes, bool(mark), said == KEPT, said == PART)
    if notes and not mark:
        item.refuse(f"has a note, but no line `// {MARK}` before it")
    if tokens.next.text == "<":
        inside = tokens.inside()
        item.lifetime = inside.next.text if inside.next.kind == "lifetime" else ""
        item.has_parameters = not item.lifetime or len(inside.tokens) > 1
    while tokens.next.text not in ("{", "(", ";", ""):
        tokens.take()  # (a `where`)
    item.is_tuple = tokens.next.text == "("
    if tokens.next.text in ("{", "("):
        read_fields(tokens.inside(), item)
    tokens.has(";")
    return item


def read_fields(tokens: Tokens, item: Item) -> None:
    notes: Notes = {}
    while not tokens.is_done:
        token = tokens.take()
        if token.kind == "mark":
            tokens.refuse(token.line, f"the line `// {MARK}` stands in the {item.word} {item.name}, not before it")
        if read_between(tokens, token, notes):
            continue
        tokens.place -= 1
        item.fields.append(read_variant(tokens, notes) if item.is_enum else read_field(tokens, item, notes))
        if notes and not item.is_marked:
            item.refuse(f"has a note, but no line `// {MARK}` before it", next(iter(notes.values())))
        notes = {}
    if notes:
        tokens.refuse(next(iter(notes.values())).line, "the note stands before no field")


def read_field(tokens: Tokens, item: Item, notes: Notes) -> RawField:
    name = tokens.next
    made = RawField(tokens.path, "field", name.text, name.line, notes, [])
    if item.is_tuple:
        made.name = str(len(item.fields))
    else:
        made.is_ghost = tokens.take().text == "ghost"
        made.name = tokens.take().text if made.is_ghost else name.text
        tokens.has(":")
    inside = tokens.until_comma()
    inside.refuse_unread()
    made.types = [] if made.is_ghost else [read_type(inside)]
    return made


def read_variant(tokens: Tokens, notes: Notes) -> RawField:
    name, inside = tokens.take(), tokens.until_comma()
    inside.refuse_unread()
    made = RawField(tokens.path, "variant", name.text, name.line, notes, [], has_names=inside.next.text == "{")
    if inside.next.text == "(":
        made.types = [read_type(it) for it in inside.inside().split()]
    if inside.next.text == "=":
        made.refuse("has a number of its own, which no bytes have: write its tag, `// #[scroll(is = ..)]`")
    return made


def read_type(tokens: Tokens) -> Type:
    """Reads a type; one that isn't supported has no name."""
    text, begin = tokens.said, tokens.place
    made = parse_type(tokens)
    if made and tokens.is_done:
        return made
    tokens.place = begin
    return Type("", (), False, "", text)


def parse_type(tokens: Tokens) -> Optional[Type]:
    if tokens.has("&"):
        has_lifetime = tokens.next.kind == "lifetime" and tokens.next.text != "'static" and bool(tokens.take())
        if tokens.has("[", "u8", "]"):
            return Type("&[u8]", (), has_lifetime, "", "&'a [u8]")
        return Type("&str", (), has_lifetime, "", "&'a str") if tokens.has("str") else None
    if tokens.next.text == "[":
        inside = tokens.inside()
        element = parse_type(inside)
        if not element or not inside.has(";"):
            return None
        length = inside.part(inside.place).said
        return Type("[;]", (element,), False, length, f"[{element.text}; {length}]")
    if tokens.next.kind != "name":
        return None
    name = tokens.take().text
    arguments: List[Type] = []
    has_lifetime = False
    if tokens.next.text == "<":
        for argument in tokens.inside().split():
            if argument.next.kind == "lifetime" and argument.next.text != "'static":
                has_lifetime = True
                continue
            if argument.next.kind == "number":
                text = argument.take().text
                arguments.append(Type("", (), False, "", text))
                continue
            made = parse_type(argument)
            if not made or not argument.is_done:
                return None
            arguments.append(made)
    said = ", ".join([*(["'a"] if has_lifetime else []), *(it.text for it in arguments)])
    return Type(name, tuple(arguments), has_lifetime, "", f"{name}<{said}>" if said else name)
