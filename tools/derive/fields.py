"""The fields of a struct of any size: one class for each kind, which reads the notes before a field and makes its part."""

from typing import TYPE_CHECKING, Dict, List, Tuple, Type as TypeOf

from fixed_types import PLAIN, Array, Fixed, Record, is_counter
from forms import NOTHING, Number, Part, around_list, numbers, one, there
from items import Note, RawField, Type
from model import Enum, Form, ListType, Struct
from names import HOMES
from rules import bytes_rule, constant_rule, guarded, tag_rule
from sums import Value
from text import call, record

if TYPE_CHECKING:
    from reader import Reader

# Types that borrow.
BORROWED = ("&[u8]", "&str", "CStr", "Table", "Items")
# The notes of any field.
WRAPPERS = ("if", "within", "padded", "order", "big", "check")


def around(name: str, value: Value) -> Value:
    """Returns a context that holds a value."""
    return Value(record(value.ghost), call(name, value.code))


def borrowed(of: Type) -> str:
    """Returns a type with the lifetime that it lacks."""
    inside = ", ".join(["'a", *(it.text for it in of.arguments)])
    return of.text if of.name[0] == "&" else f"{of.name}<{inside}>"


class Kind:
    """A kind of field. `words` are the notes that it takes, besides those of any field."""

    words: Tuple[str, ...] = ()
    # What to write where `ctx` is missing.
    example = ""

    def __init__(self, reader: "Reader", at: RawField, of: Type) -> None:
        self.reader, self.at, self.of = reader, at, of
        for word, note in at.notes.items():
            if word not in (*self.words, *WRAPPERS) and not (word == "else" and "check" in at.notes and "ctx" not in at.notes):
                words = " or ".join(f"`{it} = ..`" for it in self.words) or f"no note but {', '.join(WRAPPERS)}"
                at.refuse(f"has the note `{word} = ..`; {of.text} takes {words}", note)
        if of.has_lifetime and not reader.item.lifetime:
            at.refuse(f"borrows, and the {reader.item.word} has no lifetime: `{reader.item.name}<'a>`")
        if of.name in BORROWED and not of.has_lifetime:
            at.refuse(f"borrows, and has no lifetime of the {reader.item.word}: write `{borrowed(of)}`")
        if of.name in HOMES and not reader.crate.is_library(of.name, reader.item.path):
            at.refuse(f"is of {of.text}, which this file doesn't import: `use {HOMES[of.name]}::{of.name};`")

    @property
    def ctx(self) -> Note:
        if "ctx" not in self.at.notes:
            self.at.refuse(f"has no `ctx = ..`: {self.example}")
        return self.at.notes["ctx"]

    @property
    def element(self) -> Type:
        return self.of.arguments[0] if len(self.of.arguments) == 1 else self.of

    def make(self) -> Part:
        return self.one("usize", self.reader.count(self.at, self.ctx))

    def one(self, context_type: str, context: Value, *told: Number) -> Part:
        return one(self.at.name, self.of.text, context_type, context, told)

    def with_length(self, context_type: str, context: Value) -> Part:
        """A slice or a text, which says its length."""
        return self.one(context_type, context, Number(f"{self.at.name}.len()", "usize"))

    def byte(self, note: Note, said: str) -> Value:
        """Returns a literal of a byte, perhaps of a letter."""
        found = self.reader.known(self.at, note.text, self.ctx)
        if not 0 <= found.value < 256:
            self.at.refuse(f"{said} {note.text}, which is no literal of a byte", self.ctx)
        if found.type not in ("", "u8"):
            self.at.refuse(f"{said} {note.text}, which is of {found.type}: make it of u8", self.ctx)
        return found.said


class Slice(Kind):
    words = ("ctx", "else")
    example = "how many bytes it has, as `ctx = len as usize`"

    def make(self) -> Part:
        called, (count, *rest) = self.reader.call(self.ctx)
        if called != "Filled":
            return self.with_length("usize", self.reader.count(self.at, self.ctx))
        if len(rest) != 1:
            said = "write `Filled(16, 0)`, the size of the field and the byte that fills it behind the text"
            self.at.refuse(f"has the context {self.ctx.text}: {said}", self.ctx)
        size, byte = self.reader.count(self.at, count), self.byte(rest[0], "is filled by")
        return self.with_length("Filled", Value(record(size.ghost, byte.ghost), call("Filled", size.code, byte.code)))


class Text(Kind):
    words = ("ctx", "else")
    example = "`StrCtx::Length(len as usize)`, or `StrCtx::Required(0)` up to a byte"

    def make(self) -> Part:
        note = self.ctx
        called, (inside, *_) = self.reader.call(note)
        if called == "StrCtx::Length":
            return self.with_length("usize", self.reader.count(self.at, inside))
        if called in ("StrCtx::Delimiter", "StrCtx::DelimiterUntil"):
            self.at.refuse(f"may end without its delimiter, which has no layout: write `StrCtx::Required({inside.text})`", note)
        if called != "StrCtx::Required":
            self.at.refuse(f"has the context {note.text}: write `StrCtx::Length({note.text})`, or `StrCtx::Required(0)`", note)
        byte = self.byte(inside, "ends at")
        self.reader.no_else(self.at)
        return self.with_length("Ends", around("Ends", byte))


class CString(Kind):
    def make(self) -> Part:
        return self.one("()", NOTHING)


# The kinds that have an unsigned number as their `value`.
COUNTED = ("Uleb", "Vlq", "Octal", "Decimal", "Hexadecimal")


class Leb(Kind):
    """A number that is kept with its encoding."""

    def make(self) -> Part:
        names = (self.at.name, f"{self.at.name}.value") if self.of.name in COUNTED else ()
        return self.one("()", NOTHING, *(Number(it, "u64", ".value") for it in names))


class Numeral(Leb):
    """A number in digits."""

    def make(self) -> Part:
        if len(self.of.arguments) != 1 or self.reader.known(self.at, self.of.arguments[0].text).value < 1:
            self.at.refuse(f"is of {self.of.text}: write the size of its field, as `{self.of.name}<12>`")
        return super().make()


class Gap(Kind):
    words = ("ctx",)
    example = "how many zeros there are, as `ctx = 4` or `ctx = padding(offset, 8)`"


class TableOf(Kind):
    words = ("ctx", "else")
    example = "how many elements it has, as `ctx = count as usize`"

    def make(self) -> Part:
        crate, element = self.reader.crate, self.element
        if element.name == "[;]":
            self.at.refuse(f"is a table of arrays: put {element.text} into a struct of one field, and take a table of it")
        found = crate.find(element.name, self.reader.item)
        if found and found.is_marked and not crate.is_fixed_type(self.reader.item, element):
            self.at.refuse(f"is a table of {element.text}, which has no fixed size: take `Items<'a, {element.text}>`")
        self.reader.use(crate.fixed(self.reader.item, self.at, element))
        return super().make()


class ListOf(Kind):
    words = ("ctx", "else")
    example = "as `ctx = len as usize` of so many bytes, `ctx = Count(n as usize)` of so many values, `ctx = ToMark` or `ctx = ToLast`"

    def make(self) -> Part:
        element = self.element
        found = self.reader.crate.find(element.name, self.reader.item)
        if not found or "items" not in found.notes:
            name = f"{element.name}s" if found else "Numbers"
            said = f"name the list, `// #[scroll(items = {element.text})] struct {name};`, and take `Items<'a, {name}>`"
            self.at.refuse(f"is a list of {element.text}: {said}")
        form = self.reader.inner(self.at, element)
        called, (inside, *_) = self.reader.call(self.ctx)
        said = self.ctx.text
        if form.context and said != form.context:
            self.at.refuse(f"has the context {said}, and {element.text} says where it ends: take `ctx = {form.context}`")
        if said in ("ToMark", "ToLast"):
            if not form.context:
                self.at.refuse(f"has the context {said}, and {element.text} has no `{'ends' if said == 'ToMark' else 'last'} = ..`")
            part = self.one(said, Value("record {}", said))
        elif called == "Count":
            part = self.one("Count", around("Count", self.reader.count(self.at, inside)))
        else:
            part = super().make()
        found = self.reader.crate.lists.setdefault((self.reader.item.path, self.reader.item.name), [])
        if element.name not in found:
            found.append(element.name)
        return around_list(part, element.name)


class FixedSize(Kind):
    """A number, an array, or a struct of a fixed size."""

    words = ("is", "else")

    def fixed(self) -> Fixed:
        made = self.reader.crate.fixed(self.reader.item, self.at, self.of)
        if isinstance(made, Record):
            if not all(is_of_numbers(it) for _, it in made.fields):
                said = f"is of {made.text}, which has a struct in it: as a part of a format it has numbers and arrays alone"
                self.at.refuse(said)
            self.reader.use(made)
        elif not is_of_numbers(made):
            self.at.refuse("is an array of structs: take `Table<'a, ..>`, or put the structs into a struct")
        if array_depth(made) > 2:
            self.at.refuse("is an array of arrays of arrays: put the inner array into a struct")
        return made

    def make(self) -> Part:
        made = self.fixed()
        if "is" in self.at.notes and isinstance(made, Array) and made.element == PLAIN["u8"]:
            self.reader.rules.append(bytes_rule(self.reader, self.at, made))
        elif "is" in self.at.notes:
            self.reader.rules.append(constant_rule(self.reader, self.at, made))
        elif "else" in self.at.notes and "check" not in self.at.notes:
            self.at.refuse("has the note `else = ..` without `is = ..`", self.at.notes["else"])
        return numbers([(self.at.name, made)], "")


def array_depth(of: Fixed) -> int:
    return 1 + array_depth(of.element) if isinstance(of, Array) else 0


def is_of_numbers(of: Fixed) -> bool:
    return is_of_numbers(of.element) if isinstance(of, Array) else not isinstance(of, Record)


def counting(form: Form) -> List[Number]:
    """Returns the numbers of a struct."""
    if not isinstance(form, Struct):
        return []
    kinds = {it.name: it.type.name for it in form.item.fields}
    found = [(it, kind, "") for it, kind in kinds.items() if kind in PLAIN and is_counter(PLAIN[kind])]
    found += [(it, "u64", ".value") for it, kind in kinds.items() if kind in COUNTED]
    return [Number(it, kind, f".{it}{way}") for it, kind, way in found]


class Nested(Kind):
    """A struct of any size, or an enum whose tag stands before it."""

    words = ("ctx",)

    def make(self) -> Part:
        form, name = self.reader.inner(self.at, self.of), self.of.name
        if isinstance(form, ListType):
            self.at.refuse(f"is of {name}, which names a list: take `Items<'a, {name}>`")
        if isinstance(form, Enum) and not form.is_own:
            part = self.one(f"Given<{form.context_type}>", around("Given", self.tag(form)))
        elif form.given:
            self.example = f"the number `{form.given}` that {name} is given, as `ctx = len as usize`"
            part = self.one("Given<usize>", around("Given", self.reader.count(self.at, self.ctx)))
        elif "ctx" in self.at.notes:
            self.at.refuse(f"has the note `ctx = ..`, and {name} is given no number", self.ctx)
        else:
            part = self.one("()", NOTHING)
        part.is_exact, part.has_enum = form.is_exact, form.has_enum
        part.numbers = [it._replace(name=f"{self.at.name}.{it.name}") for it in counting(form)]
        return part

    def tag(self, form: Enum) -> Value:
        """Returns the tag that an enum is given, perhaps with a length, and adds the rule that it is that of a variant."""
        needs = f"({form.tag} as its tag, and a length)" if form.given else f"its tag, a `{form.tag}`"
        example = "`ctx = (kind, len as usize)`" if form.given else "`ctx = kind`"
        self.example = f"{form.item.name} is given {needs}: {example}"
        note, (tag, *length) = self.ctx, self.reader.call(self.ctx)[1]
        if len(length) != bool(form.given):
            self.at.refuse(f"has the context {note.text}: {self.example}", note)
        name = tag.text
        kind = self.reader.number(self.at, note, name).type
        if kind != form.tag:
            self.at.refuse(f"is given {name}, a {kind}, and {form.item.name} a {form.tag}", note)
        said = Value(f"@{name}@", f"@{name}@")
        for it in length:
            said = Value(*(call("", *both) for both in zip(said, self.reader.count(self.at, it))))
        if not form.takes_any:
            self.reader.rules.append(tag_rule(self.reader, self.at, form, name))
        return said


class OptionOf(Kind):
    """A field that may be absent."""

    words = ("ctx", "else")

    def make(self) -> Part:
        if "if" not in self.at.notes:
            self.at.refuse("has no `if = ..`, which says when it is there, as `if = flags & 1 != 0`")
        if self.element.name == "Option":
            self.at.refuse(f"is of {self.of.text}, and takes one type")
        if self.element.name == "[;]":
            self.at.refuse("is an optional array: put the array into a struct")
        count = len(self.reader.rules)
        inside = self.reader.part(self.at, self.element, {word: it for word, it in self.at.notes.items() if word != "if"})
        condition = self.reader.condition(self.at, self.at.notes["if"])
        self.reader.rules[count:] = [guarded(it, condition) for it in self.reader.rules[count:]]
        return there(inside, self.at.name, condition.said())


KINDS: Dict[str, TypeOf[Kind]] = {
    "&[u8]": Slice,
    "&str": Text,
    "CStr": CString,
    **dict.fromkeys(("Uleb", "Sleb", "Vlq", "Zigzag"), Leb),
    **dict.fromkeys(("Octal", "Decimal", "Hexadecimal"), Numeral),
    "Zeros": Gap,
    "Table": TableOf,
    "Items": ListOf,
    "Option": OptionOf,
}
