"""Reads structs of any size, enums, and lists."""

from dataclasses import replace
from typing import Dict, List, Optional, Tuple, Type as TypeOf

from crates import Crate
from fields import FixedSize, counting
from fixed_types import PLAIN, Record, is_counter, numbers_of
from forms import NOTHING, Number, Part, bits, nothing, numbers, optional
from items import Item, Note, RawField, read_type
from literals import bytes_of, number_of
from model import Enum, Form, ListType, Struct, Tags, Variant
from names import HOMES
from reader import Reader
from rules import check_rule, own_variant, tag_rule
from shapes import Chain, leaving, resolve, together
from sums import Value
from tokens import tokens_of

TAGS = ("u8", "u16", "u32", "u64")


class StructReader(Reader):
    """Reads a struct. `padding` is the size up to a multiple of which the last field pads those before it."""

    words = ("error", "given", "padded", "order", "bits")

    def __init__(self, crate: Crate, item: Item, outer: Tuple[Item, ...]) -> None:
        super().__init__(crate, item, outer)
        self.bits: List[Tuple[RawField, int]] = []
        self.gaps: Tuple[str, ...] = ()
        self.words: Dict[str, int] = {}
        self.padding: Optional[Value] = None
        self.heads = 1

    def read(self) -> Struct:
        item = self.item
        if item.is_tuple:
            item.fields[0].refuse(f"of the struct {item.name} has no name, which a struct of any size needs")
        self.read_given()
        multiple, self.is_low = self.multiple(item), self.read_is_low()
        for at, field in enumerate(item.fields):
            self.padding = None
            self.read_field(field)
            # (zeros at the end are those of the whole, unless it has others)
            if self.padding and (at + 1 < len(item.fields) or multiple):
                self.close(self.padding)
                self.padding = None
        self.close_bits()
        self.attach()
        given, multiple = self.given[0].name if self.given else "", self.padding or multiple
        return Struct(item, self.error, self.used, self.constants, self.parts, multiple, given, self.gaps, self.order(item), self.words)

    def read_field(self, field: RawField) -> None:
        if field.is_ghost:
            field.refuse("is a ghost field, which no bytes have")
        if field.name.startswith("r#"):
            field.refuse("has a raw name: give it another")
        if "bits" in field.notes:
            self.read_bits(field)
            return
        self.close_bits()
        if any(field.notes[it].text == "rest" for it in ("ctx", "if") if it in field.notes):
            self.read_rest(field)
        elif not self.read_padding(field):
            made = self.part(field, field.type, field.notes)
            last = self.parts[-1] if self.parts else None
            if made.fields and made.context == NOTHING and last and last.fields and last.context == NOTHING:
                self.parts.pop()
                made = self.together([*last.fields, *made.fields])
            self.parts.append(self.apart(made))
            self.read_check(field)

    def apart(self, made: Part) -> Part:
        """Binds a part with an array by a line of its own, if an optional list stands before it: behind such a one, the borrow
        checker doesn't cover an array that is taken out of its part in the same pattern."""
        every = [it for part in self.parts for it in (part.inside.parts if part.inside else [part])]
        if not made.has_array or not any(it.is_optional_list for it in every):
            return made
        variable = f"part_{len(every) + 1}"
        while variable in self.item.names:
            variable += "_"
        return replace(made, join=variable, after=f"\n        let {made.join} = {variable};{made.after}")

    def read_padding(self, field: RawField) -> bool:
        """Reads zeros up to a multiple, and returns whether a field is these."""
        note = field.notes.get("ctx")
        called, arguments = self.call(note) if note and field.type.name == "Zeros" else ("", [])
        if called != "padding":
            return False
        if len(field.notes) > 1:
            field.refuse("has another note beside `padding(..)`, which takes none", note)
        first, *rest = [it.text for it in arguments]
        if first != "offset" or len(rest) != 1 or not self.parts:
            field.refuse(f"has the context {note.text}: write `padding(offset, 8)`, behind a field", note)
        self.padding = self.size(field, note, rest[0], f"is padded to a multiple of {rest[0]}")
        self.gaps = (*self.gaps, field.name)
        return True

    def close(self, multiple: Value) -> None:
        """Puts the parts so far into one, with zeros behind it."""
        self.attach()
        chain = Chain(self.item.name, self.parts, self.heads)
        self.heads = chain.end
        self.parts = [together(chain, multiple, len(self.gaps))]

    def read_check(self, field: RawField) -> None:
        """Adds the rule that a condition on the fields so far holds."""
        note = field.notes.get("check")
        if note:
            self.rules.append(check_rule(self, field, note, self.condition(field, note)))

    def read_bits(self, field: RawField) -> None:
        note = field.notes["bits"]
        count, of = number_of(note.text), PLAIN.get(field.type.name)
        if field.notes.keys() - {"bits", "check", "else"}:
            field.refuse("has another note beside `bits = ..`, which takes `check = ..` alone", note)
        if not of or not is_counter(of) or not 0 < count <= 8 * of.width:
            said = "take an unsigned number with room for them"
            field.refuse(f"has `bits = {note.text}`, and is of {field.type.text}: {said}", note)
        if self.bits_are_three_bytes and (count > 8 or of.width > 4):
            self.close_bits()
        if self.is_low and not self.bits and of.width > 4:
            field.refuse("is the first of fields of bits from the lowest on, in 64 bits: take a number of at most 32", note)
        if self.bits and of.width > 4:
            field.refuse("is a lower field of bits of 64 bits: take one of at most 32", note)
        self.bits.append((field, count))
        word, filled = PLAIN[self.bits[0][0].type.name], sum(it for _, it in self.bits)
        if filled > 8 * word.width:
            said = f"is the {filled}th bit of {word.text}, the type of the first field of bits, which says the number"
            field.refuse(said, note)
        if filled == 8 * word.width:
            self.close_bits()

    @property
    def bits_are_three_bytes(self) -> bool:
        return sum(it for _, it in self.bits) == 24 and self.bits[0][0].type.name == "u32"

    def close_bits(self) -> None:
        """Makes fields of bits a part. Those of a `u32` may be a number of three bytes."""
        if not self.bits:
            return
        (first, _), (last, _) = self.bits[0], self.bits[-1]
        word, filled = first.type.name, sum(it for _, it in self.bits)
        if self.bits_are_three_bytes:
            word = "U24"
        elif filled < 8 * PLAIN[word].width:
            last.refuse("is the last of fields of bits that don't fill their number")
        elif len(self.bits) == 1:
            first.refuse(f"fills {word} alone, and needs no `bits = ..`", first.notes["bits"])
        if self.is_low and last.type.name != first.type.name:
            last.refuse(f"has the highest bits of {first.type.name}: make it of that type")
        self.words[last.name] = 3 if word == "U24" else PLAIN[word].width
        found = self.bits[::-1] if self.is_low else self.bits
        self.parts.append(bits(word, [(it.name, it.type.name) for it, _ in found], [2**it - 1 for _, it in found[1:]]))
        for it, _ in self.bits:
            self.read_check(it)
        self.bits = []

    def read_is_low(self) -> bool:
        """Returns whether the first fields of bits are the lowest."""
        note = self.item.notes.get("bits")
        if note and note.text not in ("low", "high"):
            self.item.refuse(f"has `bits = {note.text}`: write `bits = low` where the first field has the lowest bits", note)
        return bool(note) and note.text == "low"

    def read_rest(self, field: RawField) -> None:
        """Reads the last field, which has the bytes that those before it leave."""
        note = field.notes["ctx" if "ctx" in field.notes else "if"]
        if "check" in field.notes:
            field.refuse("has the rest, which no `check = ..` tests", note)
        if self.given and field is self.item.fields[-1] and not self.parts:
            field.refuse(f"has the rest, and no field stands before it: write `ctx = {self.given[0].name}`, all that the struct is given", note)
        if not self.given or field is not self.item.fields[-1]:
            said = "has the rest, which the last field has of a struct that is given its length: `given = len: usize` before it"
            field.refuse(said, note)
        self.attach()
        chain = Chain(self.item.name, self.parts, self.heads)
        self.heads = chain.end
        others = {word: it for word, it in field.notes.items() if it is not note}
        if field.type.name == "Option":
            made = self.part(field, field.type.arguments[0], others)
            if made.context_type != "()":
                field.refuse(f"is of {field.type.text}, which takes a context: put it into a struct", note)
            rest = optional(made, field.name)
        elif field.type.name in ("&[u8]", "&str", "Items") and not others:
            ctx = "StrCtx::Length(0)" if field.type.name == "&str" else "0"
            rest = self.part(field, field.type, {"ctx": Note(tokens_of(self.item.path, ctx), ctx, note.line)})
        else:
            said = "write `ctx = rest` before a slice, a text or a list, or `if = rest` before an option"
            field.refuse(f"has the rest: {said}", note)
        self.parts = [leaving(chain, rest, self.given[0].name)]


class EnumReader(Reader):
    words = ("tag", "given", "error", "else")

    def read(self) -> Enum:
        item = self.item
        own, found = item.notes.get("tag"), self.read_given()
        if own and (found or own.text not in TAGS):
            item.refuse(f"has the tag {own.text}: write `tag = u8` of its own, or `given = kind: u8` of one before it", own)
        if not own and not found:
            item.refuse("has no tag: write `tag = u8` before it, or `given = kind: u8` where a field before it has its tag")
        tag, given = own.text if own else found[0][1], found[1][0] if len(found) > 1 else ""
        variants: List[Variant] = []
        for raw in item.fields:
            variants.append(self.read_variant(raw, tag, [it.tags for it in variants]))
        note = item.notes.get("else")
        other = own_variant(self, item, note) if note else ""
        made = Enum(item, self.error, self.used, self.constants, tag, given, variants, other)
        if own:
            made.head = numbers([("tag", PLAIN[tag])], "")
            made.head.rules.append(tag_rule(self, item, made, "tag"))
        made.check_alone()
        return made

    def read_variant(self, raw: RawField, tag: str, before: List[Optional[Tags]]) -> Variant:
        if raw.has_names:
            raw.refuse("has fields with names: put them into a struct")
        if "is" not in raw.notes:
            raw.refuse("has no `is = ..`, its tag")
        note = raw.notes["is"]
        tags = self.read_tags(raw, note, tag)
        for other in before:
            if not other:
                raw.refuse("stands behind `is = _`, which has all other tags", note)
            if tags and tags.low.value <= other.high.value and other.low.value <= tags.high.value:
                raw.refuse(f"has the tag {note.text}, which is that of another", note)
        notes = {word: it for word, it in raw.notes.items() if word != "is"}
        if "check" in notes:
            raw.refuse("has the note `check = ..`, which a field of a struct takes", note)
        names = [f"v{at}" for at in range(len(raw.types))]
        if len(raw.types) == 1:
            part: Part = self.part(replace(raw, word=f"variant {raw.name}'s value", name=names[0]), raw.types[0], notes)
        elif notes:
            raw.refuse(f"has the note `{[*notes][0]} = ..`, which a variant of one value takes", note)
        elif any_size := next((it for it in raw.types if not self.crate.is_fixed_type(self.item, it)), None):
            raw.refuse(f"has several values, and {any_size.text} has no fixed size: put them into a struct")
        else:
            values = [replace(raw, name=name, types=[of], notes={}) for name, of in zip(names, raw.types)]
            part = numbers([(it.name, FixedSize(self, it, it.type).fixed()) for it in values], "") if values else nothing()
        if self.rules:
            raw.refuse("has a note with a rule, which a variant doesn't take: put it into a struct", note)
        return Variant(raw.name, tags, names, part)

    def read_tags(self, raw: RawField, note: Note, tag: str) -> Optional[Tags]:
        """Returns the least and the greatest tag of a variant, or nothing where it has all others."""
        is_any, is_own = note.text == "_", "tag" in self.item.notes
        if is_any and not is_own:
            return None
        low, _, high = note.text.partition(".. =")
        found = [self.known(raw, it.strip(), note) for it in (low, high or low)]
        if is_own and (is_any or high):
            raw.refuse("has several tags, of which none is kept: take the tag as a field, and `given = ..`", note)
        if bytes_of(note.text) is not None:
            raw.refuse(f"has the tag {note.text}: a tag is a number, so write the number that the bytes are", note)
        if min(it.value for it in found) < 0 or max(it.value for it in found) >= 256 ** PLAIN[tag].width:
            raw.refuse(f"has the tag {note.text}, which is no literal, and no constant, that fits {tag}", note)
        if found[1].value < found[0].value:
            raw.refuse(f"has the tag {note.text}, which no number is", note)
        if any(it.type not in ("", tag) for it in found):
            raw.refuse(f"has the tag {note.text}, a constant that isn't of {tag}", note)
        return Tags(*found)


class ListReader(Reader):
    words = ("items", "ends", "last", "error")
    # The numbers of a value, by which one may say that it is the last.
    inside: List[Number] = []

    def read(self) -> ListType:
        """Reads a struct that names the values of a list."""
        item, note = self.item, self.item.notes["items"]
        of = read_type(note.tokens)
        at = RawField(item.path, item.word, item.name, note.line, {}, [of])
        is_fixed = self.crate.is_fixed_type(item, of)
        found = self.crate.find(of.name, item)
        if of.name in ("Uleb", "Sleb", "Vlq", "Zigzag", "CStr"):
            self.crate.check_library(of.name, item, note)
            if of.name == "CStr" and not self.crate.is_library("CStr", item.path):
                item.refuse(f"is a list of CStr, which this file doesn't import: `use {HOMES['CStr']}::CStr;`", note)
            return self.list(of.text if of.name != "CStr" else "CStr<'a>")
        if is_fixed:
            made = FixedSize(self, at, of).fixed()
            self.inside = [Number(way[1:], kind, f".0.0{way}") for way, kind in numbers_of(made)]
            return self.list(f"Run<Field<{made.text}>>" if isinstance(made, Record) else f"Run<{made.text}>")
        if not found or not found.is_marked:
            item.refuse(self.crate.why_not(item, of).replace("is of", "is a list of", 1), note)
        form = self.inner(at, of)
        if isinstance(form, ListType) or form.given or (isinstance(form, Enum) and not form.is_own):
            item.refuse(f"is a list of {of.text}, which is given a number: put it into a struct with that", note)
        self.error = form.error
        self.inside = counting(form)
        return self.list(form.type)

    def check_error(self, at: RawField, form: Form) -> None:
        """(A list has the error of its values, if it names none.)"""
        if "error" in self.item.notes:
            super().check_error(at, form)

    def list(self, of: str) -> ListType:
        return ListType(self.item, self.error, self.used, self.constants, of, self.read_ends(), self.read_last(of))

    def read_last(self, of: str) -> Optional[Value]:
        """Returns which value says that it is the last."""
        note = self.item.notes.get("last")
        if not note:
            return None
        if "ends" in self.item.notes:
            self.item.refuse("has both `ends = ..` and `last = ..`", note)
        at = RawField(self.item.path, self.item.word, self.item.name, note.line, {}, [])
        said = self.condition(at, note).said()
        return Value(*(resolve(it, {one.name: f"x{one.way}" for one in self.inside}) for it in said))

    def number(self, at: RawField, note: Note, name: str) -> Number:
        """Returns a number of a value."""
        for it in self.inside:
            if it.name == name:
                return it
        at.refuse(f"has a note that names {name}, which is no unsigned number of a value", note)

    def read_ends(self) -> str:
        """Returns what ends a list: the bytes of a mark, or the name of a type that says it."""
        note = self.item.notes.get("ends")
        if not note:
            return ""
        byte = number_of(note.text)
        found = bytes([byte]) if 0 <= byte < 256 else bytes_of(note.text)
        if found:
            return f"[{', '.join(map(str, found))}]"
        if self.crate.find(note.text, self.item):
            self.used.append(note.text)
        elif note.text in ("NameEnd", "TwoZeroUlebs", "ZeroUleb"):
            self.crate.check_library(note.text, self.item, note)
        else:
            said = "write the mark's bytes, as `ends = 0` or `ends = [0, 0]`, or a type that says it, as `ends = ZeroUleb`"
            self.item.refuse(f"ends a list at {note.text}: {said}", note)
        return note.text


def read_form(crate: Crate, item: Item, outer: Tuple[Item, ...]) -> Form:
    """Returns a struct of any size, an enum or a list."""
    reader: TypeOf[Reader] = EnumReader if item.is_enum else ListReader if "items" in item.notes else StructReader
    return reader(crate, item, outer).read()
