"""What is read of the notes of a struct or an enum, field by field."""

import re
from dataclasses import replace
from math import prod
from typing import Any, List, Optional, Sequence, Tuple

from conditions import Both, Condition, read_condition
from crates import Crate
from fields import KINDS, FixedSize, Nested
from fixed_types import PLAIN, Fixed, names_of
from forms import Number, Part, Rule, numbers
from items import Item, Named, Note, Notes, RawField, Type
from model import Form, Known
from rules import below_rule, great_rule, multiple_rule
from scopes import Target
from sums import PLACE, Sum, Term, Value, read_sum
from tokens import OWN


class Reader:
    """Reads one struct, one enum or one list."""

    # The notes that may stand before it.
    words: Tuple[str, ...] = ()

    def __init__(self, crate: Crate, item: Item, outer: Tuple[Item, ...]) -> None:
        self.crate, self.item, self.outer = crate, item, (*outer, item)
        self.error = crate.error(item)
        self.parts: List[Part] = []
        self.rules: List[Rule] = []
        # The types and the constants of the crate that are named.
        self.used: List[str] = []
        self.constants: List[Target] = []
        # The number that it is given.
        self.given: List[Number] = []
        for word, note in item.notes.items():
            if word not in self.words:
                known = ", ".join(f"`{it}`" for it in self.words)
                item.refuse(f"has the note `{word} = ..`, and takes {known}", note)

    def read(self) -> Form:
        raise NotImplementedError

    # Other structs and enums

    def use(self, of: Fixed) -> None:
        self.used += names_of(of)

    def inner(self, at: RawField, of: Type) -> Any:
        """Returns the struct of any size, the enum or the list that a type is."""
        found = self.crate.find(of.name, self.item)
        if not found or not found.is_marked:
            at.refuse(self.crate.why_not(self.item, of))
        if any(found is it for it in self.outer):
            at.refuse(f"is of {of.text}, which holds it")
        form = self.crate.form(found, self.outer)
        self.check_error(at, form)
        self.used.append(found.name)
        return form

    def check_error(self, at: RawField, form: Form) -> None:
        own, other = (it.name if it else "scroll::Error" for it in (self.error, form.error))
        if own != other:
            at.refuse(f"is of {form.item.name}, whose error is {other}, not {own}: write one `error = ..` before both")

    # Numbers

    def number(self, at: RawField, note: Note, name: str) -> Number:
        """Returns an earlier number."""
        for it in (*self.given, *(it for part in self.parts for it in part.numbers)):
            if it.name == name and not it.type.startswith("["):
                return it
        first, order = name.partition(".")[0], self.item.names
        if first not in order:
            at.refuse(f"has a note that names {first}, which is no field", note)
        if at.name in order and order.index(first) >= order.index(at.name):
            at.refuse(f"has a note that names {first}, which doesn't stand before it", note)
        if name.endswith("()"):
            at.refuse(f"has a note that names {name}, and {first} is no slice or text", note)
        at.refuse(f"has a note that names {name}, which is no unsigned number of at most 64 bits", note)

    def sum(self, at: RawField, note: Note) -> Sum:
        found = read_sum(note, [it.name for it in self.given])
        if not found:
            said = "which is no sum of fields `as usize`, perhaps times numbers, and numbers"
            said += f": write `{note.text} as usize`" if re.fullmatch(r"[a-z][\w.]*", note.text) else ""
            at.refuse(f"has the context {note.text}, {said}", note)
        whole = self.fitted(at, note, found.whole)
        less = found.less
        if less:
            parts = [self.fitted(at, note, it) for it in less.parts]
            less = replace(less, terms=tuple(it for part in parts for it in part.terms))
        return replace(found, terms=whole.terms, less=less)

    def fitted(self, at: RawField, note: Note, side: Sum) -> Sum:
        """Returns a side of a sum, whose one product or shift may be too great. (A sum of several terms never is.)"""
        mosts = [self.most(at, note, it) for it in side.terms]
        most, alone = side.number + sum(mosts), len(side.terms) == 1 and not side.number
        if most < 2**64 or (alone and not side.terms[0].shift and len(side.terms[0].factors) * side.terms[0].times == 1):
            return side
        if not alone or side.terms[0].times > 1 or len(side.terms[0].factors) > 2:
            said = "which adds to a number of more than 32 bits: it may not fit usize"
            at.refuse(f"has the context {note.text}, {said}", note)
        return replace(side, terms=(replace(side.terms[0], may_be_great=True),))

    def most(self, at: RawField, note: Note, term: Term) -> int:
        """Returns a number that a term is below."""
        limits = [self.limit(self.number(at, note, it)) for it in term.names]
        if term.shift:
            if limits[0] > 2**32 and not term.shift.modulus:
                at.refuse(f"has the context {note.text}, whose shift is by a number of more than 32 bits", note)
            bits = min(term.shift.modulus or limits[0], limits[0]) - 1 + term.shift.more
            return term.shift.number * 2 ** min(bits, 64) + 1
        if len(limits) == 1:
            return limits[0] * term.times
        return prod((limit - 1) // it.by for limit, it in zip(limits, term.factors)) * term.times + 1

    @staticmethod
    def limit(of: Number) -> int:
        """Returns what a number is below. (No slice is longer than half of what fits `usize`.)"""
        return 2**63 if of.is_length else 256 ** PLAIN[of.type].width if of.type in PLAIN else 2**64

    def count(self, at: RawField, note: Note) -> Value:
        """Returns a sum, and adds the rules that it isn't below zero, that its quotients have no remainder, and that it fits."""
        found = self.sum(at, note)
        for term in (*found.terms, *(found.less.terms if found.less else ())):
            self.rules += [multiple_rule(self, at, *it) for it in term.factors if it.by > 1]
            if term.may_be_great:
                self.rules.append(great_rule(self, at, term))
        if found.less:
            self.rules.append(below_rule(self, at, found, found.less))
        else:
            self.no_else(at)
        return found.said()

    def no_else(self, at: RawField) -> None:
        if "else" in at.notes:
            at.refuse("has the note `else = ..`, which only a context that subtracts takes", at.notes["else"])

    def condition(self, at: RawField, note: Note) -> Condition:
        """Returns a condition on earlier numbers."""
        found = read_condition(note)
        if not found:
            said = "write `kind == 1`, `len < other`, or `flags & 4 != 0` of one bit, perhaps several with `&&` or `||`"
            said += "; a sum or a product is tested by a function of your own" if re.search(r"[*+]", note.text) else ""
            at.refuse(f"has the condition {note.text}: {said}", note)
        self.check_condition(at, note, found)
        return found

    def check_condition(self, at: RawField, note: Note, found: Condition) -> None:
        if isinstance(found, Both):
            for it in found.parts:
                self.check_condition(at, note, it)
            return
        kinds = [self.number(at, note, it).type for it in found.names]
        most = max(found.bit, found.other) if isinstance(found.other, int) else 0
        if most >= 256 ** (PLAIN[kinds[0]].width if kinds[0] in PLAIN else 8):
            at.refuse(f"has the condition {note.text} with a number that doesn't fit {found.name}", note)

    def call(self, note: Note) -> Tuple[str, List[Note]]:
        """Returns the name of the function that a note calls, and the arguments; or the parts of a tuple, or the note."""
        tokens = note.tokens
        name = ""
        while tokens.next.kind == "name" or tokens.next.text == "::":
            name += tokens.take().text
        if tokens.next.text == "(":
            inside = tokens.inside()
            if tokens.is_done:
                # (a call of a note is none of the crate's own types)
                name = name.replace(OWN, "")
                return name, [Note(it, it.said, note.line) for it in inside.split()] or [note]
        return "", [note]

    def known(self, at: Named, text: str, note: Optional[Note] = None) -> Known:
        """Returns a literal number or a constant, or one below zero."""
        return self.crate.number(at, text, self.constants, note)

    def multiple(self, at: "Item | RawField") -> Optional[Value]:
        """Returns the size up to a multiple of which something is padded, if it is padded."""
        note = at.notes.get("padded")
        return self.size(at, note, note.text, f"is padded to a multiple of {note.text}") if note else None

    def size(self, at: Named, note: Note, text: str, message: str) -> Value:
        """Returns a size in bytes that isn't zero."""
        found = self.known(at, text, note)
        if found.value < 1:
            at.refuse(f"{message}, which is no literal, and no constant that is one", note)
        if found.value >= 2**63:
            at.refuse(f"{message}, which is more than memory has", note)
        return Value(found.said.ghost, f"{found.said.code} as usize" if found.type not in ("", "usize") else found.said.code)

    # Parts

    def attach(self) -> None:
        """Gives each rule to the last part whose number it names."""
        for rule in self.rules:
            names = PLACE.findall(rule.holds)
            found = [part for part in self.parts if any(it.name in names for it in part.numbers)]
            if not found:
                self.item.refuse("has a rule for the number alone that it is given, which no part can refuse")
            found[-1].rules.append(rule)
        self.rules = []

    def part(self, at: RawField, of: Type, notes: Notes) -> Part:
        """Returns the part of a field, with what is around it."""
        at = replace(at, types=[of], notes=notes)
        if "if" in notes and of.name != "Option":
            at.refuse(f"has the note `if = ..`, and is of {of.text}: write `Option<{of.text}>`", notes["if"])
        kind = KINDS.get(of.name)
        if not kind:
            found = self.crate.find(of.name, self.item)
            is_fixed = of.name == "[;]" or self.crate.is_fixed_type(self.item, of)
            if not is_fixed and not (found and found.is_marked):
                at.refuse(self.crate.why_not(self.item, of))
            kind = FixedSize if is_fixed else Nested
        made = kind(self, at, of).make()
        if of.name == "Option":
            return made
        if "within" in notes:
            made = made.around("Within", made.type, *self.count(replace(at, notes={}), notes["within"]))
        multiple = self.multiple(at)
        made = made.around("Padded", made.type, *multiple) if multiple else made
        order = self.order(at)
        return made.around("Ordered", made.type, *order) if order else made

    def order(self, at: "Item | RawField") -> "Tuple[str, ...]":
        """Returns the byte order that something has of its own, in the logic and in code, or nothing."""
        order, big = at.notes.get("order"), at.notes.get("big")
        if order and big:
            at.refuse("has both `order = ..` and `big = ..`", big)
        if order and order.text.replace(OWN, "") not in ("LE", "BE"):
            at.refuse(f"is in the order {order.text}: write `order = LE`, `order = BE`, or `big = ..` a condition", order)
        if order:
            self.crate.check_library(order.text.replace(OWN, ""), self.item, order)
            return f"endian_is.{'Big' if order.text == 'BE' else 'Little'}", order.text
        if not big or not isinstance(at, RawField):
            return ()
        said = self.condition(at, big).said()
        return f"(if {said.ghost} then endian_is.Big else endian_is.Little)", f"if {said.code} {{ BE }} else {{ LE }}"

    def together(self, fields: Sequence[Tuple[str, Fixed]]) -> Part:
        """Returns fields of a fixed size as one part, with a name for its type and a variable where it is long."""
        every = [it for part in self.parts for it in (part.inside.parts if part.inside else [part])]
        count = sum(len(it.fields) > 1 for it in every)
        variable = f"numbers_{count + 1}" if count else "numbers"
        while variable in self.item.names:
            variable += "_"
        made = numbers(fields, variable)
        if len(made.type) > 64 and len(fields) > 1:
            made.type = f"Run<{self.item.name}Numbers{count + 1 if count else ''}>"
        return made

    def read_given(self) -> List[Tuple[str, str]]:
        """Reads the numbers that a struct or an enum is given."""
        note = self.item.notes.get("given")
        if not note:
            return []
        tag = r"\w+: u(?:8|16|32|64)"
        form = rf"{tag}|\({tag}, \w+: usize\)" if self.item.is_enum else r"\w+: usize"
        if not re.fullmatch(form, note.text):
            said = "kind: u8`, its tag, or `given = (kind: u8, len: usize)`" if self.item.is_enum else "len: usize`"
            self.item.refuse(f"is given {note.text}: write `given = {said}", note)
        found = re.findall(r"(\w+): (\w+)", note.text)
        if len(found) > 1 and found[0][0] == found[1][0]:
            self.item.refuse(f"is given two numbers of the name {found[0][0]}", note)
        if any(name in self.item.names for name, _ in found):
            self.item.refuse(f"is given {note.text}, which is the name of a field too", note)
        self.given = [Number(name, "usize") for name, kind in found if kind == "usize"]
        return found
