"""The rules that notes say of numbers: constants, conditions, what is subtracted, and tags."""

import re
from typing import TYPE_CHECKING, Tuple

from conditions import Both, Condition
from fixed_types import Array, Fixed, is_counter
from forms import Rule
from items import Named, Note, RawField
from literals import number_of
from model import Enum
from sums import Sum, Term, as_usize, bracketed

if TYPE_CHECKING:
    from reader import Reader


def own_variant(reader: "Reader", at: Named, note: Note) -> str:
    """Returns the variant of the error type that a note `else = ..` says."""
    name, _, variant = note.text.partition("::")
    error = reader.error
    if not error or name != error.name or variant not in error.variants:
        said = f"the error {error.name}" if error else "no error of its own: write `error = ..` before it"
        at.refuse(f"has the error {note.text}, and the {reader.item.word} {reader.item.name} has {said}", note)
    return variant


def bad_input(reader: "Reader", at: Named, ghost: str, code: str, text: str) -> Tuple[str, str]:
    """Returns what says that a `BadInput` is the error, and the code that returns it."""
    error = reader.error
    if error and not error.variant:
        at.refuse("is tested, which isn't proved with the error SmallError: take an error of your own")
    begin, end = (f"{error.name}::from(", ")") if error else ("", "")
    said = f'GivesBadInput {error.gives} {ghost} (codes "{text}") e' if error else f'IsBadInput e {ghost} (codes "{text}")'
    return said, f"""
            return Err({begin}Error::BadInput {{
                size: {code},
                msg: "{text}",
            }}{end});"""


def own_error(reader: "Reader", variant: str, number: str) -> Tuple[str, str]:
    """The same of an error of one's own, which holds a number."""
    assert reader.error
    code = f"\n            return Err({reader.error.name}::{variant}({number}));"
    return f"(e ≡ {reader.error.said(variant)} {number})", code


def tested(holds: str, is_not: str, test: str, error: Tuple[str, str]) -> Rule:
    """A rule whose test finds what it refuses."""
    fails, returned = error
    return Rule(f"({holds})", f"{is_not} × {fails}", test, f"\n        if {test} {{{returned}\n        }}")


def constant_rule(reader: "Reader", at: RawField, of: Fixed) -> Rule:
    """A number is a constant."""
    note, other = at.notes["is"], at.notes.get("else")
    if note.text.startswith(('b"', '"', "[")):
        at.refuse(f"is {note.text}: take an array of bytes, or write the literal number that they are", note)
    found = reader.known(at, note.text, note)
    if found.value < 0:
        at.refuse(f"is {note.text}, which is no literal, and no constant that is one", note)
    if not is_counter(of):
        at.refuse("has a constant, and is no unsigned number of at most 64 bits", note)
    if found.value >= 256**of.width:
        at.refuse(f"is {note.text}, which doesn't fit {of.text}", note)
    if found.type not in ("", of.text):
        at.refuse(f"is {note.text}, a constant of {found.type}: make it of {of.text}", note)
    name, (value, said), text = f"@{at.name}@", found.said, f"{at.name} is not {as_text(note.text)}"
    if not reader.error and not other:
        wanted = f"{said} as usize" if found.type else said
        code = f'\n        is({as_usize(at.name)}, {wanted}, "{text}")?;'
        return Rule(f"({name} ≡ {value})", f'IsNot {value} {name} (codes "{text}") e', "", code)
    if other:
        error = own_error(reader, own_variant(reader, at, other), name)
    else:
        error = bad_input(reader, at, name, as_usize(at.name), text)
    return tested(f"{name} ≡ {value}", f"({name} ≢ {value})", f"{name} != {said}", error)


def bytes_rule(reader: "Reader", at: RawField, of: Array) -> Rule:
    """The bytes of an array are constant."""
    note, name = at.notes["is"], f"@{at.name}@"
    found = reader.crate.bytes(at, note.text, reader.constants, note)
    if not found:
        at.refuse(f"is {note.text}, which is no literal of bytes, and no constant that is one", note)
    if len(found.value) != of.length:
        at.refuse(f"is {note.text}, which has {len(found.value)} bytes, not {of.length}", note)
    if "else" in at.notes:
        at.refuse("has the note `else = ..`, whose variant holds a number, and is bytes", at.notes["else"])
    wanted, said = found.said
    error = bad_input(reader, at, "0", "0", f"{at.name} is not {as_text(note.text)}")
    return tested(f"{name} ≡ {wanted}", f"({name} ≢ {wanted})", f"{name} != {said}", error)


def as_text(said: str) -> str:
    """Returns how a message says a literal or a constant: without quotes, and without what is read otherwise between quotes."""
    text = re.sub(r"""^b?["']|["']$""", "", said).replace("\\", "").replace('"', "")
    return text or str(number_of(said))


def check_rule(reader: "Reader", at: RawField, note: Note, condition: Condition) -> Rule:
    """A condition holds."""
    first, other = condition.names[0], condition.negated()
    if "else" in at.notes and not {"is", "ctx"} & at.notes.keys():
        error = own_error(reader, own_variant(reader, at, at.notes["else"]), f"@{first}@")
    else:
        text = re.sub(r" ?([<>]=?) ?", r" \1 ", re.sub(r"b'(?:\\.[^']*|[\"<>])'", lambda it: str(number_of(it[0])), note.text))
        error = bad_input(reader, at, f"@{first}@", as_usize(first), f"it is not so that {text}")
    return tested(condition.holds()[1:-1], other.holds(), other.said().code, error)


def multiple_rule(reader: "Reader", at: RawField, name: str, by: int) -> Rule:
    """A number is a multiple of another."""
    error = bad_input(reader, at, f"@{name}@", as_usize(name), f"{name} is no multiple of {by}")
    return tested(f"@{name}@ % {by} ≡ 0", f"(@{name}@ % {by} ≢ 0)", f"@{name}@ % {by} != 0", error)


def great_rule(reader: "Reader", at: RawField, term: Term) -> Rule:
    """A product or a shift fits `usize`, whose greatest value is no count."""
    name = term.names[0]
    error = bad_input(reader, at, f"@{name}@", as_usize(name), f"{term.text} is too great")
    whole, test = term.product(), f"{term.said().code} == usize::MAX"
    return tested(f"{whole} < 2 ^ 64 - 1", f"(2 ^ 64 - 1 ≤ {whole})", test, error)


def below_rule(reader: "Reader", at: RawField, found: Sum, less: Sum) -> Rule:
    """A sum isn't less than what is subtracted from it."""
    whole, below, other = found.whole.said(), less.said(), at.notes.get("else")
    if other:
        first = found.terms[0]
        if len(found.terms) != 1 or found.number or first.times != 1 or len(first.factors) != 1 or first.factors[0].by > 1:
            at.refuse("has the note `else = ..`, and its context subtracts from more than one field", other)
        error = own_error(reader, own_variant(reader, at, other), f"@{first.factors[0].name}@")
    else:
        text = f"{found.text} is less than {less.text}"
        error = bad_input(reader, at, bracketed(whole.ghost), whole.code, text)
    tests, left = [], whole.code
    for it in less.steps:
        tests.append(f"{it.code} > {left}")
        left += f" - {it.code}"
    return tested(f"{below.ghost} ≤ {whole.ghost}", f"({whole.ghost} < {below.ghost})", " || ".join(tests), error)


def tag_rule(reader: "Reader", at: Named, form: Enum, tag: str) -> Rule:
    """A tag is that of a variant."""
    name = f"@{tag}@"
    if form.other:
        error = own_error(reader, form.other, name)
    else:
        error = bad_input(reader, at, name, as_usize(tag), f"{form.item.name} has no such tag")
    known = [it.is_said(tag) for it in form.variants]
    found = known[0] if len(known) == 1 else Both(tuple(known), True)
    return tested(found.holds()[1:-1], found.negated().holds(), found.negated().said().code, error)


def guarded(rule: Rule, condition: Condition) -> Rule:
    """A rule of a field that may be absent holds where that is there."""
    there, inner = condition.said().code, f"({rule.test})" if " || " in rule.test else rule.test
    there = f"({there})" if isinstance(condition, Both) and condition.is_any else there
    code = rule.code.replace(f"if {rule.test} {{", f"if {there} && {inner} {{")
    fails = f"{condition.holds()} × {rule.fails}"
    return Rule(f"({condition.negated().holds()} ⊎ {rule.holds})", fails, f"{there} && {inner}", code)
