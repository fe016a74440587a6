"""Sums in notes, and how they are said in the logic and in code.

In what is said `@name@` stands for a number that a part says by this name.
"""

import re
from dataclasses import dataclass, replace
from typing import List, NamedTuple, Optional, Sequence, Tuple

from items import Note
from literals import number_of
from text import call
from tokens import Tokens


PLACE = re.compile(r"@([^@]+)@")


class Value(NamedTuple):
    """A value in the logic and in code."""

    ghost: str
    code: str


class Factor(NamedTuple):
    """A number, and what it is divided by. It is named as a note does: `len`, `udp.len`, `name.len()`."""

    name: str
    by: int = 1

    def said(self) -> Value:
        code = f"@{self.name}@" if self.name.endswith("()") else f"@{self.name}@ as usize"
        less = f" / {self.by}" if self.by > 1 else ""
        return Value(f"@{self.name}@{less}", code + less)

    @property
    def text(self) -> str:
        return f"{self.name} / {self.by}" if self.by > 1 else self.name


class Shift(NamedTuple):
    """A number that is shifted to the left by another one, perhaps by its remainder, and by a number."""

    number: int
    name: str
    modulus: int
    more: int

    def said(self) -> Value:
        rest = (f" % {self.modulus}" if self.modulus else "") + (f" + {self.more}" if self.more else "")
        return Value(f"@{self.name}@{rest}", f"@{self.name}@ as usize{rest}")

    @property
    def text(self) -> str:
        return f"{self.number} << {bracketed(self.said().ghost.replace('@', ''))}"


@dataclass(frozen=True)
class Term:
    """Numbers times one another and times a number, or a shift. What is too great is the greatest `usize`."""

    factors: Tuple[Factor, ...]
    times: int = 1
    shift: Optional[Shift] = None
    may_be_great: bool = False

    @property
    def names(self) -> List[str]:
        return [it.name for it in self.factors] if not self.shift else [self.shift.name]

    @property
    def is_length(self) -> bool:
        return any(it.endswith("()") for it in self.names)

    @property
    def text(self) -> str:
        said = self.shift.text if self.shift else " * ".join(it.text for it in self.factors)
        return said if self.times == 1 else f"{said} * {self.times}"

    def product(self) -> str:
        """Returns it in the logic without a limit."""
        if self.shift:
            return f"{self.shift.number} * 2 ^ {bracketed(self.shift.said().ghost)}"
        said = [bracketed(it.said().ghost) for it in self.factors]
        return " * ".join([*([str(self.times)] if self.times > 1 else []), *said])

    def said(self) -> Value:
        if self.shift:
            return Value(limited(self.product()), call("shifted", str(self.shift.number), self.shift.said().code))
        said = [it.said() for it in self.factors]
        if self.may_be_great:
            return Value(limited(self.product()), f"({said[0].code}).saturating_mul({said[1].code})")
        if len(said) == 1 and self.times == 1:
            return said[0]
        codes = [f"({it.code})" if " / " in it.code else it.code for it in said]
        return Value(self.product(), " * ".join([*([str(self.times)] if self.times > 1 else []), *codes]))


def limited(said: str) -> str:
    return f"min ({said}) (2 ^ 64 - 1)"


@dataclass(frozen=True)
class Sum:
    """Terms and a number, without another such sum, `less`."""

    terms: Tuple[Term, ...]
    number: int
    less: "Optional[Sum]" = None
    text: str = ""

    @property
    def parts(self) -> "List[Sum]":
        """Its terms, of which each is subtracted by itself if one is a length, since their sum may not fit `usize`."""
        if not any(it.is_length for it in self.terms):
            return [self]
        return [*(Sum((it,), 0) for it in self.terms), *([Sum((), self.number)] if self.number else [])]

    @property
    def steps(self) -> List[Value]:
        return [it.said() for it in self.parts]

    @property
    def whole(self) -> "Sum":
        """It without what is subtracted."""
        return Sum(self.terms, self.number, None, self.text)

    def said(self) -> Value:
        said = [it.said() for it in self.terms]
        number = [str(self.number)] if self.number or not self.terms else []
        ghost, code = (" + ".join([*it, *number]) for it in ([one.ghost for one in said], [one.code for one in said]))
        if self.less:
            ghost, code = bracketed(ghost), bracketed(code)
            for it in self.less.steps:
                ghost, code = f"{ghost} - {bracketed(it.ghost)}", f"{code}.saturating_sub({it.code})"
        return Value(ghost, code)


NO_SUM = Sum((), 0)


def bracketed(text: str) -> str:
    """Returns a text as an argument."""
    return f"({text})" if " " in text else text


def as_usize(name: str) -> str:
    return Factor(name).said().code


def read_path(tokens: Tokens) -> str:
    """Takes the name of a number, or nothing."""
    if tokens.next.kind != "name":
        return ""
    name = tokens.take().text
    while tokens.has("."):
        if tokens.has("len", "(", ")"):
            return f"{name}.len()"
        name = f"{name}.{tokens.take().text}"
    return name


class NoSum(Exception):
    """A note has no sum."""


def read_sum(note: Note, lengths: Sequence[str]) -> Optional[Sum]:
    """Returns a sum, in which the numbers that are `lengths` are `usize`, or nothing where a note has none."""
    try:
        shift = read_shift(note.tokens)
        whole, less = (Sum((shift,), 0), NO_SUM) if shift else read_sides(note.tokens, lengths)
    except NoSum:
        return None
    if less == NO_SUM:
        return replace(whole, text=note.text)
    less = replace(less, text=side_text(less))
    return Sum(whole.terms, whole.number, less, side_text(whole)) if whole.terms else None


def read_shift(tokens: Tokens) -> Optional[Term]:
    """Reads all tokens, where they begin with a number that is shifted."""
    number = number_of(tokens.take().text)
    if not tokens.has("<", "<"):
        return None
    by, modulus, more = tokens.inside() if tokens.next.text == "(" else tokens, 0, 0
    name = read_path(by)
    by.has("as", "usize")
    if by.has("%"):
        modulus = number_of(by.take().text)
        if modulus < 1:
            raise NoSum
    if by is not tokens and by.has("+"):
        more = number_of(by.take().text)
    if number < 1 or not name or name.endswith("()") or min(modulus, more) < 0 or not (by.is_done and tokens.is_done):
        raise NoSum
    return Term((), 1, Shift(number, name, modulus, more))


def read_sides(tokens: Tokens, lengths: Sequence[str]) -> Tuple[Sum, Sum]:
    """Reads all tokens: what is added, and what is subtracted."""
    sides = [NO_SUM, NO_SUM]
    side = 0
    while True:
        found = read_term(tokens, lengths)
        sides[side] = Sum(sides[side].terms + found.terms, sides[side].number + found.number)
        if tokens.is_done:
            return sides[0], sides[1]
        if tokens.next.text not in ("+", "-"):
            raise NoSum
        side = int(tokens.take().text == "-")


def read_term(tokens: Tokens, lengths: Sequence[str]) -> Sum:
    found = read_factor(tokens, lengths)
    if not found.terms and tokens.next.text != "*":
        return found
    while tokens.has("*"):
        is_bracketed, other = tokens.next.text == "(", read_factor(tokens, lengths)
        if not is_bracketed and any(it.by > 1 for term in other.terms for it in term.factors):
            raise NoSum  # (a product would be divided)
        found = times(found, other)
    if not found.terms:
        raise NoSum
    return found


def times(one: Sum, other: Sum) -> Sum:
    """Returns a product, of which one is a number, or both are terms."""
    if not one.terms:
        one, other = other, one
    if not other.terms and not other.number:
        raise NoSum  # (nothing is counted)
    if other.terms and (other.number or one.number or len(one.terms) + len(other.terms) > 2):
        raise NoSum
    by = other.terms[0] if other.terms else Term((), other.number)
    terms = (replace(it, factors=it.factors + by.factors, times=it.times * by.times) for it in one.terms)
    return Sum(tuple(terms), one.number * other.number)


def read_factor(tokens: Tokens, lengths: Sequence[str]) -> Sum:
    if tokens.next.text == "(":
        whole, less = read_sides(tokens.inside(), lengths)
        found = whole if less == NO_SUM else None
    elif tokens.next.kind == "number":
        number = number_of(tokens.take().text)
        found = Sum((), number) if number >= 0 else None
    else:
        name = read_path(tokens)
        if not name or not (tokens.has("as", "usize") or name.endswith("()") or name in lengths):
            raise NoSum
        is_divided = tokens.has("/")
        by = number_of(tokens.take().text) if is_divided else 1
        found = Sum((Term((Factor(name, by),)),), 0) if by > is_divided else None
    if not found:
        raise NoSum
    return found


def side_text(side: Sum) -> str:
    """Returns a side of a difference as a message says it."""
    said = [it.text for it in side.terms]
    return " + ".join([*said, *([str(side.number)] if side.number or not said else [])])
