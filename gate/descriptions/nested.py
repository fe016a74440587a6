"""Structs and enums as fields of others: how they are written, and which bytes a value of them is."""

import random
from dataclasses import dataclass
from typing import Any, List, NamedTuple, Optional, Tuple

from descriptions.counts import MARK, PART, Known, Misfit, OwnError, Plain, Refused, Rule, Sum, bad, take_bytes
from descriptions.kinds import Kind, Leb, Number, Numeral
from descriptions.structs import Struct


class Variant(NamedTuple):
    """A variant: its tag, the greatest one if it has several, or -1 if it has all others; and its values."""

    name: str
    tag: int
    kinds: List[Kind]
    last: Optional[int] = None

    @property
    def note(self) -> str:
        return "_" if self.tag < 0 else str(self.tag) if self.last is None else f"{self.tag}..={self.last}"

    def has(self, tag: int) -> bool:
        return self.tag < 0 or self.tag <= tag <= (self.tag if self.last is None else self.last)


@dataclass
class Enum:
    """An enum by a tag of its own, or by one that it is given, perhaps with a length; `own` is the variant for an unknown tag."""

    name: str
    tag: Plain
    is_own: bool
    variants: List[Variant]
    error: Optional[OwnError] = None
    own: str = ""
    mark: str = MARK

    @property
    def type(self) -> str:
        return self.name + ("<'a>" if any("'a" in kind.type for it in self.variants for kind in it.kinds) else "")

    @property
    def is_alone(self) -> bool:
        """Returns whether it can be read and written alone, and not so."""
        return self.is_own

    @property
    def has_length(self) -> bool:
        return any("given" in count.names for it in self.variants for kind in it.kinds for count in kind.counts)

    def print(self) -> str:
        notes = [f"given = (kind: {self.tag.type}, given: usize)" if self.has_length else f"given = kind: {self.tag.type}"]
        notes = [f"tag = {self.tag.type}"] if self.is_own else notes
        notes += [self.error.note] if self.error else []
        notes += [f"else = {self.error.name}::{self.own}"] if self.error and self.own else []
        lines = []
        for it in self.variants:
            said = ", ".join([f"is = {it.note}", *(note for kind in it.kinds for note in kind.notes())])
            lines.append(f"    // #[scroll({said})]\n    {it.name}{f'({self.types(it)})' if it.kinds else ''},\n")
        head = f"{self.mark if self.is_own else PART}// #[scroll({', '.join(notes)})]\n#[derive(Clone, Copy)]\n"
        return f"{head}pub enum {self.type} {{\n{''.join(lines)}}}\n"

    @staticmethod
    def types(variant: Variant) -> str:
        return ", ".join(it.type for it in variant.kinds)


class Inner(Kind):
    """A struct, which may be given a number."""

    def __init__(self, struct: Struct, count: Optional[Sum] = None) -> None:
        super().__init__(struct.type, [f"ctx = {count.text()}"] if count else [], *([count] if count else []))
        self.struct, self.count, self.is_exact = struct, count, struct.is_exact

    def given(self, known: Known) -> int:
        return self.count.of(known) if self.count else 0

    def draw(self, rng: random.Random, order: str, known: Known) -> Any:
        given = self.count.draw(known) if self.count else 0
        try:
            return self.struct.draw(str(rng.random()), order, given)
        except Misfit as misfit:
            assert self.count
            raise Misfit(self.count, misfit.named("given"), known) from None

    def put(self, value: Any, order: str) -> bytes:
        return self.struct.put(value, order)

    def take(self, source: bytes, at: int, order: str, known: Known) -> Tuple[Any, int]:
        return self.struct.take(source, at, order, self.given(known))

    def check(self, value: Any, order: str, known: Known) -> None:
        self.struct.check(value, order, self.given(known))

    def numbers(self, name: str, value: Any) -> Known:
        plain = [it for it in self.struct.fields if it.is_plain and isinstance(it.kind, (Number, Leb, Numeral))]
        found = {it.name: it.kind.numbers(it.name, value[it.name]).get(it.name) for it in plain}
        return {f"{name}.{inner}": it for inner, it in found.items() if it is not None}

    def lines(self, path: str) -> List[str]:
        return [f"let made = digest_{self.struct.name.lower()}(&{path}, made);"]

    def mixed(self, value: Any, order: str) -> bytes:
        return self.struct.mixed(value, order)

    def is_nan(self, value: Any) -> bool:
        return self.struct.is_nan(value)


class Tagged(Kind):
    """An enum by its own tag, or by that of an earlier field, where it may be given a length."""

    def __init__(self, enum: Enum, tag: str, count: Optional[Sum] = None) -> None:
        notes = [] if enum.is_own else [f"ctx = ({tag}, {count.text()})" if count else f"ctx = {tag}"]
        super().__init__(enum.type, notes, *([count] if count else []))
        self.enum, self.tag, self.count = enum, tag, count
        self.is_exact = all(kind.is_exact for it in enum.variants for kind in it.kinds)

    def rules(self, name: str) -> List[Tuple[List[str], Rule]]:
        return [*super().rules(name), *([] if self.enum.is_own else [([self.tag], self.check_tag)])]

    def inside(self, known: Known) -> Known:
        return {"given": self.count.of(known)} if self.count else {}

    def index(self, tag: int) -> int:
        return [it.has(tag) for it in self.enum.variants].index(True)

    def check_tag(self, known: Known) -> None:
        tag = known[self.tag]
        if not any(it.has(tag) for it in self.enum.variants):
            raise Refused(f"{self.enum.own} {tag}") if self.enum.own else bad(tag, f"{self.enum.name} has no such tag")

    def draw(self, rng: random.Random, order: str, known: Known) -> Any:
        known_ones = [it for it in self.enum.variants if it.tag >= 0]
        tags = [number for it in known_ones for number in {it.tag, it.tag if it.last is None else it.last}]
        tag = rng.choice(tags) if self.enum.is_own else known[self.tag]
        if not any(it.has(tag) for it in known_ones) and (len(known_ones) == len(self.enum.variants) or rng.random() < 0.7):
            raise Misfit(Sum([(self.tag, 1)]), rng.choice(tags), known)
        if self.count:
            self.count.draw(known)
        try:
            return self.index(tag), [it.draw(rng, order, self.inside(known)) for it in self.enum.variants[self.index(tag)].kinds]
        except Misfit as misfit:
            assert self.count
            raise Misfit(self.count, misfit.named("given"), known) from None

    def put(self, value: Any, order: str) -> bytes:
        of = self.enum.variants[value[0]]
        tag = self.enum.tag.put(of.tag, order) if self.enum.is_own else b""
        return tag + b"".join(kind.put(it, order) for kind, it in zip(of.kinds, value[1]))

    def take(self, source: bytes, at: int, order: str, known: Known) -> Tuple[Any, int]:
        if self.enum.is_own:
            take_bytes(source, at, self.enum.tag.width)
            known = {**known, self.tag: self.enum.tag.take(source, at, order)}
            self.check_tag(known)
            at += self.enum.tag.width
        made, index = [], self.index(known[self.tag])
        kinds = self.enum.variants[index].kinds
        if len(kinds) > 1:
            take_bytes(source, at, sum(it.of.width for it in kinds if isinstance(it, Number)))
        for it in kinds:
            value, at = it.take(source, at, order, self.inside(known))
            made.append(value)
        return (index, made), at

    def check(self, value: Any, order: str, known: Known) -> None:
        index = value[0]
        wanted = index if self.enum.is_own else self.index(known[self.tag])
        if index != wanted:
            raise bad(int(wanted < index), "another variant than its tag")
        for kind, it in zip(self.enum.variants[index].kinds, value[1]):
            kind.check(it, order, self.inside(known))

    def lines(self, path: str) -> List[str]:
        return [f"let made = digest_{self.enum.name.lower()}(&{path}, made);"]

    def mixed(self, value: Any, order: str) -> bytes:
        kinds = self.enum.variants[value[0]].kinds
        return bytes([value[0]]) + b"".join(kind.mixed(it, order) for kind, it in zip(kinds, value[1]))

    def is_nan(self, value: Any) -> bool:
        return any(kind.is_nan(it) for kind, it in zip(self.enum.variants[value[0]].kinds, value[1]))
