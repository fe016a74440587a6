"""Conditions in notes, and how they are said in the logic and in code, with `@name@` for a number as in `sums`."""

from dataclasses import dataclass
from typing import Callable, List, NamedTuple, Optional, Sequence, Tuple, Union

from items import Note
from literals import number_of
from sums import Value, bracketed, read_path
from tokens import Tokens

# What holds where a comparison doesn't.
OTHER = {"==": "!=", "!=": "==", "<": ">=", "<=": ">", ">": "<=", ">=": "<"}
# The greatest numbers of the types.
GREATEST = tuple(256**width - 1 for width in (1, 2, 4, 8))
# How a comparison is said in the logic, and whether its sides are exchanged.
SAID = {"==": ("≡", 1), "!=": ("≢", 1), "<": ("<", 1), "<=": ("≤", 1), ">": ("<", -1), ">=": ("≤", -1)}


class Comparison(NamedTuple):
    """A number is compared with a literal one, perhaps a `constant`, or with another number; or a bit of it is there or not, where
    `bit` isn't 0."""

    name: str
    sign: str
    other: Union[int, str]
    bit: int = 0
    constant: Optional[Value] = None

    @property
    def names(self) -> List[str]:
        return [self.name, *([self.other] if isinstance(self.other, str) else [])]

    def sides(self) -> Tuple[str, str]:
        """What is compared, in the logic."""
        left = f"@{self.name}@{f' / {self.bit}' * (self.bit > 1)}{' % 2' * (self.bit > 0)}"
        if isinstance(self.other, str):
            return left, f"@{self.other}@"
        return left, self.constant.ghost if self.constant else str(self.other)

    def said(self) -> Value:
        """It as a value of `bool`. (`nat_eq` and `nat_lt` are what the prover computes with.)"""
        left, right = sides = self.sides()
        codes = [f"{it} as u64" for it in sides] if isinstance(self.other, str) else [*sides]
        if self.constant:
            codes[1] = self.constant.code
        if self.sign == "<" and isinstance(self.other, str):
            # (behind a type `<` would begin its arguments)
            codes[0] = f"({codes[0]})"
        left, right = bracketed(left), bracketed(right)
        if self.sign in ("==", "!="):
            said = Value(f"(nat_eq {left} {right})", " == ".join(codes))
            return said if self.sign == "==" else self.negation(said, codes)
        if self.sign in ("<", ">"):
            return Value(f"(nat_lt {' '.join((left, right)[::SAID[self.sign][1]])})", f" {self.sign} ".join(codes))
        if isinstance(self.other, int) and not self.constant and not (self.sign == "<=" and self.other in GREATEST):
            return self._replace(sign=self.sign[0], other=self.other + SAID[self.sign][1], bit=0).said()
        return self.negation(self._replace(sign=OTHER[self.sign]).said(), codes)

    def negation(self, other: Value, codes: Sequence[str]) -> Value:
        """It as a value where `other` is what holds where it doesn't."""
        return Value(f"(not {other.ghost})", f" {self.sign} ".join(codes))

    def holds(self) -> str:
        """It as a proposition."""
        sign, order = SAID[self.sign]
        return f"({f' {sign} '.join(self.sides()[::order])})"

    def negated(self) -> "Condition":
        return self._replace(sign=OTHER[self.sign])


@dataclass(frozen=True)
class Both:
    """Conditions of which each holds, or where `is_any` one."""

    parts: "Tuple[Condition, ...]"
    is_any: bool

    @property
    def names(self) -> List[str]:
        return [name for it in self.parts for name in it.names]

    def said(self) -> Value:
        sign = " || " if self.is_any else " && "
        said = [it.said() for it in self.parts]
        codes = [f"({it.code})" if isinstance(part, Both) else it.code for it, part in zip(said, self.parts)]
        return Value(f"({sign.join(it.ghost for it in said)})", sign.join(codes))

    def holds(self) -> str:
        return f"({(' ⊎ ' if self.is_any else ' × ').join(it.holds() for it in self.parts)})"

    def negated(self) -> "Condition":
        return Both(tuple(it.negated() for it in self.parts), not self.is_any)


Condition = Union[Comparison, Both]


def read_condition(note: Note) -> Optional[Condition]:
    """Returns a condition, or nothing where a note has none that is supported."""
    tokens = note.tokens
    found = read_joined(tokens, "||", lambda: read_joined(tokens, "&&", lambda: read_comparison(tokens)))
    return found if tokens.is_done else None


def read_joined(tokens: Tokens, sign: str, read: Callable[[], Optional[Condition]]) -> Optional[Condition]:
    parts = [read()]
    while tokens.has(sign):
        parts.append(read())
    found = [it for it in parts if it]
    if len(found) < len(parts):
        return None
    return found[0] if len(found) == 1 else Both(tuple(found), sign == "||")


def read_comparison(tokens: Tokens) -> Optional[Condition]:
    name, bit = read_path(tokens), 0
    if tokens.has("&"):
        bit = number_of(tokens.take().text)
        if bit <= 0 or bit & (bit - 1):
            return None
    sign = tokens.take().text
    other: Union[int, str] = read_path(tokens) if tokens.next.kind == "name" else number_of(tokens.take().text)
    if not name or sign not in OTHER or other == -1 or (bit and (sign not in ("==", "!=") or other not in (0, bit))):
        return None
    if bit:
        return Comparison(name, "==", int((sign == "==") == (other == bit)), bit)
    # (what always or never holds is no condition)
    return None if sign in (">=", "<") and other == 0 else Comparison(name, sign, other)
