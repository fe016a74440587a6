"""What structs and enums are by their notes."""

from dataclasses import dataclass
from functools import partial
from typing import Any, Callable, Dict, List, NamedTuple, Optional, Tuple

from conditions import Both, Comparison, Condition
from forms import Part
from inverses import Inverse, variant_again
from items import Item
from scopes import Target
from sums import Value, bracketed
from text import alias_of, call


@dataclass(frozen=True)
class OwnError:
    """An error type that isn't the library's: its name, the variant that holds an error of the library (none of `SmallError`),
    where its variants are in the logic, and these."""

    name: str
    variant: str
    module: str
    variants: Tuple[str, ...]

    @property
    def gives(self) -> str:
        """Which of its errors one of the library's becomes."""
        if not self.variant:
            return "⟦<SmallError as From<Error>>⟧.from_gives"
        return f"(λ error e. e ≡ {self.said(self.variant)} error)"

    def said(self, variant: str) -> str:
        """Returns a variant in the logic."""
        return f"{alias_of(self.name)}.{variant}"


class Known(NamedTuple):
    """A number or bytes that a note says by a literal, or by the name of a constant: the value, how it is written in code and in the
    logic, and the constant's type, or nothing."""

    value: Any
    said: Value
    type: str = ""

    @property
    def named(self) -> Optional[Value]:
        """How it is written where it is a constant."""
        return self.said if self.type else None


@dataclass
class Form:
    """What a struct of any size, an enum or a list is: its error, and the types of the crate that it names."""

    item: Item
    error: Optional[OwnError]
    used: List[str]
    constants: List[Target]

    @property
    def type(self) -> str:
        return self.item.name + ("<'a>" if self.item.lifetime else "")


class Tags(NamedTuple):
    """The tags of a variant, from the least to the greatest."""

    low: Known
    high: Known


@dataclass
class Struct(Form):
    """A struct of any size: its parts, the size up to a multiple of which it is padded, the number that it is given, and the
    fields that are zeros up to a multiple."""

    parts: List[Part]
    multiple: Optional[Value]
    given: str
    gaps: Tuple[str, ...]
    # Its byte order, in the logic and in code, if it has one of its own.
    order: Tuple[str, ...]
    # The bytes of each number that fields of bits fill, by the last of these.
    words: Dict[str, int]

    @property
    def is_exact(self) -> bool:
        return all(it.is_exact for it in self.parts)

    @property
    def has_enum(self) -> bool:
        return any(it.has_enum for it in self.parts)


@dataclass
class Variant:
    """A variant of an enum, and which tags say it: one number, those from a number to another, or any other one."""

    name: str
    tags: Optional[Tags]
    fields: List[str]
    part: Part

    def is_said(self, tag: str) -> Condition:
        """Returns that a tag says it."""
        assert self.tags
        low, high = self.tags
        if low.value == high.value:
            return Comparison(tag, "==", low.value, constant=low.named)
        least = [Comparison(tag, ">=", low.value, constant=low.named)] if low.value else []
        return Both((*least, Comparison(tag, "<=", high.value, constant=high.named)), False)

    @property
    def own_tag(self) -> Value:
        """The tag where it is one number."""
        assert self.tags
        return self.tags.low.said

    @property
    def code(self) -> str:
        """The part in code, of the values that are borrowed."""
        return self.part.split.replace("self.v", "*v")

    def arm(self, ways: Callable[[str], str], made: str, is_apart: bool) -> str:
        """Returns the arm of a match that takes the part apart, perhaps by a line of its own."""
        if not is_apart:
            return f"\n            {ways(self.part.join)} => {made},"
        return f"""
            {ways("it")} => {{
                let {self.part.join} = it;
                {made}
            }}"""


def spaced(way: str, said: str) -> str:
    return f"{way} {bracketed(said)}"


def inner_match(pattern: str, arms: str) -> str:
    """Returns the arm of a match whose pattern has a rest that is matched too."""
    inside = arms.replace("\n", "\n    ")
    return f"\n            {pattern} => match rest {{{inside}\n            }},"


@dataclass
class Enum(Form):
    """An enum by a tag of this type, which it is given, perhaps with a number, or which is its own `head`; and the variant of
    its error for an unknown tag."""

    tag: str
    given: str
    variants: List[Variant]
    other: str
    head: Optional[Part] = None

    def check_alone(self) -> None:
        """Refuses to be read alone where a tag may be none of a variant's, which what it stands in tests."""
        if not self.item.is_part and not self.is_own and not self.takes_any:
            self.item.refuse("is given its tag, which only what it stands in tests: write `// #[derive(Part)]`, or a last variant `is = _`")

    @property
    def takes_any(self) -> bool:
        """Whether the last variant is said by any other tag."""
        return self.variants[-1].tags is None

    @property
    def is_own(self) -> bool:
        return self.head is not None

    @property
    def context_type(self) -> str:
        return f"({self.tag}, usize)" if self.given else self.tag

    def chosen(self, at: int, said: str, made: Callable[[str, str], str] = call) -> str:
        """Returns which of two choices what is said of a variant is, one in another."""
        for way in ["First"] * (at + 1 < len(self.variants)) + ["Second"] * at:
            said = made(way, said)
        return said

    @property
    def is_flat(self) -> bool:
        """Whether a pattern may reach into a choice's second value. (Where a variant has an enum, the borrow checker's part of a
        proof doesn't cover that.)"""
        return len(self.variants) == 2 or not any(it.part.has_enum for it in self.variants)

    def arms(self, at: int = 0) -> str:
        """Returns the arms of a match that makes the enum of a choice between the variants from one on."""
        if self.is_flat:
            return "".join(self.arm(it, partial(self.chosen, at)) for at, it in enumerate(self.variants))
        it, *others = self.variants[at:]
        first = self.arm(it, partial(call, "First"))
        if len(others) == 1:
            return first + self.arm(others[0], partial(call, "Second"))
        return f"{first}{inner_match('Second(rest)', self.arms(at + 1))}"

    def arm(self, of: Variant, ways: Callable[[str], str]) -> str:
        """Returns the arm of a variant. (In a pattern the borrow checker's part of a proof doesn't cover an array, and of an enum
        with its own tag a list isn't found to be read.)"""
        return of.arm(ways, self.pattern(of), of.part.has_array or (self.is_own and bool(of.part.listed)))

    def ghost(self, at: int) -> str:
        """Returns a variant's choice in the logic."""
        return self.chosen(at, self.variants[at].part.ghost.replace("x.v", "v"), spaced)

    def cases(self, values: List[str], indent: int) -> str:
        """Returns the lines of what is said of each variant in the logic."""
        heads = [" ".join([f"{alias_of(self.item.name)}.{it.name}", *it.fields]) for it in self.variants]
        return "".join(f"\n{' ' * indent}| {head} ↦ {value}" for head, value in zip(heads, values))

    def again(self) -> Inverse:
        """Returns in the logic what makes the enum of a choice, and the proofs."""
        alias, path = alias_of(self.item.name), "p.1" if self.is_own else "p"
        one = len(self.variants) == 1
        said = [it.part.ghost.replace("x.v", "v") for it in self.variants]
        made = [variant_again(text, f"{alias}.{it.name}", it.fields, path if one else "p") for text, it in zip(said, self.variants)]
        proofs = f"elim [{self.cases([it.again for it in made], 6)}\n    ]"
        if one:
            return Inverse(f"λ p. {made[0].made}", proofs, f"λ p i. {made[0].there}" if made[0].there else "λ p. refl")

        def of_parts(values: List[str]) -> str:
            cases = "".join(f"\n      | {self.chosen(at, 'p', spaced)} ↦ {value}" for at, value in enumerate(values))
            return f"{'λ p. elim p.1' if self.is_own else 'elim'} [{cases}\n    ]"

        there = [f"λ i. {self.chosen(at, it.there, spaced)}" if it.there else "refl" for at, it in enumerate(made)]
        return Inverse(of_parts([it.made for it in made]), proofs, of_parts(there))

    def pattern(self, variant: Variant) -> str:
        return f"{self.item.name}::{variant.name}" + (call("", *variant.fields) if variant.fields else "")

    @property
    def is_exact(self) -> bool:
        return all(it.part.is_exact for it in self.variants)

    @property
    def has_enum(self) -> bool:
        return True


@dataclass
class ListType(Form):
    """A struct without fields that names the values of a list: their type, and what ends a list of them: a mark; or which of
    them says that it is the last, of a value `x`."""

    of: str
    ends: str
    last: Optional[Value]

    @property
    def context(self) -> str:
        """The context of a list, which alone says where it ends; or nothing."""
        return "ToMark" if self.ends else "ToLast" if self.last else ""
