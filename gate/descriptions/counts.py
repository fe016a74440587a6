"""What is refused, counts, and types of a fixed size, in descriptions of formats."""

import itertools
import random
from dataclasses import dataclass, field
from typing import Any, Callable, Dict, List, NamedTuple, Tuple, Union

# The numbers that are known, by the names that notes have for them.
Known = Dict[str, int]
# A test of these.
Rule = Callable[[Known], None]
UNSIGNED = {f"u{8 * width}": width for width in (1, 2, 4, 8, 16)}
SIGNED = {f"i{8 * width}": width for width in (1, 2, 4, 8, 16)}
FLOATS = {"f32": 4, "f64": 8}
# (the number of three bytes stands for fields of bits alone)
WIDTHS = {**UNSIGNED, **SIGNED, **FLOATS, "u24": 3}
GREATEST = 2**64 - 1
MARK, KEPT, PART = (f"// #[derive({it})]\n" for it in ("Pread, Pwrite", "Pread, Pwrite, Kept", "Part"))
# A value that is drawn has at most so many bytes in a field.
MOST_BYTES = 400


class Refused(Exception):
    """A read or a write is refused; its text is what the error prints."""


class Misfit(Exception):
    """A sum isn't the wanted one, as the value that is drawn stands so far."""

    def __init__(self, sum_: "Sum", wanted: int, known: Known) -> None:
        super().__init__()
        self.sum, self.wanted, self.known = sum_, wanted, known

    def named(self, name: str) -> int:
        """Returns what a number would have to be, or -1."""
        return self.sum.named(name, self.wanted, self.known)


class Hopeless(Exception):
    """No value is drawn so."""


def too_big(size: int, left: int) -> Refused:
    return Refused(f"type is too big ({min(size, GREATEST)}) for {left}")


def bad(size: int, text: str) -> Refused:
    return Refused(f"bad input {text} ({size})")


def take_bytes(source: bytes, at: int, size: int) -> bytes:
    if size > len(source) - at:
        raise too_big(size, len(source) - at)
    return source[at : at + size]


def take_zeros(source: bytes, at: int, size: int) -> int:
    """Takes zeros, and returns the offset after them."""
    found = next((index for index, it in enumerate(take_bytes(source, at, size)) if it), None)
    if found is not None:
        raise bad(found, "padding is not zero")
    return at + size


def padding(size: int, multiple: int) -> int:
    return -size % multiple


@dataclass
class Sum:
    """A count: names, each times a number, and a number, without others. `own` is the error's variant for a count below zero."""

    terms: List[Tuple[str, int]]
    number: int = 0
    less: List[str] = field(default_factory=list)
    less_number: int = 0
    own: str = ""

    @property
    def names(self) -> List[str]:
        return [*(name for name, _ in self.terms), *self.less]

    @property
    def is_less(self) -> bool:
        return bool(self.less or self.less_number)

    def text(self) -> str:
        said = [as_usize(name) + (f" * {times}" if times > 1 else "") for name, times in self.terms]
        more = [str(self.number)] if self.number or not said else []
        less = [*map(as_usize, self.less), *([str(self.less_number)] if self.less_number else [])]
        return " - ".join([" + ".join([*said, *more]), *less])

    def whole(self, known: Known) -> int:
        return sum(known[name] * times for name, times in self.terms) + self.number

    def of(self, known: Known) -> int:
        return self.whole(known) - sum(known[it] for it in self.less) - self.less_number

    def check(self, known: Known) -> None:
        """Refuses a count below zero."""
        if self.of(known) >= 0:
            return
        if self.own:
            raise Refused(f"{self.own.partition('::')[2]} {known[self.terms[0][0]]}")
        whole = [name + (f" * {times}" if times > 1 else "") for name, times in self.terms]
        whole += [str(self.number)] if self.number else []
        less = [*self.less, *([str(self.less_number)] if self.less_number else [])]
        raise bad(self.whole(known), f"{' + '.join(whole)} is less than {' + '.join(less)}")

    def draw(self, known: Known) -> int:
        """Returns a count that a drawn value has."""
        found = self.of(known)
        if found < 0:
            raise Misfit(self, 0, known)
        if found > MOST_BYTES:
            raise Hopeless
        return found

    def want(self, known: Known, wanted: int) -> None:
        if self.of(known) != wanted:
            raise Misfit(self, wanted, known)

    def named(self, name: str, wanted: int, known: Known) -> int:
        """Returns what a number would have to be, or -1."""
        times = next((times for it, times in self.terms if it == name), 0)
        more = wanted - self.of(known)
        return known[name] + more // times if times and more % times == 0 else -1

    def said(self, number: Callable[[str], str]) -> str:
        """Returns it in the logic, by what is said of numbers."""
        terms = [f"{times} * {number(name)}" if times > 1 else number(name) for name, times in self.terms]
        whole = " + ".join([*terms, *([str(self.number)] if self.number or not terms else [])])
        less = " + ".join([*map(number, self.less), *([str(self.less_number)] if self.less_number else [])])
        return f"{bracket(whole)} - {bracket(less)}" if less else whole


def bracket(text: str) -> str:
    is_whole = text.startswith("(") and text.find(")") == len(text) - 1
    return f"({text})" if " " in text and not is_whole else text


def as_usize(name: str) -> str:
    return name if name.endswith("()") else f"{name} as usize"


@dataclass(frozen=True)
class Plain:
    """A type of numbers."""

    type: str

    @property
    def width(self) -> int:
        return WIDTHS[self.type]

    def draw(self, rng: random.Random) -> int:
        if self.type in FLOATS:
            low, high = rng.choices(range(256), k=self.width - 1), rng.choice([0, 0x3F, 0x40, 0xC1])
            return int.from_bytes([*low, high], "little")
        size = rng.choice([1, 3, 3, 6, 8 * self.width])
        least = -(1 << (8 * self.width - 1)) if self.type in SIGNED else 0
        if size == 1:
            return rng.choice([least, least + 256**self.width - 1])
        return rng.getrandbits(size) + least * (size > 6)

    def put(self, value: int, order: str) -> bytes:
        return value.to_bytes(self.width, order, signed=self.type in SIGNED)  # type: ignore[arg-type]

    def take(self, source: bytes, at: int, order: str) -> int:
        return int.from_bytes(source[at : at + self.width], order, signed=self.type in SIGNED)  # type: ignore[arg-type]

    def is_nan(self, value: int) -> bool:
        bits = {"f32": (0x7F800000, 0x7FFFFF), "f64": (0x7FF << 52, (1 << 52) - 1)}.get(self.type)
        return bool(bits and value & bits[0] == bits[0] and value & bits[1])

    def leaves(self, path: str) -> "List[Tuple[str, Plain]]":
        return [(path, self)]


@dataclass(frozen=True)
class Group:
    """An array, whose parts stand at `[0]` and on, or a struct of a fixed size, whose parts stand at `.r0` and on."""

    type: str
    parts: "Tuple[Tuple[str, Fixed], ...]"

    @property
    def is_struct(self) -> bool:
        return self.parts[0][0].startswith(".")

    @property
    def width(self) -> int:
        return sum(it.width for _, it in self.parts)

    def draw(self, rng: random.Random) -> List[Any]:
        return [it.draw(rng) for _, it in self.parts]

    def put(self, value: List[Any], order: str) -> bytes:
        return b"".join(it.put(one, order) for (_, it), one in zip(self.parts, value))

    def take(self, source: bytes, at: int, order: str) -> List[Any]:
        starts = itertools.accumulate((it.width for _, it in self.parts), initial=at)
        return [it.take(source, start, order) for (_, it), start in zip(self.parts, starts)]

    def is_nan(self, value: List[Any]) -> bool:
        return any(it.is_nan(one) for (_, it), one in zip(self.parts, value))

    def leaves(self, path: str) -> List[Tuple[str, Plain]]:
        return [leaf for where, it in self.parts for leaf in it.leaves(path + where)]

    def print(self) -> str:
        lines = "".join(f"    pub {where[1:]}: {it.type},\n" for where, it in self.parts)
        return f"{MARK}#[derive(Clone, Copy)]\npub struct {self.type} {{\n{lines}}}\n"


Fixed = Union[Plain, Group]


def array(of: Fixed, length: int) -> Group:
    return Group(f"[{of.type}; {length}]", tuple((f"[{at}]", of) for at in range(length)))


def is_count(of: Fixed) -> bool:
    """Returns whether notes can name a number."""
    return of.type in UNSIGNED and of.width <= 8


def lines_of(of: Fixed, path: str) -> List[str]:
    """Returns the lines that add the numbers at a path to a digest."""
    said = [f"{it.type}_to_bits_with_nan({where})" if it.type in FLOATS else where for where, it in of.leaves(path)]
    return [f"let made = mix(made, &{it}.to_le_bytes());" for it in said]


SMALL = "SmallError"


class OwnError(NamedTuple):
    """An error that holds the library's, and variants with the types of the numbers in them; or that of `scroll_formats`."""

    name: str
    variants: List[Tuple[str, str]]

    @property
    def is_small(self) -> bool:
        return self.name == SMALL

    @property
    def note(self) -> str:
        return f"error = {self.name}" + ("" if self.is_small else "::Refused")

    def print(self) -> str:
        lines = "".join(f"    {name}({kind}),\n" for name, kind in self.variants)
        gives = f"    ghost from_gives = {{ λ error e. e ≡ Refused error }};\n\n    fn from(error: Error) -> {self.name} {{\n"
        return f"""#[derive(Drop)]
pub enum {self.name} {{
    Refused(Error),
{lines}}}

impl From<Error> for {self.name} {{
{gives}        {self.name}::Refused(error)
    }}
}}
"""
