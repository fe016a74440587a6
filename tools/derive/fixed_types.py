"""Types of a fixed size."""

from dataclasses import dataclass
from typing import List, Tuple, Union


@dataclass(frozen=True)
class Plain:
    """A type of numbers: its name, its width in bytes, and whether it is unsigned, signed or a float."""

    text: str
    width: int
    kind: str


@dataclass(frozen=True)
class Array:
    element: "Fixed"
    length: int
    text: str


@dataclass(frozen=True)
class Record:
    """A struct of a fixed size: its name, and its fields."""

    text: str
    fields: "Tuple[Tuple[str, Fixed], ...]"
    is_tuple: bool


@dataclass(frozen=True)
class Pointer:
    """An offset, and the struct that names the value there."""

    text: str
    offset: Plain
    target: str


Fixed = Union[Plain, Array, Pointer, Record]

PLAIN = {
    **{f"u{8 * width}": Plain(f"u{8 * width}", width, "unsigned") for width in (1, 2, 4, 8, 16)},
    **{f"i{8 * width}": Plain(f"i{8 * width}", width, "signed") for width in (1, 2, 4, 8, 16)},
    **{f"f{8 * width}": Plain(f"f{8 * width}", width, "float") for width in (4, 8)},
}


def width_of(of: Fixed) -> int:
    """Returns how many bytes a value has."""
    if isinstance(of, Plain):
        return of.width
    if isinstance(of, Array):
        return of.length * width_of(of.element)
    if isinstance(of, Pointer):
        return of.offset.width
    return sum(width_of(it) for _, it in of.fields)


def is_exact_type(of: Fixed) -> bool:
    """Returns whether a value is written back as it was read: whether it has no float."""
    if isinstance(of, Plain):
        return of.kind != "float"
    if isinstance(of, Array):
        return is_exact_type(of.element)
    return isinstance(of, Pointer) or all(is_exact_type(it) for _, it in of.fields)


def is_counter(of: Fixed) -> bool:
    """Returns whether a number can count, or be a constant."""
    return isinstance(of, Plain) and of.kind == "unsigned" and of.width <= 8


def names_of(of: Fixed) -> List[str]:
    """Returns the struct of the crate that a type names, if it names one."""
    if isinstance(of, Array):
        return names_of(of.element)
    return [] if isinstance(of, Plain) else [of.target if isinstance(of, Pointer) else of.text]


def numbers_of(of: Fixed) -> List[Tuple[str, str]]:
    """Returns the numbers of a value that can count, by their paths from it, with their types."""
    if is_counter(of):
        return [("", of.text)]
    if isinstance(of, Pointer):
        return [(".offset", of.offset.text)]
    return [(f".{name}", it.text) for name, it in of.fields if is_counter(it)] if isinstance(of, Record) else []
