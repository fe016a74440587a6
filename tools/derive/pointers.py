"""Fields that are offsets, with what stands there."""

import re
from typing import TYPE_CHECKING

from fixed_types import PLAIN, Pointer
from items import Item, RawField, Type
from tokens import OWN

if TYPE_CHECKING:
    from crates import Crate

# The numbers that may say an offset.
OFFSETS = ("u16", "u32", "u64")


def read_pointer(crate: "Crate", item: Item, at: RawField, of: Type) -> Pointer:
    """Returns a pointer to a struct of a fixed size, or to a value of a list."""
    number, target = [it.name for it in of.arguments] if len(of.arguments) == 2 else ("", "")
    if number not in OFFSETS:
        said = f"write its number, {', '.join(OFFSETS)}, and what stands there, as `Pointer<u32, Section>`"
        at.refuse(f"is of {of.text}: {said}")
    if target in PLAIN or not re.fullmatch(rf"{OWN}?[A-Za-z_]\w*", target):
        pointed = of.arguments[1].text
        at.refuse(f"points to {pointed}, which is no struct: put what stands there into one, and point to that, `Pointer<{number}, Section>`")
    found = crate.find(target, item)
    is_fixed = found and found.is_marked and crate.is_fixed(found) and not leads_to(crate, found, item.name)
    if not found or not (is_fixed or "items" in found.notes):
        said = f"name it, `// #[scroll(items = {target})] struct {target}s;`, and take `Pointer<{number}, {target}s>`"
        at.refuse(f"points to {target}: {said}")
    return Pointer(of.text, PLAIN[number], target)


def leads_to(crate: "Crate", item: Item, name: str) -> bool:
    """Returns whether a struct, or one that its fields name, has a name. (The prover doesn't cover such types in a cycle.)"""
    names, left = {item.name}, [item]
    while left:
        words = {it for field in left.pop().fields for it in re.findall(rf"{OWN}?\w+", field.type.text)}
        left += [found for found in (crate.find(it, item) for it in words - names) if found]
        names |= words
    return name in names
