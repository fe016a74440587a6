"""Pointers in drawn structs: some numbers that no note names say where a value stands."""

import random
import re
from typing import Any, List, Optional, Tuple, Union

from descriptions.counts import Group, OwnError, Plain, Refused, Sum, lines_of
from descriptions.kinds import Kind, Leb, Number
from descriptions.lists import Listing
from descriptions.nested import Enum, Inner
from descriptions.structs import Field, Struct

Item = Union[Struct, Enum, Group, Listing, OwnError]
OFFSETS = ("u16", "u32", "u64")
# How many of these numbers are pointers, in a hundred.
SHARE = 50


class Pointer(Number):
    """An offset, and the list whose value stands there, or the struct of a fixed size."""

    def __init__(self, of: Plain, target: Union[Listing, Group]) -> None:
        name = target.name if isinstance(target, Listing) else target.type
        super().__init__(Group(f"Pointer<{of.type}, {name}>", ((".offset", of),)))
        self.target = target


    def found(self, source: bytes, offset: int, order: str) -> Optional[Tuple[Kind, Any]]:
        """Returns the kind and the value of what stands at an offset, or nothing where that is refused."""
        item = self.target.item if isinstance(self.target, Listing) else Number(self.target)
        try:
            if offset > len(source):
                raise Refused
            return item, item.take(source, offset, order, {})[0]
        except Refused:
            return None

    def lines_found(self) -> List[str]:
        """Returns the lines that add that value, `one`, to a digest."""
        return self.target.item_lines("one") if isinstance(self.target, Listing) else lines_of(self.target, "one")


def add_pointers(items: List[Item], rng: random.Random) -> bool:
    """Makes pointers of some numbers of the structs, and returns whether there are any."""
    structs = [it for it in items if isinstance(it, Struct)]
    notes = "\n".join(re.findall(r"(?m)^ *// #\[scroll.*", "\n".join(it.print() for it in items)))
    inner = {*re.findall(r"\.(\w+)", notes), *re.findall(r"last = (\w+)", notes)}
    fields = [field for it in structs for field in it.fields if can_point(it, field, inner) and rng.randrange(100) < SHARE]
    if not fields:
        return False
    values: List[Kind] = [Leb("Uleb"), *(Inner(it) for it in structs[:-1] if not it.is_given)]
    item = rng.choice(values)
    made = Listing(f"{structs[-1].name}Places", item, "bytes", Sum([]))
    made.error = f", {structs[-1].error.note}" if structs[-1].error and not isinstance(item, Inner) else ""
    groups = [it for it in items if isinstance(it, Group)]
    for it in fields:
        assert isinstance(it.kind, Number) and isinstance(it.kind.of, Plain)
        it.kind = Pointer(it.kind.of, rng.choice([made, *groups]))
    items.insert(0, made)
    return True


def can_point(struct: Struct, of: Field, inner: "set[str]") -> bool:
    """Returns whether a field is a number that nothing names."""
    kind = of.kind
    if not (isinstance(kind, Number) and isinstance(kind.of, Plain) and kind.of.type in OFFSETS):
        return False
    notes = re.findall(r"(?m)^ *// #\[scroll.*", struct.print())
    return not (kind.bits or kind.constant is not None or of.name in inner or any(re.search(rf"\b{of.name}\b", it) for it in notes))


def pointers_of(struct: Struct) -> List[Tuple[str, Pointer]]:
    """Returns the fields of a struct that are pointers."""
    return [(it.name, it.kind) for it in struct.fields if isinstance(it.kind, Pointer) and not it.condition]
