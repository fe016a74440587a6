"""Counts in descriptions of formats that are no sums: quotients, products and shifts."""

from dataclasses import dataclass, field
from typing import Callable, List, Tuple

from descriptions.counts import GREATEST, Known, Misfit, Sum, as_usize, bad


@dataclass
class Quotient(Sum):
    """A number that is divided by another, `by`, without a remainder."""

    terms: List[Tuple[str, int]]
    by: int = field(default=2, kw_only=True)

    @property
    def name(self) -> str:
        return self.terms[0][0]

    @property
    def is_less(self) -> bool:
        return True

    def text(self) -> str:
        return f"{as_usize(self.name)} / {self.by}"

    def of(self, known: Known) -> int:
        return known[self.name] // self.by

    def check(self, known: Known) -> None:
        if known[self.name] % self.by:
            raise bad(known[self.name], f"{self.name} is no multiple of {self.by}")

    def draw(self, known: Known) -> int:
        if known[self.name] % self.by:
            raise Misfit(self, self.of(known), known)
        return super().draw(known)

    def want(self, known: Known, wanted: int) -> None:
        if known[self.name] != wanted * self.by:
            raise Misfit(self, wanted, known)

    def named(self, name: str, wanted: int, known: Known) -> int:
        return wanted * self.by

    def said(self, number: Callable[[str], str]) -> str:
        return f"{number(self.name)} / {self.by}"


@dataclass
class Product(Sum):
    """Two numbers times each other. `is_wide` says that they may be too great."""

    is_wide: bool = field(default=False, kw_only=True)

    @property
    def is_less(self) -> bool:
        return self.is_wide

    def text(self) -> str:
        return " * ".join(as_usize(name) for name, _ in self.terms)

    def of(self, known: Known) -> int:
        (one, _), (other, _) = self.terms
        return min(known[one] * known[other], GREATEST)

    def check(self, known: Known) -> None:
        if self.of(known) == GREATEST:
            names = [name for name, _ in self.terms]
            raise bad(known[names[0]], f"{' * '.join(names)} is too great")

    def named(self, name: str, wanted: int, known: Known) -> int:
        by = next(known[it] for it, _ in self.terms if it != name)
        return wanted // by if by and wanted % by == 0 else -1

    def said(self, number: Callable[[str], str]) -> str:
        said = " * ".join(number(name) for name, _ in self.terms)
        return f"min ({said}) (2 ^ 64 - 1)" if self.is_wide else said


@dataclass
class Shifted(Sum):
    """A number that is shifted by another one, or by what that leaves of a division by `modulus`, and by `more`."""

    of_number: int = field(default=1, kw_only=True)
    modulus: int = field(default=0, kw_only=True)
    more: int = field(default=0, kw_only=True)

    @property
    def name(self) -> str:
        return self.terms[0][0]

    @property
    def is_less(self) -> bool:
        return not self.modulus

    def by(self, number: str) -> str:
        said = number + (f" % {self.modulus}" if self.modulus else "") + (f" + {self.more}" if self.more else "")
        return f"({said})" if " " in said else said

    def text(self) -> str:
        return f"{self.of_number} << {self.by(as_usize(self.name))}" if " " in self.by("it") else f"{self.of_number} << {as_usize(self.name)}"

    def of(self, known: Known) -> int:
        by = known[self.name]
        by = (by % self.modulus if self.modulus else by) + self.more
        return min(self.of_number << min(by, 64), GREATEST)

    def check(self, known: Known) -> None:
        if self.of(known) == GREATEST:
            raise bad(known[self.name], f"{self.of_number} << {self.by(self.name)} is too great")

    def named(self, name: str, wanted: int, known: Known) -> int:
        return -1

    def said(self, number: Callable[[str], str]) -> str:
        return f"min ({self.of_number} * 2 ^ {self.by(number(self.name))}) (2 ^ 64 - 1)"


@dataclass
class Rest(Sum):
    """What the fields before it leave of the bytes that a struct is given."""

    terms: List[Tuple[str, int]] = field(default_factory=list)

    @property
    def names(self) -> List[str]:
        return []

    def text(self) -> str:
        return "rest"

    def of(self, known: Known) -> int:
        return known["rest"]

    def draw(self, known: Known) -> int:
        if known["rest"] < 0:
            self.want(known, 0)
        return super().draw(known)

    def want(self, known: Known, wanted: int) -> None:
        if known["rest"] != wanted:
            raise Misfit(Sum([("given", 1)]), known["given"] + wanted - known["rest"], known)
