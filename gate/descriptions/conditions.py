"""Conditions in notes: how they are written, and whether they hold."""

from typing import List, NamedTuple, Sequence, Union

from descriptions.counts import Known


class Condition(NamedTuple):
    """When a field is there: a number compared with a literal one or with another field, or a bit of it."""

    name: str
    sign: str
    number: int
    bit: int = 0
    other: str = ""
    is_letter: bool = False

    @property
    def names(self) -> List[str]:
        return [self.name, *([self.other] if self.other else [])]

    @property
    def parts(self) -> "List[Condition]":
        return [self]

    def text(self) -> str:
        number = f"b'{chr(self.number)}'" if self.is_letter else str(self.number)
        return f"{self.name}{f' & {self.bit}' if self.bit else ''} {self.sign} {self.other or number}"

    def holds(self, known: Known) -> bool:
        found, other = known[self.name], known[self.other] if self.other else self.number
        found = found & self.bit if self.bit else found
        of = {"==": found == other, "!=": found != other, "<": found < other, "<=": found <= other}
        return {**of, ">": found > other, ">=": found >= other}[self.sign]


class Joined(NamedTuple):
    """Conditions that hold together, or of which one holds. Where one of several holds, some may be such as hold together."""

    inside: "Sequence[Union[Condition, Joined]]"
    is_any: bool

    @property
    def names(self) -> List[str]:
        return [name for it in self.parts for name in it.names]

    @property
    def parts(self) -> List[Condition]:
        return [one for it in self.inside for one in it.parts]

    def text(self) -> str:
        return (" || " if self.is_any else " && ").join(it.text() for it in self.inside)

    def holds(self, known: Known) -> bool:
        return (any if self.is_any else all)(it.holds(known) for it in self.inside)


class IsLeft:
    """Whether the fields before leave any bytes."""

    names: List[str] = []
    parts: List[Condition] = []

    def text(self) -> str:
        return "rest"

    def holds(self, known: Known) -> bool:
        return known["rest"] > 0


AnyCondition = Union[Condition, Joined, IsLeft]
