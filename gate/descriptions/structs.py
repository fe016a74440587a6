"""Fields and structs: how they are written, which bytes a value of them is, and values that are drawn."""

import random
from dataclasses import dataclass, field
from functools import cached_property
from typing import Any, Dict, List, Optional, Tuple

from descriptions.conditions import AnyCondition
from descriptions.counts import GREATEST, MARK, PART, UNSIGNED, Hopeless, Known, Misfit, OwnError, Plain, Refused, Rule, Sum, bad, padding, take_bytes
from descriptions.counts import take_zeros
from descriptions.kinds import Gap, Kind, Leb, Number, Numeral

# How often a number is changed so that a value agrees.
TRIES = 30
# How notes say a byte order.
ORDERS = {"little": "LE", "big": "BE"}


@dataclass
class Field:
    """A field: its kind, the length that it uses up, the multiple to which it is padded, when it is there, its byte order if it
    has one of its own, and a test of it and of earlier fields."""

    name: str
    kind: Kind
    within: Optional[Sum] = None
    padded: int = 0
    condition: Optional[AnyCondition] = None
    order: str = ""
    test: Optional[AnyCondition] = None
    # Whether it has what the fields before it leave.
    is_rest: bool = False
    # The error's variant where the test doesn't hold.
    test_own: str = ""

    @property
    def type(self) -> str:
        return f"Option<{self.kind.type}>" if self.condition else self.kind.type

    @property
    def is_plain(self) -> bool:
        return not (self.within or self.padded or self.condition or self.order or self.is_rest)

    @property
    def counts(self) -> List[Sum]:
        return [*self.kind.counts, *([self.within] if self.within else [])]

    def print(self) -> str:
        notes = [f"if = {self.condition.text()}"] if self.condition else []
        notes += [f"order = {ORDERS[self.order]}"] if self.order else []
        notes += [f"check = {self.test.text()}"] if self.test else []
        notes += [f"else = {self.test_own}"] if self.test_own else []
        notes += [f"within = {self.within.text()}"] if self.within and not self.is_rest else []
        notes += [*([f"padded = {self.padded}"] if self.padded else []), *self.kind.notes()]
        return (f"    // #[scroll({', '.join(notes)})]\n" if notes else "") + f"    pub {self.name}: {self.type},\n"

    def draw(self, rng: random.Random, order: str, known: Known) -> Any:
        if self.condition and not self.condition.holds(known):
            return None
        order = self.order or order
        value = self.kind.draw(rng, order, known)
        if self.within:
            self.within.want(known, len(self.kind.put(value, order)))
        return value

    def put(self, value: Any, order: str) -> bytes:
        made = self.kind.put(value, self.order or order) if value is not None else b""
        return made + bytes(padding(len(made), self.padded) if self.padded else 0)

    def take(self, source: bytes, at: int, order: str, known: Known) -> Tuple[Any, int]:
        if self.condition and not self.condition.holds(known):
            return None, at
        order = self.order or order
        if self.within:
            left = take_bytes(source, at, self.within.of(known))
            value, end = self.kind.take(left, 0, order, known)
            if end < len(left):
                raise bad(end, "fewer bytes than its part")
            end += at
        else:
            value, end = self.kind.take(source, at, order, known)
        return value, take_zeros(source, end, padding(end - at, self.padded)) if self.padded else end

    def check(self, value: Any, order: str, known: Known) -> None:
        if self.condition:
            if self.condition.holds(known) != (value is not None):
                raise bad(1, "an optional part is missing") if value is None else bad(0, "an optional part is too many")
            if value is None:
                return
        order = self.order or order
        self.kind.check(value, order, known)
        if self.within and len(self.kind.put(value, order)) != self.within.of(known):
            raise bad(self.within.of(known), "another length than its part")

    def numbers(self, value: Any) -> Known:
        return {} if self.condition else self.kind.numbers(self.name, value)

    def rules(self) -> List[Tuple[List[str], Rule]]:
        """Returns what is tested of numbers where the field is there, with the names of these."""
        within = [(self.within.names, self.within.check)] if self.within and self.within.is_less else []
        names = self.condition.names if self.condition else []
        there = [([*others, *names], self.where_there(rule)) for others, rule in [*self.kind.rules(self.name), *within]]
        return [*there, *([(self.test.names, self.check_test)] if self.test else [])]

    def check_test(self, known: Known) -> None:
        if self.test and not self.test.holds(known):
            if self.test_own:
                raise Refused(f"{self.test_own.partition('::')[2]} {known[self.test.names[0]]}")
            raise bad(known[self.test.names[0]], f"it is not so that {self.test.text()}")

    def want_test(self, known: Known) -> None:
        """Looks for a number that the test holds for."""
        if not self.test or self.test.holds(known):
            return
        first, others = self.test.names[0], [known[name] for name in self.test.names]
        found = [it for one in self.test.parts for it in (one.number, one.bit)] + others
        for it in (number + more for number in found for more in (0, 1, -1)):
            if it >= 0 and self.test.holds({**known, first: it}):
                raise Misfit(Sum([(first, 1)]), it, known)
        raise Hopeless

    def where_there(self, rule: Rule) -> Rule:
        return lambda known: rule(known) if not self.condition or self.condition.holds(known) else None

    def lines(self) -> List[str]:
        if not self.condition:
            return self.kind.lines(f"value.{self.name}")
        some = ["let made = mix(made, &[1]);", *self.kind.lines("it"), "made"]
        arms = ["    Some(it) => {", *(f"        {it}" for it in some), "    }", "    None => mix(made, &[0]),"]
        return [f"let made = match value.{self.name} {{", *arms, "};"]

    def mixed(self, value: Any, order: str) -> bytes:
        head = b"" if not self.condition else bytes([value is not None])
        return head + (self.kind.mixed(value, order) if value is not None else b"")


@dataclass
class Part:
    """Fields that stand in a source together or not at all, and the rules that are tested behind them, constants first."""

    fields: List[Field]
    constants: List[Rule] = field(default_factory=list)
    others: List[Rule] = field(default_factory=list)
    # Whether the first field of bits is the lowest.
    is_low: bool = False

    @property
    def rules(self) -> List[Rule]:
        return [*self.constants, *self.others]

    @property
    def kinds(self) -> List[Number]:
        return [it.kind for it in self.fields if isinstance(it.kind, Number) and it.is_plain]

    @property
    def is_rest(self) -> bool:
        return self.fields[0].is_rest

    @property
    def is_bits(self) -> bool:
        return any(it.bits for it in self.kinds)

    @property
    def word(self) -> Plain:
        """The number that holds fields of bits."""
        name = self.kinds[0].of.type
        return Plain("u24" if name == "u32" and sum(it.bits for it in self.kinds) == 24 else name)

    @property
    def ordered(self) -> List[Tuple[Field, Number]]:
        """The fields of bits, from the highest on."""
        return [*zip(self.fields, self.kinds)][:: -1 if self.is_low else 1]

    def is_open(self, of: Number) -> bool:
        """Returns whether a further number stands in this part."""
        if not self.is_bits or not of.bits:
            return not (self.is_bits or of.bits)
        bits, word = sum(it.bits for it in self.kinds), self.kinds[0].of
        is_done = bits == 24 and word.type == "u32" and (of.bits > 8 or of.of.width > 4)
        return bits < 8 * word.width and not is_done

    @property
    def width(self) -> int:
        return self.word.width if self.is_bits else sum(it.of.width for it in self.kinds)

    def put(self, value: Dict[str, Any], order: str) -> bytes:
        if not self.is_bits:
            return b"".join(it.put(value[it.name], order) for it in self.fields)
        number = 0
        for it, kind in self.ordered:
            number = number << kind.bits | value[it.name]
        return self.word.put(number, order)

    def take(self, source: bytes, at: int, order: str, known: Known) -> Tuple[Dict[str, Any], int]:
        take_bytes(source, at, self.width)
        value: Dict[str, Any] = {}
        left = 8 * self.width
        for it, kind in self.ordered if self.is_bits else []:
            left -= kind.bits
            value[it.name] = self.word.take(source, at, order) >> left & ((1 << kind.bits) - 1)
        for it in [] if self.is_bits else self.fields:
            value[it.name], at = it.take(source, at, order, known)
        return value, at + self.width * self.is_bits

    def check(self, value: Dict[str, Any], order: str, known: Known) -> None:
        if not self.is_bits:
            for it in self.fields:
                it.check(value[it.name], order, known)
            return
        for it, kind in [*self.ordered[1:], self.ordered[0]]:
            if value[it.name] >> kind.bits:
                raise bad(value[it.name], "a field has more bits")


@dataclass
class Struct:
    """A struct: its fields, the multiple to which it is padded, whether it is given a number, its error, and the line that asks
    for its implementations."""

    name: str
    fields: List[Field] = field(default_factory=list)
    multiple: int = 0
    is_given: bool = False
    error: Optional[OwnError] = None
    mark: str = MARK
    order: str = ""
    is_low: bool = False

    @property
    def type(self) -> str:
        return self.name + ("<'a>" if any("'a" in it.type for it in self.fields) else "")

    @property
    def is_exact(self) -> bool:
        return all(it.kind.is_exact for it in self.fields)

    @property
    def is_fixed(self) -> bool:
        has_notes = self.error or self.multiple or self.is_given or self.order or self.is_low
        return not has_notes and all(it.is_plain and isinstance(it.kind, Number) and not it.kind.own_notes for it in self.fields)

    @property
    def is_alone(self) -> bool:
        """Returns whether it can be read and written alone, and not so."""
        return not (self.is_fixed or self.is_given)

    @cached_property
    def parts(self) -> List[Part]:
        # (once the struct is drawn)
        parts: List[Part] = []
        gap = -1
        for it in self.fields:
            last = parts[-1] if parts else Part([])
            is_number = isinstance(it.kind, Number) and it.is_plain
            if is_number and last.kinds and isinstance(it.kind, Number) and last.is_open(it.kind):
                last.fields.append(it)
            else:
                parts.append(Part([it], is_low=self.is_low))
            for names, rule in it.rules():
                named = [name.split(".")[0] for name in names]
                found = [at for at, part in enumerate(parts) if any(one.name in named for one in part.fields)]
                is_constant = isinstance(it.kind, Number) and it.kind.constant is not None and names == [it.name]
                part = parts[max([gap, *found])]
                (part.constants if is_constant else part.others).append(rule)
            if isinstance(it.kind, Gap) and it.kind.multiple:
                gap = len(parts) - 1
        return parts

    def print(self) -> str:
        notes = [self.error.note] if self.error else []
        notes += ["given = given: usize"] if self.is_given else []
        notes += [f"padded = {self.multiple}"] if self.multiple else []
        notes += [f"order = {ORDERS[self.order]}"] if self.order else []
        notes += ["bits = low"] if self.is_low else []
        head = f"// #[scroll({', '.join(notes)})]\n" if notes else ""
        fields = "".join(it.print() for it in self.fields)
        mark = PART if self.is_given else self.mark
        return f"{mark}{head}#[derive(Clone, Copy)]\npub struct {self.type} {{\n{fields}}}\n"

    def put(self, value: Dict[str, Any], order: str) -> bytes:
        made = b"".join(it.put(value, self.order or order) for it in self.parts)
        return made + bytes(padding(len(made), self.multiple) if self.multiple else 0)

    def take(self, source: bytes, at: int, order: str, given: int = 0) -> Tuple[Dict[str, Any], int]:
        start, known, value, order = at, {"given": given}, {}, self.order or order
        for part in self.parts:
            known["offset"] = at - start
            if part.is_rest:
                if at - start > given:
                    raise bad(at - start, "more bytes than its part")
                known["rest"] = given - (at - start)
            found, at = part.take(source, at, order, known)
            value.update(found)
            known.update(self.numbers(part, found))
            for rule in part.rules:
                rule(known)
        return value, take_zeros(source, at, padding(at - start, self.multiple)) if self.multiple else at

    def check(self, value: Dict[str, Any], order: str, given: int = 0) -> None:
        known, order = {"given": given}, self.order or order
        size = 0
        for part in self.parts:
            known["offset"] = size
            if part.is_rest:
                if given == GREATEST or size > given:
                    raise bad(given, "more bytes than its part")
                known["rest"] = given - size
            part.check(value, order, known)
            size += len(part.put(value, order))
            known.update(self.numbers(part, value))
            for rule in part.rules:
                rule(known)

    @staticmethod
    def numbers(part: Part, value: Dict[str, Any]) -> Known:
        return {name: number for it in part.fields for name, number in it.numbers(value[it.name]).items()}

    def mixed(self, value: Dict[str, Any], order: str) -> bytes:
        return b"".join(it.mixed(value[it.name], order) for it in self.fields)

    def is_nan(self, value: Dict[str, Any]) -> bool:
        return any(value[it.name] is not None and it.kind.is_nan(value[it.name]) for it in self.fields)

    # A value that is drawn

    def draw(self, seed: str, order: str, given: int = 0) -> Dict[str, Any]:
        """Draws a value that agrees. A number that doesn't fit what it counts is changed, and the rest drawn again."""
        pins: Known = {}
        for at in range(TRIES):
            if at % 10 == 0:
                seed, pins = f"{seed} {at}", {}
            try:
                return self.draw_once(seed, order, given, pins)
            except Misfit as misfit:
                self.pin(misfit, pins, random.Random(f"{seed} {len(pins)}"))
        raise Hopeless

    def draw_once(self, seed: str, order: str, given: int, pins: Known) -> Dict[str, Any]:
        known, value, order = {"given": given}, {}, self.order or order
        at = 0
        for part in self.parts:
            known["offset"], known["rest"] = at, given - at
            if part.is_rest and at > given:
                raise Misfit(Sum([("given", 1)]), at, known)
            for it in part.fields:
                rng = random.Random(f"{seed} {it.name}")
                value[it.name] = it.draw(rng, order, known)
                if it.name in self.free() and (it.name in pins or self.hints(it.name)):
                    number = pins.get(it.name, rng.choice(self.hints(it.name) or [0]))
                    value[it.name] = it.kind.made(number) if isinstance(it.kind, (Leb, Numeral)) else number
                known.update(it.numbers(value[it.name]))
                it.want_test(known)
            at += len(part.put(value, order))
        return value

    def free(self) -> Known:
        """Returns the numbers that can be drawn, and how great they can be."""
        found = {it.name: 1 << 63 for it in self.fields if isinstance(it.kind, Leb) and not it.kind.is_signed and it.is_plain}
        for it in self.fields:
            if isinstance(it.kind, Numeral) and it.is_plain:
                found[it.name] = min(it.kind.base**it.kind.width, 1 << 63)
            if isinstance(it.kind, Number) and it.is_plain and it.kind.constant is None and it.kind.of.type in UNSIGNED:
                found[it.name] = 1 << (it.kind.bits or 8 * it.kind.of.width)
        return found

    def hints(self, name: str) -> List[int]:
        """Returns numbers that suit what a number says, or none if it says nothing."""
        every = [one for it in self.fields if it.condition for one in it.condition.parts]
        conditions = [it for it in every if it.name == name and not it.other]
        named = [it for it in self.fields for count in it.counts if name in count.names]
        found = [number for it in conditions for number in (it.number, it.number + 1, it.bit, it.bit + 1, 0)]
        greatest = self.free()[name]
        has_bits = any(it.name == name and isinstance(it.kind, Number) and it.kind.bits for it in self.fields)
        found += [0, 1, 2, 3, 5, 9] if named or has_bits else []
        return [it for it in found if it < greatest]

    def pin(self, misfit: Misfit, pins: Known, rng: random.Random) -> None:
        """Sets a number of a sum so that this is the wanted one."""
        names = [name for name, _ in misfit.sum.terms]
        greatest = self.free()
        for name in rng.sample(names, len(names)):
            number = misfit.named(name)
            if name == "given":
                raise misfit
            if name in greatest and 0 <= number < greatest[name]:
                pins[name] = number
                return
        raise Hopeless
