"""Draws descriptions of structs for gate/descriptions/random_descriptions.py, of all kinds of fields that tools/derive takes."""

import random
from collections import Counter
from typing import Callable, Dict, List, NamedTuple, Optional, Sequence, Union

from descriptions.conditions import Condition, IsLeft
from descriptions.counts import FLOATS, KEPT, PART, SIGNED, SMALL, UNSIGNED, Group, Plain, Sum, array, is_count
from descriptions.draw_numbers import ALL, ANY_TAG, DEEPEST, DEPTH, ENDED, FIELDS, FIELDS_WITHIN, FIELD_ORDER, FIXED, FRESH
from descriptions.draw_numbers import IS_KEPT, IS_LEFT, LEAVES, LISTS, LOW, NESTED, ORDERED, OWN_TAG, OWN_TEST, PADDED, POINTER, RANGE
from descriptions.draw_numbers import REST, SHORT, TEST, TOP_ENUM, WRAPPED, ZERO_MARK, Item, Known, Numbers
from descriptions.expressions import Rest
from descriptions.kinds import Ended, Filled, Gap, Kind, Leb, Number, Numeral, Slice
from descriptions.lists import Listing, Table
from descriptions.nested import Enum, Inner, Tagged, Variant
from descriptions.pointers import add_pointers
from descriptions.structs import Field, Struct


class Drawn(NamedTuple):
    """A struct, what is in it, from the innermost on, and the kinds of its fields. Of an enum it has the one field."""

    struct: Struct
    items: List[Item]
    kinds: List[str]

    @property
    def top(self) -> Union[Struct, Enum]:
        """The struct or the enum."""
        made = self.items[-1]
        assert isinstance(made, (Struct, Enum))
        return made


def is_open(kind: Kind) -> bool:
    """Returns whether a field is a number that no constant says."""
    if isinstance(kind, Number):
        return kind.constant is None and is_count(kind.of)
    return isinstance(kind, Numeral) or (isinstance(kind, Leb) and not kind.is_signed)


def has_record(kind: Number) -> bool:
    return isinstance(kind.of, Group) and kind.of.is_struct


class Draw(Numbers):
    """Draws a struct with those in it."""

    def kind(self, kind: str, known: Sequence[Known], depth: int, can_differ: bool = True) -> Kind:
        """A kind of field, by the numbers that are known."""
        can_own = kind in ("slice", "text", "table", "table of records")
        count: Callable[[], Sum] = lambda: self.count(known, can_differ=can_differ, can_own=can_own)
        makers: Dict[str, Callable[[], Kind]] = {
            "text to a byte": lambda: Ended(self.choice([0, 10, 32])),
            "C string": lambda: Ended(-1),
            "ULEB128": lambda: Leb("Uleb"),
            "SLEB128": lambda: Leb("Sleb"),
            "high groups": lambda: Leb("Vlq"),
            "zigzag": lambda: Leb("Zigzag"),
            "digits": lambda: Numeral(self.choice([*Numeral.BASES]), self.randint(1, 12)),
            "filled text": lambda: Filled(self.randint(1, 9), self.choice([0, 32])),
            "slice": lambda: Slice(count()),
            "text": lambda: Slice(count(), True),
            "zeros": lambda: Gap(Sum([], self.randint(1, 9)) if self.chance(60) or not known else count()),
            "table": lambda: Table(Plain(self.choice([*UNSIGNED, *SIGNED, *(FLOATS if self.has_floats else ())])), count()),
            "table of records": lambda: Table(self.fixed("record"), count()),
            "numbers": self.number,
            "struct": lambda: Inner(self.struct(depth + 1)),
            "struct that is given a number": lambda: Inner(self.struct(depth + 1, True), count()),
            "enum": lambda: self.enum(known, depth),
            **dict.fromkeys(LISTS, lambda: self.listing(LISTS[kind], known, depth, can_differ)),
        }
        return makers[kind]()

    def listing(self, how: str, known: Sequence[Known], depth: int, can_differ: bool) -> Listing:
        if how == "last":
            return self.listing_to_last(depth)
        can_nest, leaf = depth < DEEPEST and self.structs_left > 0, self.choice([*map(Leb, ("Uleb", "Sleb", "Vlq", "Zigzag")), Ended(-1), None])
        if can_nest and self.chance(50):
            item: Kind = Inner(self.struct(depth + 1))
        else:
            item = leaf or Number(self.fixed(self.choice(["unsigned", "signed", "array", "record"])))
        count = Sum([]) if how == "mark" else self.count(known, how == "bytes", can_differ, True)
        mark = bytes(self.choices(range(256), k=self.randint(1, 2))) if how == "mark" else b""
        made = Listing(f"{self.new_type()}s", item, how, count, mark)
        if how == "mark" and self.chance(40):
            made.mark, made.zeros = b"", self.randint(1, 2)
            self.kinds.append(ZERO_MARK)
        if self.error and not isinstance(item, Inner):
            made.error = f", {self.error.note}"
        self.items.append(made)
        return made

    def listing_to_last(self, depth: int) -> Listing:
        """A list up to the value that says, by a bit of one of its numbers, that it is the last."""
        group = Group(self.new_type(), ((".r0", Plain(self.choice(["u8", "u16", "u32", "u64"]))), (".r1", Plain("u16"))))
        item, names = Number(group), ["r0", "r1"]
        if depth < DEEPEST and self.structs_left > 0:
            inner = Inner(self.struct(depth + 1))
            found = [it.name for it in inner.struct.fields if it.is_plain and is_open(it.kind)]
            item, names = (inner, found) if found else (item, names)
        if isinstance(item, Number):
            self.items.append(group)
        made = Listing(f"{self.new_type()}s", item, "last", Sum([]))
        made.last = Condition(self.choice(names), self.choice(["==", "!="]), 0, bit=1)
        if self.error and not isinstance(item, Inner):
            made.error = f", {self.error.note}"
        self.items.append(made)
        return made

    def enum(self, known: Sequence[Known], depth: int, name: str = "") -> Tagged:
        own = {it.name: it for it in known if it.how == "number" and it.is_free}
        is_own, name, variants = not own or self.chance(40), name or self.new_type(), []
        tag = Known("tag", self.choice(["u8", "u16", "u32", "u64"]), "") if is_own else own[self.least_used([*own])]
        given = [] if is_own else [Known("given", "usize", "given")]
        tags = self.sample(range(200), self.randint(2, 4))
        for at, number in enumerate([0, *tags[1:]] if 0 not in tags and self.chance(40) else tags):
            leaves = [*SHORT, "zeros", *LISTS] if is_own else [*LEAVES, *LISTS]
            kinds = [it for it in leaves if it != "numbers" and not (is_own and it in LISTS and it not in ENDED)]
            kinds += ["struct"] if depth < DEEPEST and self.structs_left else []
            made: List[Kind] = [self.kind(self.take("", kinds), given, depth, False)] if self.chance(50) else []
            if not made and self.chance(80):
                made = [Number(self.fixed(self.choice(FIXED[:-2]))) for _ in range(self.randint(1, 3))]
            variants.append(Variant(f"{'ABCD'[at]}{name.rpartition('x')[2]}", number, made))
        if not is_own and self.chance(40):
            at = self.randrange(len(variants))
            above = min([it.tag for it in variants if it.tag > variants[at].tag], default=self.choice([250, 256 ** UNSIGNED[tag.type]]))
            variants[at] = variants[at]._replace(last=self.randint(variants[at].tag, above - 1))
            self.kinds.append(RANGE)
        if not is_own and self.chance(40):
            variants[-1] = variants[-1]._replace(tag=-1, last=None)
            self.kinds.append(ANY_TAG)
        other = self.own(tag.type, OWN_TAG) if self.error and self.chance(85) else ""
        enum = Enum(name, Plain(tag.type), is_own, variants, self.error, other)
        self.items.append(enum)
        self.kinds.append(f"enum: {'its own tag' if is_own else 'an earlier tag'}")
        return Tagged(enum, tag.name, self.count(known) if enum.has_length else None)

    # Fields and structs

    def field(self, name: str, kind: str, known: Sequence[Known], depth: int) -> Field:
        nested = [it for it in NESTED[:2] if depth < DEEPEST and self.structs_left]
        if kind == "optional":
            has_tag = self.has_tests and any(it.how == "number" and it.is_free for it in known)
            tags = ["enum"] if has_tag and depth < DEEPEST else []
            inner = self.kind(self.take("", [*LEAVES, *LISTS, *nested, *tags]), known, depth)
            if isinstance(inner, Number):
                # (an optional array is refused)
                inner = Number(inner.of if isinstance(inner.of, Plain) or inner.of.is_struct else Plain("u16"))
            return Field(name, inner, condition=self.condition(known))
        if kind in WRAPPED:
            within = self.count(known, True) if kind == "within" else None
            leaves = [it for it in (*LEAVES, *LISTS, *nested) if kind != "within" or it != "zeros"]
            inner = self.kind(self.take("", leaves), known, depth)
            return Field(name, inner, within, 0 if within and self.chance(80) else self.choice([2, 4, 8, 16]))
        return Field(name, self.kind(kind, known, depth))

    def struct(self, depth: int, is_given: bool = False) -> Struct:
        """A struct, with those in it before it."""
        self.structs_left -= depth > 1
        uses, self.uses = self.uses, Counter()
        name = self.name if depth == 1 else self.new_type()
        made = Struct(name, [], self.choice([0, 0, 0, 4, 8]), is_given, self.error)
        known = [Known("given", "usize", "given")] if is_given else []
        made.is_low = self.chance(30)
        # (small ones come more often, since a large one shows little more, and its proof takes long)
        fewest = min(self.randint(*(FIELDS if depth == 1 else FIELDS_WITHIN)) for _ in range(2))
        while len(made.fields) < fewest:
            unused = [it for it in known if it.how == "number" and it.is_small and it.is_free and not self.uses[it.name]]
            nested = [it for it in NESTED if depth < DEEPEST and self.structs_left and (it != "enum" or self.has_tests)]
            kinds = [*LEAVES, *LISTS, *nested, *WRAPPED, *(["bits", "three bytes"] if fewest - len(made.fields) > 3 else [])]
            kinds += ["padding"] if made.fields else []
            kind = self.take("", kinds) if self.chance(75) else "numbers"
            if made.fields and self.chance(20) and any(it.startswith("condition: ") for it in self.bag):
                kind = "optional"
            needs = kind not in ("numbers", "bits", "three bytes", "padding", *SHORT) and not unused
            if needs and (self.chance(70) or kind in FRESH or all(it.how == "length" for it in known)):
                made.fields.append(Field(f"f{len(made.fields)}", Number(Plain(self.choice(["u8", "u16", "u32"])))))
                self.add_test(made.fields[-1], known)
                known += self.says(made.fields[-1])
            if kind == "bits":
                made.fields += [Field(f"f{len(made.fields) + at}", it) for at, it in enumerate(self.bits(made.is_low))]
                self.kinds += [LOW] if made.is_low else []
            elif kind == "three bytes":
                # (behind which no other field of bits may stand)
                lower = self.choice([0, 0, 3, 7])
                # (the highest ones are of the number's own type)
                shared = [Number(Plain("u32" if made.is_low else "u8"), bits=lower)] if lower else []
                numbers = [Number(Plain("u32"), bits=24 - lower), *shared, Number(Plain("u8"))]
                made.fields += [Field(f"f{len(made.fields) + at}", it) for at, it in enumerate(numbers)]
            elif kind == "padding":
                made.fields.append(Field(f"f{len(made.fields)}", Gap(Sum([]), self.choice([2, 4, 8]))))
            else:
                made.fields.append(self.field(f"f{len(made.fields)}", kind, known, depth))
                self.add_notes(made.fields[-1], known)
            known = [Known("given", "usize", "given")] if is_given else []
            known += [said for it in made.fields for said in self.says(it)]
        if depth > 1 and made.is_fixed and any(isinstance(it.kind, Number) and has_record(it.kind) for it in made.fields):
            # (a struct of a fixed size with a struct in it is no part of another one)
            made.fields.append(Field(f"f{len(made.fields)}", Leb("Uleb")))
        if is_given and made.fields and self.chance(60):
            made.fields.append(self.rest(f"f{len(made.fields)}", depth))
        self.uses = uses
        made.is_low &= any(isinstance(it.kind, Number) and it.kind.bits for it in made.fields)
        if self.chance(20):
            self.kinds.append(ORDERED)
            made.order = self.choice(["little", "big"])
        if made.multiple:
            self.kinds.append(PADDED)
        self.items.append(made)
        return made

    def rest(self, name: str, depth: int) -> Field:
        """The last field of a struct that is given its length, which has what the others leave."""
        kind = self.choice(["slice", "text", "list", "option", "option"])
        if kind == "option":
            self.kinds.append(IS_LEFT)
            inner = self.choice([Number(Plain("u16")), Leb("Uleb"), Ended(-1)])
            return Field(name, inner, Rest(), condition=IsLeft(), is_rest=True)
        self.kinds.append(REST)
        if kind != "list":
            return Field(name, Slice(Rest(), kind == "text"), is_rest=True)
        made = self.listing("bytes", [], DEEPEST, False)
        made.count, made.counts, made.own_notes = Rest(), (Rest(),), ["ctx = rest"]
        return Field(name, made, is_rest=True)

    def add_notes(self, of: Field, known: Sequence[Known]) -> None:
        """Gives a field a byte order of its own, or a test of it and of earlier numbers."""
        self.add_test(of, known)
        if not (of.test or of.condition) and self.chance(12):
            self.kinds.append(FIELD_ORDER)
            of.order = self.choice(["little", "big"])

    def add_test(self, of: Field, known: Sequence[Known]) -> None:
        """Gives a number a test of it and of earlier ones."""
        numbers = [*self.says(of), *(it for it in known if it.how == "number" and it.is_free)]
        is_free = isinstance(of.kind, Number) and of.is_plain and is_count(of.kind.of) and of.kind.constant is None
        if is_free and self.has_tests and self.chance(20):
            self.kinds.append(TEST)
            of.test = self.condition(numbers)
            first = next(it for it in numbers if it.name == of.test.names[0])
            if self.error and self.chance(60):
                of.test_own = f"{self.error.name}::{self.own(first.type, OWN_TEST)}"

    @staticmethod
    def says(of: Field) -> List[Known]:
        """Returns the numbers that a field says."""
        kind, name = of.kind, of.name
        if of.condition:
            return []
        if isinstance(kind, Number) and isinstance(kind.of, Group):
            counts = [(where, it) for where, it in kind.of.parts if kind.of.is_struct and is_count(it)]
            return [Known(name + where, it.type, "struct", False) for where, it in counts]
        if isinstance(kind, Number):
            return [Known(name, kind.type, "bits" if kind.bits else "number", kind.constant is None)] if is_count(kind.of) else []
        if isinstance(kind, (Leb, Numeral)) and not kind.is_signed:
            return [Known(name, "u64", "leb")]
        if isinstance(kind, (Filled, Slice)) or (isinstance(kind, Ended) and kind.byte >= 0):
            return [Known(f"{name}.len()", "usize", "length")]
        if isinstance(kind, Inner):
            fields = [it for it in kind.struct.fields if it.is_plain and isinstance(it.kind, (Number, Leb, Numeral))]
            inner = [said for it in fields for said in Draw.says(it) if said.name == it.name]
            return [Known(f"{name}.{it.name}", it.type, "struct", False) for it in inner]
        return []

    def chain(self, levels: int) -> Struct:
        """A struct that is nested to so many levels."""
        made = Struct(self.new_type() if levels < DEPTH else self.name, error=self.error)
        inner: Optional[Struct] = self.chain(levels - 1) if levels > 1 else None
        known: List[Known] = []
        for _ in range(4 if levels == 2 else 1):
            at = len(made.fields)
            made.fields.append(Field(f"f{at}", Number(self.fixed(self.choice(["unsigned", "array"])))))
            made.fields.append(Field(f"f{at + 1}", Number(Plain("u8"))))
            known += self.says(made.fields[-1])
            made.fields.append(self.field(f"f{at + 2}", self.choice(["slice", "text", "table"]), known, DEEPEST))
        if inner:
            made.fields.append(Field(f"f{len(made.fields)}", Inner(inner)))
        self.items.append(made)
        return made


def draw(name: str, seed: str, at: int, bag: List[str]) -> Drawn:
    """Draws a struct, with those in it, or an enum. Some are deep, some have another error, and some have floats."""
    drawing = Draw(seed)
    drawing.begin(name, bag, {1: f"{name}Error", 2: SMALL}.get(at % 5, ""), at % 5 == 3)
    is_deep = at % ALL == ALL - 1
    if at % 7 == 4 and drawing.has_tests:
        drawing.kinds.append(TOP_ENUM)
        struct = Struct(name, [Field("it", drawing.enum([], 1, name))], error=drawing.error)
    else:
        struct = drawing.chain(DEPTH) if is_deep else drawing.struct(1)
    made = Drawn(struct, drawing.items, drawing.kinds)
    if at % 3 == 0 and not struct.is_fixed:
        made.kinds.append(IS_KEPT)
        made.top.mark = KEPT
    for it in made.items[:-1]:
        if isinstance(it, (Struct, Enum)) and it.is_alone and (is_deep or drawing.chance(75)):
            it.mark = PART
    if isinstance(made.top, Struct) and add_pointers(made.items, random.Random(f"{seed} pointers")):
        made.kinds.append(POINTER)
    return made
