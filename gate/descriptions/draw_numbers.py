"""Draws numbers, counts and conditions for gate/descriptions/draw.py, and has the names of all kinds that are drawn."""

import random
from collections import Counter
from typing import Dict, List, NamedTuple, Sequence, Union

from descriptions.conditions import AnyCondition, Condition, Joined
from descriptions.counts import FLOATS, SIGNED, SMALL, UNSIGNED, Fixed, Group, OwnError, Plain, Sum, array
from descriptions.expressions import Product, Quotient, Shifted
from descriptions.kinds import Number
from descriptions.pointers import Item

MADE = ("a quotient", "a product of two", "a wide product", "a shift", "a shift of bits")
# The kinds of fields, of counts, of conditions and of types of a fixed size.
SHORT = ("text to a byte", "C string", "ULEB128", "SLEB128", "high groups", "zigzag", "digits", "filled text")
LEAVES = (*SHORT, "slice", "text", "zeros", "table", "table of records", "numbers")
LISTS = {"list in a length": "bytes", "list of a count": "values", "list to a mark": "mark", "list to its last value": "last"}
# Those that want no count.
ENDED = ("list to a mark", "list to its last value")
NESTED = ("struct", "struct that is given a number", "enum")
WRAPPED = ("padded", "within", "optional")
PARTS = (*LEAVES, *LISTS, *NESTED, *WRAPPED, "bits", "three bytes", "padding")
COUNTS = ("as it is", "a product", "a sum", "a difference", "a length", "in LEB128", "in bits", "in a struct", *MADE)
CONDITIONS = ("a bit", "no bit", "equal", "not zero", "less", "greater", "another field", "both", "one of two", "both or one")
FIXED = ("unsigned", "signed", "array", "array of arrays", "record", "constant", "constant bytes")
# Those of them that are tested.
CONSTANTS = FIXED[-2:]
FLOATING = ("float", "array of floats")
# All that is drawn from the bag.
KINDS = (
    *PARTS,
    *(f"count: {it}" for it in COUNTS),
    *(f"condition: {it}" for it in CONDITIONS),
    *(f"field: {it}" for it in (*FIXED, *FLOATING)),
)
# What is drawn besides.
OWN_CONSTANT, OWN_COUNT, OWN_TAG = (f"an error of one's own for {it}" for it in ("a constant", "a count", "a tag"))
PADDED, SMALL_ERROR, IS_KEPT, TOP_ENUM = "a whole struct padded", "a small error", "Kept", "a whole enum"
ORDERED, FIELD_ORDER, TEST, OWN_TEST = "a struct's byte order", "a field's byte order", "a check", "an error of one's own for a check"
NAMED, LETTER, LEAST, GREATEST = "a named constant", "a letter", "a least number", "a greatest number"
RANGE, ANY_TAG = "enum: several tags", "enum: all other tags"
LOW, REST, IS_LEFT, ZERO_MARK = "bits from the lowest on", "the rest", "an option of the rest", "a mark of zeros"
POINTER = "a pointer"
OTHERS = (
    *(OWN_CONSTANT, OWN_COUNT, OWN_TAG, PADDED, SMALL_ERROR, IS_KEPT, TOP_ENUM, ORDERED, FIELD_ORDER, TEST, OWN_TEST, RANGE, ANY_TAG),
    *(NAMED, LETTER, LEAST, GREATEST),
    *(LOW, REST, IS_LEFT, ZERO_MARK, POINTER),
    *("enum: its own tag", "enum: an earlier tag"),
)
# Those that want a number of their own.
FRESH = ("within", "enum", "list in a length")
DEEPEST, STRUCTS = 3, 3
# So many structs have all kinds, and one of them is deep.
ALL = 24
# How deep the deep ones are, whose innermost struct stands behind four heads.
DEPTH = 10
FIELDS, FIELDS_WITHIN = (2, 13), (1, 4)


class NamedConstant(NamedTuple):
    """A constant, and the value of another one of its name in a function."""

    name: str
    type: str
    value: str
    other: str

    def print(self) -> str:
        head = f"const {self.name}: {self.type} = "
        return f"{head}{self.value};\n\nfn other_{self.name.lower()}() -> {self.type} {{\n    {head}{self.other};\n    {self.name}\n}}\n"


class Known(NamedTuple):
    """A number that a field says: its name, its type, and how: `number`, `leb`, `bits`, `length`, `struct` or `given`."""

    name: str
    type: str
    how: str
    is_free: bool = True

    @property
    def is_small(self) -> bool:
        return self.type in ("u8", "u16", "u32")


class Numbers(random.Random):
    """Draws numbers, counts and conditions. Kinds are taken from a bag, so that each comes in its turn."""

    def begin(self, name: str, bag: List[str], error: str, has_floats: bool) -> None:
        self.name, self.bag, self.has_floats = name, bag, has_floats
        self.error = OwnError(error, []) if error else None
        # (what is tested by itself isn't proved with a small error)
        self.has_tests, has_own = error != SMALL, error not in ("", SMALL)
        self.items: List[Union[Item, NamedConstant]] = [self.error] if self.error and has_own else []
        self.kinds: List[str] = [] if self.has_tests else [SMALL_ERROR]
        self.inner_count, self.constant_count, self.structs_left = 0, 0, STRUCTS
        if has_own:
            bag[:0] = ["enum", "field: constant", "slice", "count: a difference"]
        # How often the fields of a struct are named.
        self.uses: Dict[str, int] = Counter()

    def chance(self, percent: float) -> bool:
        return self.random() * 100 < percent

    def take(self, what: str, kinds: Sequence[str]) -> str:
        """Takes the first of some kinds out of the bag, or any if it has none of them."""
        found = next((it for it in self.bag if it in [f"{what}{kind}" for kind in kinds]), None)
        if found:
            self.bag.remove(found)
        kind = found[len(what) :] if found else self.choice(list(kinds))
        self.kinds.append(f"{what}{kind}")
        return kind

    def least_used(self, names: Sequence[str]) -> str:
        found = min(names, key=lambda it: (self.uses[it], self.random()))
        self.uses[found] += 1
        return found

    def new_type(self) -> str:
        """A name of a type, which other files of the crate have too."""
        self.inner_count += 1
        return f"Tx{self.inner_count}"

    def new_constant(self, type_: str, value: str, other: str) -> str:
        """Adds a constant, whose name other files have too, and a function."""
        self.constant_count += 1
        name = f"MARK{self.constant_count}"
        self.items.append(NamedConstant(name, type_, value, other))
        self.kinds.append(NAMED)
        return name

    def own(self, type_: str, kind: str) -> str:
        """Adds a variant with a number to the error."""
        assert self.error
        self.error.variants.append((f"Bad{len(self.error.variants)}", type_))
        self.kinds.append(kind)
        return self.error.variants[-1][0]

    # Counts and conditions

    def count(self, known: Sequence[Known], fits: bool = False, can_differ: bool = True, can_own: bool = False) -> Sum:
        """A count, by the numbers that are known; one that `fits` can have any value."""
        free = [it for it in known if it.is_free and it.how != "length"] if fits else list(known)
        small = [it.name for it in free if it.is_small]
        wide = [it.name for it in free if it.type == "u64" and it.how in ("number", "leb")]
        named = {
            "as it is": [it.name for it in free if it.how in ("number", "given")],
            "a product": small if not fits else [],
            "a sum": small,
            "a difference": small if can_differ and self.has_tests else [],
            "a length": [it.name for it in free if it.how == "length"],
            "in LEB128": [it.name for it in free if it.how == "leb"],
            "in bits": [it.name for it in free if it.how == "bits"],
            "in a struct": [it.name for it in free if it.how == "struct"],
            "a quotient": small if self.has_tests else [],
            "a product of two": [] if fits or len(small) < 2 else small,
            "a wide product": [] if fits or not self.has_tests or len(wide) < 2 else wide,
            "a shift": [] if fits or not self.has_tests else small,
            "a shift of bits": [] if fits else small,
        }
        if not any(named.values()):
            return Sum([], self.randint(0, 9))
        kind = self.take("count: ", [it for it, found in named.items() if found])
        name = self.least_used(named[kind])
        if kind in MADE:
            return self.made(kind, name, [it for it in (wide if kind == "a wide product" else small) if it != name])
        made = Sum([(name, self.choice([2, 3, 4, 8, 12]) if kind == "a product" else 1)])
        others = [it.name for it in known if (it.is_small or it.how == "length") and it.name != name]
        if kind == "a sum":
            plain = [it for it in others if not it.endswith("()")]
            made.terms += [(self.choice(plain), 1)] if plain and not fits and self.chance(50) else []
            made.number = self.randint(0, 20) if len(made.terms) > 1 else self.randint(1, 2 if fits else 20)
        if kind == "a difference":
            made.less = [self.choice(others)] if others and self.chance(60) else []
            made.less_number = self.randint(0, 3) if made.less else self.randint(1, 9)
            of = next(it for it in known if it.name == name)
            if self.error and can_own and of.how == "number" and self.chance(85):
                made.own = f"{self.error.name}::{self.own(of.type, OWN_COUNT)}"
        return made

    def made(self, kind: str, name: str, others: Sequence[str]) -> Sum:
        """A count of a number that is no sum."""
        if kind == "a quotient":
            return Quotient([(name, 1)], by=self.choice([2, 3, 4, 8]))
        if kind in ("a product of two", "a wide product"):
            return Product([(name, 1), (self.choice(others), 1)], is_wide=kind == "a wide product")
        is_bits = kind == "a shift of bits"
        return Shifted([(name, 1)], of_number=self.choice([1, 1, 3]), modulus=8 * is_bits, more=self.randint(0, 1))

    def condition(self, known: Sequence[Known], kinds: Sequence[str] = CONDITIONS) -> AnyCondition:
        """A condition on the numbers that are known. Two may hold together, or one of two."""
        names = [it.name for it in known if it.how != "length"]
        name, kind = self.least_used(names), self.take("condition: ", kinds if len(names) > 1 else CONDITIONS[:6])
        if kind in ("both", "one of two", "both or one"):
            first, second, *others = [self.condition(known, CONDITIONS[:6]) for _ in range(3 if kind == "both or one" else 2)]
            return Joined([Joined([first, second], False), *others], True) if others else Joined([first, second], kind == "one of two")
        if kind == "another field":
            other_name = self.choice([it for it in names if it != name])
            return Condition(name, self.choice(["==", "!=", "<", "<=", ">", ">="]), 0, other=other_name)
        bit, other = 1 << self.randint(0, 7), self.randint(1, 200)
        of = next(it for it in known if it.name == name)
        if self.chance(25) and of.how != "bits":
            other = self.choice([0, 256 ** UNSIGNED[of.type] - 1]) if of.type in UNSIGNED and kind == "equal" else other
            other = 256 ** UNSIGNED[of.type] - 1 if of.type in UNSIGNED and kind in ("less", "greater") else other
        signs = {"a bit": ["!="], "not zero": ["!="], "less": ["<", "<="], "greater": [">", ">="]}
        sign = self.choice(signs.get(kind, ["=="]))
        if kind in ("a bit", "no bit"):
            return Condition(name, sign, 0, bit)
        # (a number isn't greater than the greatest one of its type)
        sign = ">=" if sign == ">" and other > 200 else sign
        is_letter = 64 < other < 91 and kind != "not zero"
        self.kinds += [LETTER] * is_letter + [LEAST] * (other == 0) + [GREATEST] * (other > 200)
        return Condition(name, sign, 0 if kind == "not zero" else other, is_letter=is_letter)

    # Fields of a fixed size

    def fixed(self, kind: str) -> Fixed:
        if kind == "record":
            plain = [Plain(it) for it in (*UNSIGNED, *SIGNED)]
            kinds: List[Fixed] = [self.choice([*plain, array(Plain("u8"), 3)]) for _ in range(self.randint(2, 4))]
            made = Group(self.new_type(), tuple((f".r{at}", it) for at, it in enumerate(kinds)))
            self.items.append(made)
            return made
        whole = {**UNSIGNED, **SIGNED} if "array" in kind else SIGNED if kind == "signed" else UNSIGNED
        of = Plain(self.choice([*(FLOATS if "float" in kind else whole)]))
        if kind == "array of arrays" or (kind == "array of floats" and self.chance(30)):
            return array(array(of, self.randint(1, 4)), self.randint(1, 4))
        return array(of, self.randint(1, 4)) if kind.startswith("array") else of

    def number(self) -> Number:
        fixed = [it for it in FIXED if self.has_tests or it not in CONSTANTS]
        kind = self.take("field: ", [*fixed, *["unsigned"] * 4, *(FLOATING if self.has_floats else ())])
        if kind == "constant bytes":
            text = self.choice(["PK", "RIFF", "GIF89a", "x"])
            named = self.new_constant(f"[u8; {len(text)}]", f'*b"{text}"', f'*b"{text.lower()}"') if self.chance(40) else ""
            return Number(array(Plain("u8"), len(text)), [*text.encode()], named=named)
        if kind != "constant":
            return Number(self.fixed(kind))
        of = self.choice(["u8", "u16", "u32", "u64"])
        own = f"{self.error.name}::{self.own(of, OWN_CONSTANT)}" if self.error and self.chance(85) else ""
        value = self.choice([self.randint(0, 255), self.randint(65, 90), 256 ** UNSIGNED[of] - 1])
        named = self.new_constant(of, str(value), str(value ^ 1)) if self.chance(40) else ""
        is_letter = not named and 64 < value < 91
        self.kinds += [LETTER] * is_letter
        return Number(Plain(of), value, own, named=named, is_letter=is_letter)

    def bits(self, is_low: bool) -> List[Number]:
        word = self.choice(["u8", "u16", "u32", *([] if is_low else ["u64"])])
        left, lower = 8 * UNSIGNED[word], []
        for _ in range(self.randint(1, 1 if word == "u8" else 3)):
            kind = self.choice([it for it in ("u8", "u16", "u32") if UNSIGNED[it] <= UNSIGNED[word]])
            lower.append(Number(Plain(kind), bits=self.randint(1, max(1, min(left // 2, 8 * UNSIGNED[kind])))))
            left -= lower[-1].bits
        if is_low:
            first = self.randint(1, left - 1)
            return [Number(Plain(word), bits=first), *lower, Number(Plain(word), bits=left - first)]
        return [Number(Plain(word), bits=left), *lower]
