"""The parts of a struct as they are printed.

A part's context and its rules are said with `@name@` for a number that an earlier part says. Code of several
lines begins each with a new line.
"""

from dataclasses import dataclass, field, replace
from typing import Any, List, NamedTuple, Sequence, Tuple

from fixed_types import Array, Fixed, Record, is_exact_type, numbers_of
from sums import Value
from text import call, label, nested, paths, record

# Names that the printed functions have, which a field's variable can't.
TAKEN = {"parts", "self", "ctx", "order", "from", "dst"}
NOTHING = Value("tt", "()")
# The longest tuple of fields of a fixed size that stands in another one.
LONGEST = 56


class Number(NamedTuple):
    """A number that a part says: its name, its type, and the way to it from the part. That to a length ends at what has it."""

    name: str
    type: str
    way: str = ""

    def behind(self, way: str) -> "Number":
        """Returns it as a number of what its part stands in, at this place."""
        return self._replace(way=way + self.way)

    @property
    def is_length(self) -> bool:
        return self.name.endswith("()")

    def said(self, of: str) -> Value:
        """Returns it as a number of a value."""
        if self.is_length:
            return Value(f"(length {of}{self.way}.now)", f"{of}{self.way}.len()")
        return Value(of + self.way, of + self.way)


class Rule(NamedTuple):
    """What has to hold of numbers, the error where it doesn't, and the code that returns it, behind a test."""

    holds: str
    fails: str
    test: str
    code: str


@dataclass
class Part:
    """A part: its type and that of its context; its context; what it is in the logic, of a value `x`, and in code, of `self`,
    behind some lines; the pattern that binds the fields' variables, with the lines behind it; its numbers, and their rules."""

    type: str
    context_type: str
    context: Value
    ghost: str = ""
    split: str = ""
    join: str = ""
    before: str = ""
    after: str = ""
    numbers: List[Number] = field(default_factory=list)
    rules: List[Rule] = field(default_factory=list)
    is_exact: bool = True
    # Whether it is an enum, or has one.
    has_enum: bool = False
    # The kind of list that it is, if it is one.
    listed: str = ""
    # Fields of a fixed size, which are this part; or the parts that it is, of which there may be several, and types that are
    # printed for it, with their names.
    fields: Sequence[Tuple[str, Fixed]] = ()
    inside: Any = None
    aliases: Sequence[Tuple[str, str]] = ()

    @property
    def has_array(self) -> bool:
        return any(isinstance(of, Array) for _, of in self.fields)

    @property
    def is_optional_list(self) -> bool:
        return bool(self.listed) and self.type.startswith("Option<")

    def around(self, name: str, type_: str, ghost: str, code: str) -> "Part":
        """Returns the part in a context around its own."""
        context = Value(record(ghost, self.context.ghost), call(name, code, self.context.code))
        return replace(self, type=type_, context_type=f"{name}<{self.context_type}>", context=context)


def local(name: str) -> str:
    """Returns the variable for a field."""
    return f"{name}_value" if name in TAKEN else name


def one(name: str, type_: str, context_type: str, context: Value, numbers: Sequence[Number] = ()) -> Part:
    """A part that is a field."""
    return Part(type_, context_type, context, f"x.{label(name)}", f"self.{name}", local(name), numbers=[*numbers])


def nothing() -> Part:
    """What stands behind a head with nothing behind it."""
    return Part("Zeros", "usize", Value("0", "0"), "record {}", "Zeros", "_")


def fixed_tuple(fields: Sequence[Tuple[str, Fixed]], said: Sequence[str], around: str = "Field({})") -> str:
    """Returns what is said of fields of a fixed size in tuples, a struct in `Field`."""
    return nested([around.format(it) if isinstance(of, Record) else it for (_, of), it in zip(fields, said)])


def fixed_type(fields: Sequence[Tuple[str, Fixed]]) -> str:
    return fixed_tuple(fields, [of.text for _, of in fields], "Field<{}>")


def numbers(fields: Sequence[Tuple[str, Fixed]], variable: str) -> Part:
    """Fields of a fixed size, one after another. Where they are many, or an array is among them, they have a variable, if it
    has a name: far inside a pattern the borrow checker doesn't cover an array among others."""
    ways = [(name, of, way + ".0" * isinstance(of, Record)) for (name, of), way in zip(fields, paths(len(fields), ".0"))]
    told = [Number(name + inner, kind, way + inner) for name, of, way in ways for inner, kind in numbers_of(of)]
    # (bytes that may be a constant)
    told += [Number(name, of.text, way) for name, of, way in ways if isinstance(of, Array)]
    ghost = nested([record(f"x.{label(name)}") if isinstance(of, Record) else f"x.{label(name)}" for name, of in fields])
    split, join = fixed_tuple(fields, [f"self.{it}" for it, _ in fields]), fixed_tuple(fields, [local(it) for it, _ in fields])
    type_, before, after = fixed_type(fields), "", ""
    is_long = max(len(split), len(type_)) > LONGEST
    if variable and len(fields) > 1 and (is_long or any(isinstance(of, Array) for _, of in fields)):
        before, after = f"\n        let {variable} = {split};", f"\n        let {join} = {variable};"
        split = join = variable
    made = Part(f"Run<{type_}>", "()", NOTHING, record(ghost), f"Run({split})", f"Run({join})", before, after, told)
    made.fields = fields
    made.is_exact = all(is_exact_type(of) for _, of in fields)
    return made


def bits(word: str, fields: Sequence[Tuple[str, str]], masks: Sequence[int]) -> Part:
    """Fields of bits in a number: the highest field, and those below it, each with its type and its mask."""
    (first, kind), below = fields[0], fields[1:]
    made = one(first, kind, "()", NOTHING)
    for (name, kind), mask in zip(below, masks):
        lower = one(name, kind, "", NOTHING)
        made.type, made.context_type = f"({made.type}, {kind})", f"Low<{kind}, {made.context_type}>"
        made.ghost, made.split, made.join = (
            call("", *it) for it in ((made.ghost, lower.ghost), (made.split, lower.split), (made.join, lower.join))
        )
        made.context = Value(record(str(mask), made.context.ghost), f"Low({mask}, {made.context.code})")
    ways = [".0" * (len(below) - at) + (".1" if at else "") for at in range(len(fields))]
    made.numbers = [Number(name, kind, way) for (name, kind), way in zip(fields, ways)]
    made.context_type = f"Packed<{word}, {made.context_type}>"
    made.context = Value(record("record {}", made.context.ghost), call("Packed", "PhantomData", made.context.code))
    return made


def around_list(part: Part, kind: str) -> Part:
    """A list, in the type that is printed around it."""
    split, join = f"ListOf({kind}Part({part.split}), PhantomData)", f"ListOf({kind}Part({part.join}), _)"
    ghost = record(record(part.ghost), "record {}")
    return replace(part, type=f"ListOf<'a, {kind}Part<'a>>", ghost=ghost, split=split, join=join, listed=kind)


def there(part: Part, name: str, condition: Value) -> Part:
    """A field that is there on a condition."""
    return optional(part.around("When", part.type, *condition), name)


def optional(part: Part, name: str) -> Part:
    """A field that may be absent. One of a fixed size, or a list, is put into a part, and taken out of it."""
    made = replace(part, type=f"Option<{part.type}>", ghost=f"x.{label(name)}", split=f"self.{name}", join=local(name))
    made.numbers, made.fields = [], ()
    if part.listed:
        outer, inner = f"Some(ListOf({part.listed}Part(list), PhantomData))", f"Some(ListOf({part.listed}Part(list), _))"
        made.ghost = f"option_map {{U = ListOf {part.listed}Part}} (λ v. {record(record('v'), 'record {}')}) {made.ghost}"
        made.before = f"\n        let {made.join} = match {made.split} {{ Some(list) => {outer}, None => None }};"
        made.after = f"\n        let {made.join} = match {made.join} {{ {inner} => Some(list), None => None }};"
        made.split = made.join
        return made
    if not part.fields:
        return made
    inside, of = (record("v"), "Field") if isinstance(part.fields[0][1], Record) else ("v", "Run")
    made.ghost, made.split = f"option_map (λ v. {record(inside)}) {made.ghost}", f"{of}::from_option({made.split})"
    made.after = f"\n        let {made.join} = {of}::into_option({made.join});"
    return made
