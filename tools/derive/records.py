"""Prints `Record` for a struct of a fixed size."""

from typing import List, Sequence

from fixed_types import Array, Fixed, Plain, Pointer, Record, width_of
from text import call, in_tuple, label, nested, paths, right


def drop(at: int, source: str) -> str:
    return source if at == 0 else f"(drop {at} {source})"


def made(of: Fixed, source: str, value: str) -> str:
    """Returns a clause: which value a source makes at its prefix."""
    if isinstance(of, Plain):
        word = {"unsigned": "number", "signed": "signed_number", "float": f"float binary{8 * of.width}"}[of.kind]
        width = "" if of.kind == "float" else f" {of.width}"
        return f"({value} ≡ {word} order{width} {source})"
    if isinstance(of, Pointer):
        return made(of.offset, source, f"{value}.offset")
    if isinstance(of, Array):
        element = f"(λ s x. {made(of.element, 's', 'x')})"
        return f"(MakesArray {width_of(of.element)} {element} {of.length} {source} {value})"
    clauses = clauses_of(of, source, value)
    return clauses[0] if len(clauses) == 1 else f"({' × '.join(clauses)})"


def clauses_of(of: Record, source: str, value: str) -> List[str]:
    """Returns a clause for each field."""
    found, at = [], 0
    for name, kind in of.fields:
        found.append(made(kind, drop(at, source), f"{value}.{label(name)}"))
        at += width_of(kind)
    return found


def variable(name: str) -> str:
    """Returns the name of the variable for an array."""
    return f"array_{name}" if name.isdigit() or name == "parts" else name


def made_of(type_: str, names: Sequence[str], values: Sequence[str]) -> str:
    """Returns the expression that makes a struct of its fields."""
    if names[0].isdigit():
        return call(type_, *values)
    named = [name if name == value else f"{name}: {value}" for name, value in zip(names, values)]
    return f"{type_} {{ {', '.join(named)} }}"


def record_text(of: Record) -> str:
    """Returns the implementations. (An array that is stored straight isn't covered by the borrow checker's part of a proof, so
    it gets a variable.)"""
    names = [name for name, _ in of.fields]
    count = len(names)
    facts = ["h"] if count == 1 else [f"h.{at}" for at in range(count)]
    of_facts = in_tuple(paths(count, "h", in_pairs=True)) if count > 1 else "h"
    parts = "; ".join(f"{label(name)} = {path}" for name, path in zip(names, paths(count, "p")))
    arrays = {name: variable(name) for name, kind in of.fields if isinstance(kind, Array) and count > 1}
    taken = dict(zip(names, paths(count, "parts")))
    clauses = "\n        × ".join(clauses_of(of, "s", "x"))
    clauses = f" {clauses}" if count == 1 else f"\n        {clauses}"
    split = "".join(f"\n        let {it} = self.{name};" for name, it in arrays.items())
    join = "".join(f"\n        let {it} = {taken[name]};" for name, it in arrays.items())
    return f"""impl Record for {of.text} {{
    type Parts = {nested([kind.text for _, kind in of.fields])};

    ghost parts_of = {{ λ x. {nested([f"x.{label(name)}" for name in names])} }};

    ghost of_parts = {{ λ p. record {{ {parts} }} }};

    ghost fields_in = {{ λ order s x.{clauses} }};

    ghost again = {{ λ x. refl }};

    ghost there = {{ λ p. refl }};

    ghost fields_of_parts = {{ λ order s x h. {of_facts} }};

    ghost parts_of_fields = {{ λ order s x h. {nested(facts, right)} }};

    ghost small = {{ Prim.search rules }};

    fn parts(self) -> Self::Parts {{{split}
        {nested([arrays.get(name, f"self.{name}") for name in names])}
    }}

    fn of_parts(parts: Self::Parts) -> {of.text} {{{join}
        {made_of(of.text, names, [arrays.get(name, taken[name]) for name in names])}
    }}
}}

impl<'a> Written for &'a {of.text} {{
    type Value = {of.text};

    ghost value_of = {{ λ x. x.now }};

    #[inline(always)]
    fn value(self) -> {of.text} {{
        *self
    }}
}}"""
