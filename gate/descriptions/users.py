"""Prints a module of a described struct: what tools/derive takes, and functions whose clauses say what stands in bytes."""

import random
from pathlib import Path
from typing import List, NamedTuple, Optional, Sequence

from descriptions.counts import KEPT, SIGNED, UNSIGNED, Group, Sum, bracket
from descriptions.draw import Drawn
from descriptions.kinds import Ended, Filled, Gap, Kind, Leb, Number, Numeral, Slice
from descriptions.lists import WALKS, Listing, Table
from descriptions.nested import Enum, Inner, Tagged
from descriptions.pointers import pointers_of
from descriptions.structs import Field, Struct

# How a field is said.
SAID = {
    **{kind: f"number order {size}" for kind, size in UNSIGNED.items()},
    **{kind: f"signed_number order {size}" for kind, size in SIGNED.items()},
    "f32": "float binary32 order",
    "f64": "float binary64 order",
}


def read(name: str) -> str:
    """Returns code that is the same for each struct."""
    return Path(__file__).with_name(f"{name}.txt").read_text(encoding="utf-8")


class Back(NamedTuple):
    """What is read back of a value: its type, its path, which is empty for the whole, and what of it must be equal. Of an
    optional value it is a part of what is there, and something else where nothing is; or what is seen of all of it."""

    type: str
    path: str
    form: str = "{}"
    part: str = ""
    other: str = ""
    seen: str = ""
    is_rare: bool = False

    def clause(self, value: str) -> str:
        """Returns what a user's function ensures."""
        result, whole = self.form.format("x"), value + self.path
        if self.other:
            return f"(w : _) → {whole} ≡ Some w → {result} ≡ {self.form.format(f'w{self.part}')}"
        if self.seen:
            return f"option_map (λ v. v{self.seen}) x ≡ option_map (λ v. v{self.seen}) {whole}"
        return f"{result} ≡ {self.form.format(whole)}"

    def code(self) -> str:
        """Returns the end of its body."""
        if not self.other:
            return f"    Ok(again{self.path})\n"
        arms = f"        Some(it) => Ok(it{self.part}),\n        None => Ok({self.other}),\n"
        return f"    match again{self.path} {{\n{arms}    }}\n"


def said_number(struct: Struct, name: str) -> str:
    """Returns a number of a value `x` in the logic."""
    first, _, inner = name.partition(".")
    kind = next(it.kind for it in struct.fields if it.name == first)
    if inner == "len()":
        return f"(length x.{first}.now)"
    leaf = kind if not isinstance(kind, Inner) else next(it.kind for it in kind.struct.fields if it.name == inner)
    return f"x.{name}.value" if isinstance(leaf, (Leb, Numeral)) else f"x.{name}"


def said_sum(struct: Struct, of: Sum) -> str:
    """Returns a count in the logic."""
    return bracket(of.said(lambda name: said_number(struct, name)))


def table_size(struct: Struct, kind: Table) -> str:
    return f"(min ({said_sum(struct, kind.count)} * {kind.element.width}) (2 ^ 64 - 1))"


def size_of(struct: Struct, of: Field) -> Optional[str]:
    """Returns how many bytes a field has, with the zeros to which it is padded, if that is simple."""
    kind, path, size = of.kind, f"x.{of.name}", None
    if of.condition:
        return None
    if isinstance(kind, Number):
        size = str(kind.of.width)
    elif isinstance(kind, (Slice, Gap)):
        size = said_sum(struct, kind.count)
    elif isinstance(kind, Table):
        size = table_size(struct, kind)
    elif isinstance(kind, Ended):
        size = f"(length {path}.now + 1)" if kind.byte >= 0 else f"(length (c_str_text {path}) + 1)"
    elif isinstance(kind, Leb):
        size = f"{path}.count"
    elif isinstance(kind, (Filled, Numeral)):
        size = str(kind.width)
    elif isinstance(kind, Listing):
        size = f"(length {path}.bytes.now)"
    size = said_sum(struct, of.within) if of.within else size
    return f"({size} + padding_len {size} {of.padded})" if size and of.padded else size


def fact_of(struct: Struct, of: Field, place: str) -> Optional[str]:
    """Returns what a reader can say of a field that stands at a place."""
    kind, path, source = of.kind, f"x.{of.name}", f"(drop {bracket(place)} from.now)" if place != "0" else "from.now"
    if of.condition or of.within:
        return None
    if isinstance(kind, Number) and not kind.bits:
        where, leaf = kind.of.leaves(path)[0]
        said = SAID[leaf.type].replace("order", (of.order or struct.order or "order").capitalize().replace("Order", "order"))
        return f"{where} ≡ {said} {source}" if "[" not in where else None
    if isinstance(kind, Slice):
        return f"{path}.now ≡ take {said_sum(struct, kind.count)} {source}"
    return f"{path}.bytes.now ≡ take {table_size(struct, kind)} {source}" if isinstance(kind, Table) else None


def sum_of(sizes: Sequence[str]) -> str:
    """A sum as a format has it."""
    return sizes[0] if len(sizes) == 1 else f"{sizes[0]} + {bracket(sum_of(sizes[1:]))}"


def facts_of(struct: Struct) -> List[str]:
    """Returns what a reader can say of a struct, up to a field whose size isn't simple."""
    facts: List[str] = []
    sizes: List[str] = []
    place = "0"
    for part in struct.parts:
        kind = part.fields[0].kind
        if isinstance(kind, Gap) and kind.multiple:
            whole = bracket(sum_of(sizes))
            sizes = [f"({whole} + padding_len {whole} {kind.multiple})"]
            place = sizes[0]
            continue
        begin = 0
        for it in part.fields:
            here = place if not begin else str(begin) if place == "0" else f"{place} + {begin}"
            facts += [found for found in [fact_of(struct, it, here)] if found]
            begin += it.kind.of.width if isinstance(it.kind, Number) else 0
        size = str(part.width) if part.width else size_of(struct, part.fields[0])
        if not size:
            break
        sizes.append(size)
        place = size if place == "0" else f"{place} + {size}"
    return facts


def least_of(struct: Struct) -> int:
    """Returns the size of the first part, for which a shorter source is refused, or 0."""
    first = struct.parts[0]
    kind = first.fields[0].kind
    if isinstance(kind, Inner) and first.fields[0].is_plain and not kind.struct.is_given:
        return least_of(kind.struct)
    if isinstance(kind, Tagged) and first.fields[0].is_plain and kind.enum.is_own:
        return kind.enum.tag.width
    return first.width


def is_plain(kind: Kind) -> bool:
    """Returns whether values are equal where what they say is: none borrows, or holds a proof."""
    if isinstance(kind, Tagged):
        return all(is_plain(it) for variant in kind.enum.variants for it in variant.kinds)
    if isinstance(kind, Inner):
        return all(is_plain(it.kind) for it in kind.struct.fields)
    return isinstance(kind, (Gap, Number))


def back_of(of: Field) -> Optional[Back]:
    """Returns what a user reads back of a field."""
    kind, path = of.kind, f".{of.name}"
    if of.condition and isinstance(kind, (Filled, Listing)):
        # (what `match` takes out of such an option isn't found)
        return Back(of.type, path, seen=".now" if isinstance(kind, Filled) else ".bytes.now", is_rare=True)
    if isinstance(kind, (Filled, Slice)) or (isinstance(kind, Ended) and kind.byte >= 0):
        return Back(kind.type, path, "{}.now", other=of.condition and ('""' if "str" in kind.type else "&[]") or "")
    if isinstance(kind, (Leb, Numeral)):
        type_ = "i64" if kind.is_signed else "u64"
        return Back(type_, path, part=".value", other="0") if of.condition else Back(type_, f"{path}.value")
    if isinstance(kind, (Table, Listing)):
        whole = Back("&'a [u8]", f"{path}.bytes", "{}.now")
        return whole._replace(path=path, part=".bytes", other="&[]") if of.condition else whole
    if of.condition or isinstance(kind, Tagged):
        return Back(of.type, path, is_rare=True) if is_plain(kind) else None
    if isinstance(kind, Number):
        inner, leaf = kind.of.parts[-1] if isinstance(kind.of, Group) and kind.of.is_struct else ("", kind.of)
        return Back(leaf.type, path + inner)
    if isinstance(kind, Ended):
        return Back(kind.type, path, "c_str_text {}")
    back = draw_back(kind.struct) if isinstance(kind, Inner) else None
    return back and back._replace(path=path + back.path)


def draw_back(struct: Struct) -> Optional[Back]:
    """Returns what a user reads back of a field that can be."""
    found, rng = [back for back in map(back_of, struct.fields) if back], random.Random(struct.print())
    rare = [it for it in found if it.is_rare or it.other]
    return rng.choice(rare if rare and rng.random() < 0.6 else found) if found else None


def draw_whole(made: Drawn) -> Optional[Back]:
    """Returns what a user reads back of a struct, or an enum as a whole."""
    back = draw_back(made.struct)
    return back._replace(path="") if back and isinstance(made.top, Enum) else back


def print_users(made: Drawn) -> str:
    """Prints a reader, a writer, a walk over a list, a read of what a pointer says, and without floats a copier."""
    struct, of = made.struct, made.struct.error
    error = of.name if of else "Error"
    name, facts, least, back = struct.name.lower(), facts_of(struct), least_of(struct), draw_whole(made)
    named = zip(("first", "behind"), [*facts[:1], *facts[1:][-1:]])
    clauses = [f"{word} {{ IfOk result (λ x. {fact}) }}" for word, fact in named]
    if least:
        refused = f"TooBig {least} (length from.now)"
        refused = refused if not of else f"small.{refused}" if of.is_small else f"Refused ({refused})"
        clauses.append(f"short {{ length from.now < {least} → IfErr result (λ e. e ≡ {refused}) }}")
    lines = "".join(f"    ensures {it}\n" for it in clauses)
    text = f"""pub fn read_{name}(from: &[u8], order: Endian) -> Result<{struct.name}, {error}>
{lines}{{
    from.pread_with(0, order)
}}
"""
    if back:
        life, entry = "<'a>" if "'a" in back.type else "", ".entry" if "'a" in made.top.type else ""
        text += f"""
pub fn again_{name}{life}(target: &{life[1:3]} mut [u8], value: {struct.name}, order: Endian) -> Result<{back.type}, {error}>
    ensures {{ IfOk result (λ x. {back.clause(f"value{entry}")}) }}
{{
    slice::gwrite_with(target, value, &mut 0, order)?;
    let again: {struct.name} = (&*target).pread_with(0, order)?;
{back.code()}}}
""".replace("& mut", "&mut")
    if made.top.mark == KEPT:
        has_life = "'a" in made.top.type
        life, entry, named = ("<'a>", ".entry", "'a") if has_life else ("", "", "'static")
        reads = f"⟦<{made.top.type} as Kept<{named}, Endian>>⟧.reads order"
        text += f"""
pub fn keep_{name}{life}(to: &mut [u8], value: {made.top.type}, at: usize, order: Endian) -> Result<usize, {error}>
    ensures {{ IfOk result (λ n. ReadsAt ({reads}) to.new at value{entry} n) }}
{{
    let mut offset = at;
    let size = write_kept(to, value, &mut offset, order)?;
    Ok(size)
}}
"""
    walked = next((it for it in struct.fields if isinstance(it.kind, Listing) and not it.condition), None)
    if walked:
        values = WALKS.get(walked.kind.how, "values")
        text += f"""
pub fn count_{name}(value: {struct.name}) -> usize {{
    let mut count: usize = 0;
    for _ in value.{walked.name}.{values}() {{
        count = count.saturating_add(1);
    }}
    count
}}
"""
    for field, kind in pointers_of(struct)[:1]:
        entry, target = ".entry" if "'a" in made.top.type else "", kind.target
        is_fixed = isinstance(target, Group)
        read, item, its_error = ("read_fixed", target.type, "Error") if is_fixed else ("read", target.item.type, error)
        text += f"""
pub fn point_{name}<'a>(file: &'a [u8], value: {struct.name}, order: Endian) -> Result<{item}, At<{its_error}>>
    ensures {{ IfErr result (λ located. located.offset ≡ value{entry}.{field}.offset) }}
{{
    value.{field}.{read}(file, order)
}}
"""
    if struct.is_exact:
        text += f"""
pub fn copy_{name}(from: &[u8], to: &mut [u8], order: Endian) -> Result<usize, {error}>
    ensures {{ IfOk result (λ n. take n to.new ≡ take n from.now) }}
{{
    let value: {struct.name} = from.pread_with(0, order)?;
    slice::gwrite_with(to, value, &mut 0, order)
}}
"""
    return text


def print_module(made: Drawn, crate: str) -> str:
    """Prints the module of a struct and what is in it."""
    error = made.struct.error
    declared = f"Rattle.{crate}.specs.declared.{made.struct.name.lower()}"
    variants = f"ghost use {declared}.{error.name}.TheVariants.{{Refused}};\n" if error and not error.is_small else ""
    return read("module").replace("@variants@", variants) + "\n".join([*(it.print() for it in made.items), print_users(made)])
