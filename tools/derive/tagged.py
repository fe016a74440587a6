"""Prints the parts of an enum whose first part is its own tag: a head, and one of its values."""

from typing import List

from model import Enum
from sums import Value
from text import lifetime


def tagged_texts(form: Enum, error: str, parts: str, context: str, said: Value) -> List[str]:
    """Returns the implementations of `Split`, `Part` and `ReadPart`. The parts are a pair in a context."""
    cases = [f"(record {{ 0 = {it.own_tag.ghost} }}, {form.ghost(at)})" for at, it in enumerate(form.variants)]
    made, proof, _ = form.again()
    whole = f"⟦<{form.type} as Split>⟧"
    arms = "".join(f"\n{form.pattern(it)} => (Run({it.own_tag.code}), {form.chosen(at, it.code)})," for at, it in enumerate(form.variants))

    def format_of(part: str) -> str:
        return f"""    ghost format = {{ λ _. shape (⟦<{parts} as {part}{context}, {error}>>⟧.format
        ({said.ghost})) {whole}.parts_of
        (parts-unique {whole}.parts_of
        {whole}.of_parts
        {whole}.again) }};"""

    def call(name: str, arguments: str) -> str:
        lines = ("let parts = self.split();", f"let ctx = {said.code};", f"Part::<{context}, {error}>::{name}(&parts, {arguments}, &ctx)")
        return "\n".join(f"        {it}" for it in lines)

    return [
        f"""impl{lifetime(form.type)} Split for {form.type} {{
    type Parts = {parts};

    ghost parts_of = {{ elim [{form.cases(cases, 6)}
    ] }};

    ghost of_parts = {{ {made} }};

    ghost again = {{ {proof} }};

    fn split(&self) -> {parts} {{
        match self {{{arms}
        }}
    }}
}}""",
        f"""impl{lifetime(form.type)} Part<(), {error}> for {form.type} {{
{format_of("Part<")}

    fn check(&self, order: Endian, _ctx: &()) -> Result<(), {error}> {{
{call("check", "order")}
    }}

    fn size(&self, order: Endian, _ctx: &()) -> usize {{
{call("size", "order")}
    }}

    #[inline(always)]
    fn put(&self, dst: &mut [u8], order: Endian, _ctx: &()) {{
{call("put", "dst, order")}
    }}
}}""",
        f"""impl<'a> ReadPart<'a, (), {error}> for {form.type} {{
{format_of("ReadPart<'a, ")}

    #[inline(always)]
    fn read_at(from: &'a [u8], offset: usize, order: Endian, _ctx: &()) -> Result<({form.type}, usize), {error}> {{
        let ctx = {said.code};
        let (read, end) = <{parts} as ReadPart<'a, {context}, {error}>>::read_at(from, offset, order, &ctx)?;
        let (_tag, value) = read;
        let made = match value {{{form.arms()}
        }};
        Ok((made, end))
    }}

    #[inline(always)]
    fn end_at(from: &'a [u8], offset: usize, order: Endian, ctx: &()) -> Option<usize> {{
        match <{form.type} as ReadPart<'a, (), {error}>>::read_at(from, offset, order, ctx) {{
            Ok((_value, end)) => Some(end),
            Err(_error) => None,
        }}
    }}
}}""",
    ]
