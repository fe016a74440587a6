"""Prints the implementations for structs of any size, enums and lists."""

import re
from typing import Any, Dict, List, NamedTuple, Set, Tuple

from forms import Part, fixed_type, local
from inverses import Inverse, struct_again
from model import Enum, ListType, Struct
from records import made_of
from shapes import Chain, Group, resolve
from sums import Value
from tagged import tagged_texts
from text import call, lifetime, record


class ListEnd(NamedTuple):
    """Where a list ends: the trait that says it, and which bytes are a list; and what the implementation of that trait has before
    and behind the two laws of each list."""

    trait: str
    said: str
    before: str = ""
    behind: str = ""


class Printer:
    """Prints a struct, an enum or a list. `names` are the types that are printed."""

    def __init__(self, form: Any) -> None:
        self.form, self.name, self.type = form, form.item.name, form.type
        self.error = form.error.name if form.error else "Error"
        self.life = lifetime(form.type)
        self.texts: List[str] = []
        self.names: Set[str] = set()

    def print(self) -> List[str]:
        {Struct: self.print_struct, Enum: self.print_enum, ListType: self.print_list}[type(self.form)]()
        return self.texts

    def alias(self, name: str, type_: str) -> str:
        """Gives a type a name."""
        self.names.add(name)
        self.texts.append(f"type {name}{lifetime(type_)} = {type_};")
        return name + lifetime(type_)

    def print_chain(self, chain: Chain) -> None:
        """Prints the heads of some parts, and the types that have names, such as of what is padded."""
        for part in chain.parts:
            if part.inside:
                self.print_chain(part.inside)
                for name, type_ in part.aliases:
                    self.alias(name, type_)
        for part in chain.parts:
            if part.type.startswith(f"Run<{self.name}Numbers"):
                self.alias(part.type[len("Run<") : -1], fixed_type(part.fields))
        for at in reversed(range(len(chain.groups))):
            group = chain.groups[at]
            if group.head:
                head = self.alias(chain.called("Head", at), group.head.type)
                self.alias(chain.called("Next", at), group.context_type)
                self.print_head(chain.called("Says", at), head, chain.called("Next", at), group)
            if at > 0:
                self.alias(chain.called("Rest", at), chain.types[at])

    def print_head(self, says: str, head: str, following: str, group: Group) -> None:
        assert group.head
        self.names.add(says)
        kinds = call("", *(f"pub {self.kinds[it]}" for it in group.told)) if group.told else ""
        rules, (ghosts, codes), context = group.head.rules, group.said(), group.context()
        holds, fails = " × ".join(it.holds for it in rules) or "Unit {0}", "⊥"
        for rule in reversed(rules):
            fails = rule.fails if fails == "⊥" else f"({rule.fails}) ⊎ ({rule.holds} × ({fails}))"
        holds, fails = resolve(holds, ghosts), resolve(fails, ghosts)
        obey = resolve("".join(it.code for it in rules), codes)
        c = "c" if re.search(r"\bc\.\d", f"{holds} {fails} {context.ghost}") else "_"
        tests, gives = ("head" if "head" in it else "_head" for it in (obey, context.code))
        self.texts += [
            f"#[derive(Drop)]\npub struct {says}{kinds};",
            f"""impl{lifetime(head)} Head<{head}, {self.error}> for {says} {{
    type Next = {following};

    ghost holds = {{ λ {c} h. {holds} }};

    ghost fails = {{ λ {c} h e. {fails} }};

    ghost next = {{ λ {c} h. {context.ghost} }};

    fn obey(&self, {tests}: &{head}) -> Result<(), {self.error}> {{{obey}
        Ok(())
    }}

    fn next(&self, {gives}: &{head}) -> {following} {{
        {context.code}
    }}
}}""",
        ]

    def print_shape(self, given: Tuple[str, str], whole: Part, split: str, join: str, inverse: Inverse) -> None:
        """Prints `Shape`."""
        parts, context = self.alias(f"{self.name}Parts", whole.type), self.alias(f"{self.name}Ctx", whole.context_type)
        ctx = "ctx" if "ctx" in whole.context.code else "_ctx"
        ctx_type, name = given
        self.texts.append(
            f"""impl{self.life} Shape for {self.type} {{
    type Ctx = {ctx_type};

    type Inner = {context};

    type Parts = {parts};

    ghost parts_of = {{ {whole.ghost} }};

    ghost of_parts = {{ {inverse.made} }};

    ghost again = {{ {inverse.again} }};

    ghost there = {{ {inverse.there} }};

    ghost inner_of = {{ λ {name}. {whole.context.ghost} }};

    fn split(&self) -> {parts} {{{split}
    }}

    fn join(parts: {parts}) -> {self.type} {{{join}
    }}

    fn inner({ctx}: &{ctx_type}) -> {context}
        ensures {{ result ≡ ⟦<{self.type} as Shape>⟧.inner_of {ctx}.now }}
    {{
        {whole.context.code}
    }}
}}"""
        )

    def print_struct(self) -> None:
        form: Struct = self.form
        chain = Chain(self.name, form.parts, max([1, *(it.inside.end for it in form.parts if it.inside)]))
        every = [*chain.parts, *(it for part in chain.parts if part.inside for it in part.inside.parts)]
        self.kinds: Dict[str, str] = {form.given: "usize", **{it.name: it.type for part in every for it in part.numbers}}
        self.print_chain(chain)
        whole = chain.whole
        if form.multiple:
            whole = whole.around("Padded", "", *form.multiple)
        if form.order:
            whole = whole.around("Ordered", "", *form.order)
        split, join = f"{chain.before}\n        {whole.split}", f"\n        let {whole.join} = parts;{chain.after}"
        names = [it.name for it in form.item.fields]
        values = ["Zeros" if it in form.gaps else local(it) for it in names]
        join += f"\n        {made_of(self.name, names, values)}"
        again = struct_again(whole.ghost, names)
        whole.type, whole.ghost = chain.types[0], f"λ x. {whole.ghost}"
        whole.context = Value(*(resolve(it, {form.given: said}) for it, said in zip(whole.context, ("n", "(*ctx)"))))
        self.print_shape(("usize", "n") if form.given else ("()", "_"), whole, split, join, again)
        if not form.item.is_part:
            self.print_calls("usize" if form.given else "")

    def print_list(self) -> None:
        """Prints which bytes are a list, the type of its values, and where one ends."""
        form: ListType = self.form
        always = form.of.replace("'a", "'static")
        end = self.list_end(f"(⟦<{always} as ReadPart<'static, (), {self.error}>>⟧.format tt)")
        self.texts += [
            f"impl IsList for {self.name} {{\n    ghost is_list = {{ λ order s n. {end.said} }};\n}}",
            f"""impl<'a> Listed<'a> for {self.name} {{
    type Error = {self.error};

    type Item = {form.of};

    ghost item = {{ ⟦<{form.of} as ReadPart<'a, (), {self.error}>>⟧.format tt }};

    #[inline(always)]
    fn read_item(from: &'a [u8], offset: usize, order: Endian) -> Result<({form.of}, usize), {self.error}> {{
        <{form.of} as ReadPart<'a, (), {self.error}>>::read_at(from, offset, order, &())
    }}

    #[inline(always)]
    fn end_item(from: &'a [u8], offset: usize, order: Endian) -> Option<usize> {{
        <{form.of} as ReadPart<'a, (), {self.error}>>::end_at(from, offset, order, &())
    }}
}}""",
            f"""impl<'a> {end.trait}<'a> for {self.name} {{
{end.before}    ghost from_values = {{ λ order s n h. h }};

    ghost into_values = {{ λ order s n h. h }};{end.behind}
}}""",
        ]
        if form.ends.startswith("["):
            self.print_mark(form.ends)

    def list_end(self, item: str) -> ListEnd:
        """Returns where a list of values ends whose format is said so."""
        form: ListType = self.form
        if form.ends:
            end = self.name if form.ends.startswith("[") else form.ends
            said = f"CountedMarked ⟦<{end} as EndMark>⟧.mark\n        {item} order s (length s) n"
            return ListEnd("Marked", said, f"    type End = {end};\n\n")
        if not form.last:
            return ListEnd("Unmarked", f"CountedItems\n        {item} order s 0 (length s) n")
        closes = f"λ x. {form.last.ghost}"
        said = f"CountedClosed\n        {item} ({closes})\n        order s (length s) n"
        is_last = f"""

    #[inline(always)]
    fn is_last(x: &{form.of}) -> bool {{
        {form.last.code}
    }}"""
        return ListEnd("Closed", said, f"    ghost closes = {{ {closes} }};\n\n", is_last)

    def print_mark(self, ends: str) -> None:
        """Prints that a list ends with fixed bytes."""
        mark = f"bytes_mark ({' ∷ '.join([*ends[1:-1].split(', '), '[]'])})"
        self.texts.append(
            f"""impl EndMark for {self.name} {{
    ghost mark = {{ {mark} }};

    #[inline(always)]
    fn mark_size(from: &[u8]) -> Option<usize>
        ensures {{ result ≡ ({mark}).size from.now }}
    {{
        begins_with(from, &{ends})
    }}
}}"""
        )

    @staticmethod
    def print_part(name: str) -> str:
        """Prints the type around a list of some kind that is a part of structs."""
        return f"""#[derive(Drop)]
pub struct {name}Part<'a>(pub Items<'a, {name}>);

impl<'a> ListPart<'a> for {name}Part<'a> {{
    type Kind = {name};

    ghost seen = {{ λ x. record {{ bytes = x.0.bytes.now; order = x.0.order; count = x.0.count }} }};

    #[inline(always)]
    fn of(bytes: &'a [u8], order: Endian, count: usize) -> {name}Part<'a> {{
        {name}Part(Items::of(bytes, order, count))
    }}

    #[inline(always)]
    fn parts(&self) -> (&'a [u8], Endian, usize) {{
        (self.0.bytes, self.0.order, self.0.count)
    }}
}}"""

    def print_calls(self, given: str = "") -> None:
        """Prints what the calls that read and write take, perhaps beside the byte order what the value is given."""
        name, error = self.type, self.error
        reads, read = ("ReadsExact", "read_exact") if self.form.is_exact else ("ReadsWhole", "read_whole")
        gives = self.form.error.gives if self.form.error else "(λ e d. d ≡ e)"
        if given:
            inner, context, value, ctx = f"Given<{given}>", f"(Endian, {given})", "\n        (record { 0 = c.1 })", "ctx.0, &Given(ctx.1)"
        else:
            inner, context, value, ctx = "()", "Endian", " tt", "ctx, &()"
        bound, order = ("c", "c.0") if given else ("order", "order")
        read_format = f"(⟦<{name} as ReadPart<'a, {inner}, {error}>>⟧.format{value})"
        write_format = f"(⟦<{name} as Part<{inner}, {error}>>⟧.format{value})"

        reads, writes, keeps = f"{reads} {read_format}", f"WritesWhole {write_format}", f"KeepsWhole {gives}\n        {write_format}"

        def relation(said: str) -> str:
            return f"λ c. {said} c.0" if given else said

        self.texts += [
            f"""impl<'a> TryFromCtx<'a, {context}> for {name} {{
    type Error = {error};

    ghost reads = {{ {relation(reads)} }};

    ghost refuses = {{ λ {bound} s.
        refuses {read_format} {order} s 0 }};

    ghost reads_bounded = {{ λ {bound} s x n h. Prim.search rules }};

    #[inline(always)]
    fn try_from_ctx(from: &'a [u8], ctx: {context}) -> Result<({name}, usize), {error}> {{
        {read}::<{inner}, {error}, {name}>(from, {ctx})
    }}
}}""",
            f"""impl{self.life} TryIntoCtx<{context}> for {name} {{
    type Error = {error};

    ghost writes = {{ {relation(writes)} }};

    ghost refuses = {{ {relation(keeps)} }};

    ghost writes_bounded = {{ λ {bound} x old new n h. Prim.search rules }};

    ghost writes_keeps = {{ λ {bound} x old new n h. WritesPrefix-keeps _ old new n h.wrote }};

    #[inline(always)]
    fn try_into_ctx(self, dst: &mut [u8], ctx: {context}) -> Result<usize, {error}> {{
        write_whole::<{inner}, {error}, {name}>(&self, dst, {ctx})
    }}
}}""",
        ]
        if self.form.item.is_kept:
            self.texts.append(
                f"""impl<'a> Kept<'a, Endian> for {self.type} {{
    ghost reads = {{ ReadsBack {read_format} }};

    ghost fits = {{ λ _. Unit {{0}} }};

    fn fit(self) {{}}

    ghost back = {{ λ order x old new rest n fits h. whole-kept _ order x old new n h rest }};

    fn returned(self) {{
        kept_{"exact" if self.form.is_exact else "whole"}::<(), {self.error}, {self.type}>(&self, &())
    }}
}}"""
            )

    def choices(self, at: int = 0) -> Part:
        """The variants from one on as one part: its type and that of its context, and the context."""
        form: Enum = self.form
        it = form.variants[at]
        tag = ("@tag@", "@tag@") if form.is_own else ("t.0", "ctx.0") if form.given else ("t", "*ctx")
        own = Value(*(resolve(said, {form.given: n}) for said, n in zip(it.part.context, ("t.1", "ctx.1"))))
        if at + 1 == len(form.variants):
            return Part(it.part.type, it.part.context_type, own)
        rest = self.choices(at + 1)
        said = Value(*(text.replace("@tag@", word) for text, word in zip(it.is_said("tag").said(), tag)))
        ghost = record(said.ghost, own.ghost, rest.context.ghost)
        context = Value(ghost, call("Choose", said.code, own.code, rest.context.code))
        types, kinds = f"Choice<{it.part.type}, {rest.type}>", f"Choose<{it.part.context_type}, {rest.context_type}>"
        return Part(types, kinds, context)

    def print_enum(self) -> None:
        form: Enum = self.form
        whole = self.choices()
        if form.head:
            chain = Chain(self.name, [form.head, whole], 1)
            self.print_chain(chain)
            parts = self.alias(f"{self.name}Parts", chain.types[0])
            context = self.alias(f"{self.name}Ctx", chain.whole.context_type)
            self.texts += tagged_texts(form, self.error, parts, context, chain.whole.context)
            if not form.item.is_part:
                self.print_calls()
            return
        split, join = "\n        match self {", f"\n        match parts {{{form.arms()}"
        for at, it in enumerate(form.variants):
            split += f"\n            {form.pattern(it)} => {form.chosen(at, it.code)},"
        cases = form.cases([form.ghost(at) for at in range(len(form.variants))], 6)
        whole.ghost = f"elim [{cases}\n    ]"
        self.print_shape((form.context_type, "t"), whole, f"{split}\n        }}", f"{join}\n        }}", form.again())
        if not form.item.is_part:
            self.print_calls(form.context_type)
