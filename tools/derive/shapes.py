"""Parts one after another, in groups: a head, and the parts whose contexts it says."""

from dataclasses import dataclass, field, replace
from typing import Dict, List, Optional, Sequence, Set, Tuple

from forms import Part, nothing
from sums import PLACE, Value
from text import call, lifetime, record, right


def names_in(parts: Sequence[Part], with_contexts: bool = True) -> Set[str]:
    """Returns the numbers that the rules, and the contexts, of some parts name."""
    texts = [it for part in parts for rule in part.rules for it in rule]
    texts += [it for part in parts for it in part.context if with_contexts]
    return {name for it in texts for name in PLACE.findall(it)}


def resolve(text: str, said: Dict[str, str]) -> str:
    """Puts what is said of numbers in the place of their names; a name that isn't known stays."""
    return PLACE.sub(lambda it: said.get(it[1], it[0]), text)


@dataclass
class Group:
    """A head, or none; what is behind it, the last of which are the parts of the next group; the numbers that it is told."""

    head: Optional[Part]
    parts: List[Part] = field(default_factory=list)
    index: int = 0
    told: List[str] = field(default_factory=list)

    def said(self) -> Tuple[Dict[str, str], Dict[str, str]]:
        """Returns how the head says each number, in the logic and in code."""
        ghosts, codes = ({name: f"{word}.{at}" for at, name in enumerate(self.told)} for word in ("c", "self"))
        for it in self.head.numbers if self.head else []:
            ghosts[it.name], codes[it.name] = it.said("h").ghost, it.said("head" if it.way or it.is_length else "(*head)").code
        return ghosts, codes

    def context(self) -> Value:
        """The contexts of what is behind the head, by what that says."""
        return Value(*(resolve(right([it.context[at] for it in self.parts]), said) for at, said in enumerate(self.said())))

    @property
    def context_type(self) -> str:
        return right([it.context_type for it in self.parts])


class Chain:
    """The groups of a struct's parts, or of its first ones. `whole` is all of them as one part."""

    def __init__(self, name: str, parts: Sequence[Part], first: int) -> None:
        self.name, self.parts, self.groups, self.end = name, [*parts], grouped(parts), first
        for group in self.groups:
            if group.head:
                group.index, self.end = self.end, self.end + 1
        self.types = [""] * len(self.groups)
        behind: List[Part] = []
        for at in reversed(range(len(self.groups))):
            self.groups[at].parts += behind
            self.whole = self.join(at)
            behind = [replace(self.whole, type=self.called("Rest", at) + lifetime(self.types[at]))]
        self.before, self.after = ("".join(it) for it in zip(*((part.before, part.after) for part in parts)))

    def called(self, word: str, at: int) -> str:
        """Returns the name of a group's type."""
        index = self.groups[at].index
        return f"{self.name}{word}{index if index > 1 else ''}"

    def join(self, at: int) -> Part:
        """Returns the parts from a group on as one."""
        group = self.groups[at]
        head, parts = group.head, group.parts
        steps = [".1" * index + (".0" if index + 1 < len(parts) else "") for index in range(len(parts))]
        numbers = [it.behind(step) for part, step in zip(parts, steps) for it in part.numbers]
        said = [right([*it]) for it in zip(*((part.ghost, part.split, part.join) for part in parts))]
        self.types[at] = right([it.type for it in parts])
        if not head:
            return Part("", group.context_type, group.context(), *said, numbers=numbers)
        group.told = sorted((names_in(parts) | names_in([head], False)) - {it.name for it in head.numbers})
        told = [f"@{it}@" for it in group.told]
        self.types[at] = call("", self.called("Head", at) + lifetime(head.type), self.types[at])
        says = call(self.called("Says", at), *told) if told else self.called("Says", at)
        context = Value(
            record(head.context.ghost, record(*told), "record {}"), call("Headed", head.context.code, says, "PhantomData")
        )
        kind = f"Headed<{head.context_type}, {self.called('Next', at)}, {self.called('Says', at)}>"
        numbers = [*(it.behind(".0") for it in head.numbers), *(it.behind(".1") for it in numbers)]
        said = [call("", *it) for it in zip((head.ghost, head.split, head.join), said)]
        return Part("", kind, context, *said, numbers=numbers)


def grouped(parts: Sequence[Part]) -> List[Group]:
    """Returns groups of parts: what says a number that is named behind it, or has a rule, is a head."""
    groups: List[Group] = []
    for at, part in enumerate(parts):
        later = names_in(parts[at + 1 :])
        if part.rules or any(it.name in later for it in part.numbers):
            groups.append(Group(part))
        else:
            groups = groups or [Group(None)]
            groups[-1].parts.append(part)
    if not groups[-1].parts:
        groups[-1].parts.append(nothing())
    return groups


def together(chain: Chain, multiple: Value, index: int) -> Part:
    """Parts with zeros behind them up to a multiple of a size, counted from the first one. They are the padded ones so far."""
    name = f"{chain.name}Padded{index if index > 1 else ''}"
    made = chain.whole.around("Padded", name + lifetime(chain.types[0]), *multiple)
    aliases = ((name, chain.types[0]), (f"{name}Ctx", f"Padded<{chain.whole.context_type}>"))
    made = replace(made, context_type=f"{name}Ctx", before=chain.before, after=chain.after, inside=chain, aliases=aliases)
    made.is_exact, made.has_enum = all(it.is_exact for it in chain.parts), any(it.has_enum for it in chain.parts)
    return made


def leaving(chain: Chain, rest: Part, given: str) -> Part:
    """Parts, and what they leave of the bytes that the struct is given."""
    name, whole = f"{chain.name}Before", chain.whole
    context = Value(record(f"@{given}@", whole.context.ghost), call("Behind", f"@{given}@", whole.context.code))
    sides = [call("", *it) for it in ((whole.ghost, rest.ghost), (whole.split, rest.split), (whole.join, rest.join))]
    type_ = call("", name + lifetime(chain.types[0]), rest.type)
    made = Part(type_, f"Behind<{whole.context_type}>", context, *sides, chain.before + rest.before, chain.after + rest.after)
    made.is_exact = all(it.is_exact for it in (*chain.parts, rest))
    made.has_enum = any(it.has_enum for it in (*chain.parts, rest))
    made.inside, made.aliases = chain, ((name, chain.types[0]),)
    return made
