"""What makes a value of its parts again: the inverse of what says the parts in the logic."""

import re
from dataclasses import dataclass
from typing import Iterator, List, NamedTuple

from text import is_whole, label, split_top

# (the type of a list as a part is written, since it can't be found by the prover)
WRAPPED = re.compile(r"option_map (?:\{U = (.*?)\} )?\(λ v\. (.*)\) (\S+)")


@dataclass(frozen=True)
class Leaf:
    """A value that stands in the parts: how it is taken out of them, and a proof that it is there again, if it isn't by itself."""

    name: str
    taken: str
    proof: str


class Inverse(NamedTuple):
    """What makes a value of its parts, the proof that it has nothing else, and the proof that its parts are these."""

    made: str
    again: str
    there: str


def leaves_of(said: str, path: str) -> Iterator[Leaf]:
    """Returns the values in what is said of the parts."""
    if is_whole(said, "("):
        for at, it in enumerate(split_top(said[1:-1], ",")):
            yield from leaves_of(it, f"{path}.{at}")
    elif is_whole(said, "record {"):
        for it in split_top(said[8:-1].strip(), ";"):
            name, _, value = it.partition(" = ")
            if name:
                yield from leaves_of(value, f"{path}.{name}")
    elif found := WRAPPED.fullmatch(said):
        type_, part, value = found.groups()
        [inside] = leaves_of(part, "v")
        lemma = "record-again" if "record" in part.partition("=")[2] else "number-again"
        if type_:
            lemma = f"option-again {{B = {type_}}} (λ v. {part}) (λ v. {inside.taken}) (λ v. refl)"
        yield Leaf(value, f"option_map (λ v. {inside.taken}) {path}", f"{lemma} {value}")
    else:
        yield Leaf(said, path, "")


def there_of(said: str, path: str) -> str:
    """Returns, for parts that stand at a path, what is said of them of the value that was made of them, as a proof that they are the same."""
    if is_whole(said, "("):
        return "(" + ", ".join(there_of(it, f"{path}.{at}") for at, it in enumerate(split_top(said[1:-1], ","))) + ")"
    if is_whole(said, "record {"):
        fields = [it.partition(" = ") for it in split_top(said[8:-1].strip(), ";")]
        return "record { " + "; ".join(f"{name} = {there_of(value, f'{path}.{name}')}" for name, _, value in fields if name) + " }"
    if found := WRAPPED.fullmatch(said):
        type_, part, _ = found.groups()
        [inside] = leaves_of(part, "v")
        lemma = "record-there" if "record" in part.partition("=")[2] else "number-there"
        if type_:
            lemma = f"option-again {{A = {type_}}} (λ v. {inside.taken}) (λ v. {part}) (λ v. refl)"
        return f"{lemma} {path} i"
    return path


def struct_again(said: str, names: List[str]) -> Inverse:
    """Returns the struct of its parts, and the proofs. (A field that isn't there is of zeros.)"""
    leaves = {it.name: it for it in leaves_of(said, "p")}
    fields = [(label(it), leaves.get(f"x.{label(it)}", Leaf(f"x.{label(it)}", "record {}", ""))) for it in names]
    value = "record { " + "; ".join(f"{name} = {it.taken}" for name, it in fields) + " }"
    if not any(it.proof for _, it in fields):
        return Inverse(f"λ p. {value}", "λ x. refl", "λ p. refl")
    proofs = "; ".join(f"{name} = {f'{it.proof} i' if it.proof else it.name}" for name, it in fields)
    return Inverse(f"λ p. {value}", f"λ x i. record {{ {proofs} }}", f"λ p i. {there_of(said, 'p')}")


def variant_again(said: str, made: str, names: List[str], path: str) -> Inverse:
    """Returns a variant of its parts, and the proofs, of which the second is without its `First` and `Second`."""
    leaves = {it.name: it for it in leaves_of(said, path)}
    found = [leaves.get(it, Leaf(it, "record {}", "")) for it in names]
    taken = " ".join([made, *(f"({it.taken})" if " " in it.taken else it.taken for it in found)])
    if not any(it.proof for it in found):
        return Inverse(taken, "refl", "")
    again = "λ i. " + " ".join([made, *(f"({it.proof} i)" if it.proof else it.name for it in found)])
    return Inverse(taken, again, there_of(said, path))
