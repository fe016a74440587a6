"""Text: tuples and calls, and their layout.

What is printed is made on lines of any length. `lay_out` breaks clauses, and `rt fmt` the rest.
"""

import contextlib
import re
import subprocess
import tempfile
from pathlib import Path
from typing import Callable, Iterator, List, Sequence, Tuple

from tokens import OWN, Refused

# A tuple has at most so many parts.
MOST = 4

# The longest line.
WIDTH = 100

# The words that antt reserves and that can be the name of a field here.
RESERVED = {
    *("data", "record", "module", "package", "open", "unfoldable", "abbrev", "axiom", "unfold", "unfolding", "ruleset"),
    *("mutual", "infix", "infixl", "infixr", "elim", "coe", "fcoe", "tcoe", "hcom", "com", "where"),
}


def label(name: str) -> str:
    """Returns the name of a field as antt says it."""
    return f"«{name}»" if name in RESERVED else name


def alias_of(name: str) -> str:
    """Returns what an enum's variants stand behind in the logic, where two enums may have variants of one name."""
    return re.sub(r"(?<=[a-z0-9])(?=[A-Z])", "_", name.replace(OWN, "")).lower() + "_is"


def lifetime(type_: str) -> str:
    return "<'a>" if "'a" in type_ else ""


# Tuples and calls


def call(name: str, *arguments: str) -> str:
    """Returns a call, or a tuple where it has no name."""
    return f"{name}({', '.join(arguments)})"


def record(*items: str) -> str:
    """Returns a struct in the logic."""
    return "record { " + "; ".join(f"{at} = {it}" for at, it in enumerate(items)) + " }" if items else "record {}"


def right(parts: Sequence[str]) -> str:
    """Returns parts in pairs, in the second place of which the next one stands."""
    return parts[0] if len(parts) == 1 else call("", parts[0], right(parts[1:]))


def in_tuple(parts: Sequence[str]) -> str:
    return call("", *parts)


def groups(count: int) -> List[int]:
    """Returns how many parts each part of the outer tuple has."""
    most = 1
    while MOST * most < count:
        most *= MOST
    return [min(most, count - at) for at in range(0, count, most)]


def nested(parts: Sequence[str], made: Callable[[Sequence[str]], str] = in_tuple) -> str:
    """Returns parts in tuples of two to four, nested where there are more."""
    if len(parts) == 1:
        return parts[0]
    left = [*parts]
    return made([nested([left.pop(0) for _ in range(count)], made) for count in groups(len(parts))])


def paths(count: int, path: str, in_pairs: bool = False) -> List[str]:
    """Returns the path to each part of nested tuples; or where a tuple is a pair of its first part and the others."""
    if count == 1:
        return [path]
    counts = groups(count)
    ends = [".1" * at + ".0" * (at + 1 < len(counts)) if in_pairs else f".{at}" for at in range(len(counts))]
    return [it for end, length in zip(ends, counts) for it in paths(length, path + end, in_pairs)]


# Layout


def outside(text: str) -> Iterator[Tuple[int, str]]:
    """Returns the letters of a text outside brackets and quotes, with their places, and the brackets that are closed."""
    depth, is_quoted = 0, False
    for place, char in enumerate(text):
        is_quoted ^= char == '"'
        if is_quoted:
            continue
        before = text[place - 1 : place]
        depth -= char in ")}]" or (char == ">" and before not in (" ", "-", "="))
        if depth == 0:
            yield place, char
        depth += char in "({[" or (char == "<" and before not in ("", " "))


def split_top(text: str, sign: str) -> List[str]:
    """Returns the parts of a text between signs."""
    places = [place for place, char in outside(text) if char == sign and text.startswith(" ", place + 1)]
    return [text[start:end] for start, end in zip([0, *(it + 2 for it in places)], [*places, len(text)])]


def is_whole(text: str, opening: str) -> bool:
    """Returns whether the bracket that a text begins with is closed at its end."""
    return text.startswith(opening) and next((at for at, char in outside(text) if char in ")}]"), -1) == len(text) - 1


def lay_out_ghost(head: str, text: str, tail: str, indent: int) -> List[str]:
    """Returns a clause. A long one is broken in its brackets, or before its signs."""
    space = " " * indent
    line = f"{space}{head}{text}{tail}"
    if len(line) <= WIDTH:
        return [line]
    if is_whole(text, "(") and len(split_top(text[1:-1], ",")) > 1:
        inside = [row for part in split_top(text[1:-1], ",") for row in lay_out_ghost("", part, ",", indent + 2)]
        return [f"{space}{head}(", *inside, f"{space}){tail}"]
    if is_whole(text, "record {"):
        fields = [part.partition(" = ") for part in split_top(text[8:-1].strip(), ";")]
        inside = [row for name, _, value in fields for row in lay_out_ghost(f"{name} = ", value, ";", indent + 2)]
        return [f"{space}{head}record {{", *inside, f"{space}}}{tail}"]
    return filled(f"{space}{head}".rstrip(), re.split(r" (?=[×⊎] |\(codes |\(λ v\. )", text + tail), " " * (indent + 3))


def filled(row: str, words: Sequence[str], space: str) -> List[str]:
    """Returns words behind the first row in rows of the full width."""
    lines = []
    for word in words:
        if len(row) + 1 + len(word) > WIDTH and row.strip():
            lines.append(row)
            row = space
        row += f" {word}"
    return [*lines, row]


def lay_out(line: str) -> List[str]:
    """Returns a line, in more lines if it is a long clause."""
    said = line.lstrip(" ")
    found = re.fullmatch(r"(ghost \w+ = \{ (?:λ [^.]*\. )?)(.*)( \};)", said)
    return lay_out_ghost(found[1], found[2], found[3], len(line) - len(said)) if found else [line]


def formatted(texts: Sequence[str]) -> List[str]:
    """Returns files as `rt fmt` lays them out, which leaves clauses as they are; or as they are where there is no `rt`."""
    if not texts:
        return []
    with tempfile.TemporaryDirectory() as room:
        paths = [Path(room) / "src" / f"file{at}.rt" for at in range(len(texts))]
        (Path(room) / "src").mkdir()
        for path, text in zip(paths, texts):
            path.write_text(text, encoding="utf-8")
        with contextlib.suppress(FileNotFoundError):
            ran = subprocess.run(["rt", "fmt"], cwd=room, stdout=subprocess.PIPE, stderr=subprocess.STDOUT, text=True, check=False)
            if ran.returncode:
                raise Refused("rt fmt", 0, f"what is printed isn't read: {ran.stdout.strip()}")
        return [path.read_text(encoding="utf-8") for path in paths]
