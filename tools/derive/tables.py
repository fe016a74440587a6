"""The table that stands before a printed implementation: where each field stands, how many bytes it has, and its notes."""

import re
from typing import Dict, List, Optional, Tuple

from crates import Crate
from fixed_types import width_of
from items import Item, Note, RawField, Type
from literals import number_of
from tokens import OWN

HEAD = ("field", "offset", "size", "notes")
# What ends a value whose size no number says.
ENDS = {"CStr": "up to a zero", "ToMark": "up to its mark", "ToLast": "up to its last value"}
LEAST = {"Uleb": "1 to 10", "Sleb": "1 to 10", "Vlq": "1 to 10", "Zigzag": "1 to 10"}


def table(crate: Crate, item: Item, words: Dict[str, int]) -> List[str]:
    """Returns the rows of a struct or an enum as lines of comments."""
    if "items" in item.notes:
        return comments([("values", "end"), (said(item.notes["items"]), end_of(item))])
    if item.is_enum:
        rows = [(it.name, said(it.notes["is"]), values_of(it), notes_of(it, ("is",))) for it in item.fields]
        own = [f"// {word} = {said(note)}" for word, note in item.notes.items()]
        return [*own, *comments([("variant", "tag", "values", "notes"), *rows])]
    own = [f"// {word} = {said(note)}" for word, note in item.notes.items()]
    return [*own, *comments([HEAD, *rows_of(crate, item, words)])]


def comments(rows: List[Tuple[str, ...]]) -> List[str]:
    """Returns rows below one another, without columns in which nothing stands."""
    columns = [column for column in zip(*rows) if any(column[1:])]
    widths = [max(map(len, column)) for column in columns]
    lines = ["  ".join(it.ljust(width) for it, width in zip(row, widths)).rstrip() for row in zip(*columns)]
    return [f"// {it}".replace(OWN, "").rstrip() for it in lines]


def said(note: Note) -> str:
    """Returns what a note says, on one line, with spaces around its signs."""
    parts = re.split(r"""(b?"(?:\\.|[^"\\])*"|b'(?:\\.[^']*|[^'\\])')""", note.text)
    for at, it in enumerate(parts):
        if at % 2 == 0:
            it = re.sub(r"\s*(<<|>>|<=|>=|<|>)\s*", r" \1 ", re.sub(r"\s+", " ", it))
            parts[at] = re.sub(r"\.\. ?=? ?", lambda found: found[0].replace(" ", ""), it)
    return "".join(parts).replace("\n", "\\n").strip()


def notes_of(at: RawField, left_out: Tuple[str, ...] = ()) -> str:
    return ", ".join(f"{word} = {said(note)}" for word, note in at.notes.items() if word not in left_out)


def values_of(variant: RawField) -> str:
    return ", ".join(it.text for it in variant.types) or "none"


def end_of(item: Item) -> str:
    notes = {word: said(note) for word, note in item.notes.items()}
    if "ends" in notes:
        return f"the mark {notes['ends']}"
    return f"the value of which {notes['last']}" if "last" in notes else "as its field says"


def rows_of(crate: Crate, item: Item, words: Dict[str, int]) -> List[Tuple[str, ...]]:
    """Returns a row for each field. Offsets are numbers up to the first field whose size isn't one."""
    rows: List[Tuple[str, ...]] = []
    at: Optional[int] = 0
    before = ""
    for field in item.fields:
        offset = str(at) if at is not None else f"after `{before}`"
        if "bits" in field.notes:
            count = said(field.notes["bits"])
            text, width = f"{count} bit{'s' if count != '1' else ''}", words.get(field.name, 0)
        else:
            text, width = size_of(crate, item, field, field.type)
        rows.append((field.name, offset, text, notes_of(field, ("bits",))))
        at = None if at is None or width is None else at + width
        # (fields of bits stand in one number)
        before = field.name if width != 0 else before
    return rows


def size_of(crate: Crate, item: Item, field: RawField, of: Type) -> Tuple[str, Optional[int]]:
    """Returns how many bytes a field has, as a number too if it is one."""
    notes = {word: said(note) for word, note in field.notes.items()}
    if of.name == "Option":
        there = "the rest" if notes.get("if") == "rest" else size_of(crate, item, field, of.arguments[0])[0]
        return f"{there}, or 0", None
    padding = f", and zeros to a multiple of {notes['padded']}" if "padded" in notes else ""
    if "within" in notes:
        return f"{short(notes['within'])}{padding}", None
    if crate.is_fixed_type(item, of):
        width = width_of(crate.fixed(item, field, of))
        return f"{width}{padding}", None if padding else width
    text = size_by(notes.get("ctx", ""), of)
    count = number_of(text)
    return f"{text}{padding}", count if count >= 0 and not padding else None


def size_by(ctx: str, of: Type) -> str:
    """Returns the size of a value of any size, by its context."""
    if of.name in ENDS or ctx in ENDS:
        return ENDS.get(of.name) or ENDS[ctx]
    if of.name in LEAST:
        return LEAST[of.name]
    if of.name in ("Octal", "Decimal", "Hexadecimal"):
        return of.arguments[0].text
    name, inside = ctx.partition("(")[0], ctx.partition("(")[2].rpartition(")")[0]
    if name == "padding":
        return f"zeros to a multiple of {inside.rpartition(', ')[2]}"
    if name == "Filled":
        return short(inside.rpartition(", ")[0])
    if name == "StrCtx::Required":
        return f"up to the byte {inside}"
    if name == "StrCtx::Length":
        return short(inside)
    if name == "Count":
        return f"{short(inside)} values"
    if of.name == "Table":
        return f"{short(ctx)} elements"
    if ctx == "rest":
        return "the rest"
    return short(ctx) if of.name in ("&[u8]", "Zeros", "Items") else f"that of `{of.text}`"


def short(ctx: str) -> str:
    """Returns a count as a table says it."""
    return ctx.replace(" as usize", "")
