"""The names that printed text imports, by their modules."""

import re
from typing import Dict, Sequence, Set

from tokens import OWN

PRELUDE = ("◌≡◌", "◌≢◌", "◌<◌", "◌≤◌", "◌+◌", "◌-◌", "◌*◌", "◌/◌", "◌%◌", "◌^◌", "◌⊎◌", "[]", "◌∷◌", "◌&&◌", "◌||◌")
GHOST: Dict[str, Sequence[str]] = {
    "Rattle.std.specs.Prelude": (*PRELUDE, "length", "drop", "min", "codes", "nat_eq", "nat_lt", "not", "option_map", "if◌then◌else◌"),
    "Rattle.std.specs.Float": ("binary32", "binary64"),
    "Rattle.std.proofs.Common": ("refl", "rules"),
    "Rattle.scroll.specs.Arrays": ("MakesArray",),
    "Rattle.scroll.specs.Errors": ("IsBadInput",),
    "Rattle.scroll.specs.Numbers": ("float", "number", "signed_number"),
    "Rattle.scroll.specs.lemmas.Frames": ("WritesPrefix-keeps",),
    "Rattle.scroll_formats.specs.SmallErrors": ("small_error",),
    "Rattle.scroll_layouts.specs.Closed": ("CountedClosed",),
    "Rattle.scroll_layouts.specs.Errors": ("GivesBadInput", "IsNot"),
    "Rattle.scroll_layouts.specs.Formats": ("refuses", "shape"),
    "Rattle.scroll_layouts.specs.ListEnds": ("bytes_mark",),
    "Rattle.scroll_layouts.specs.Lists": ("CountedItems",),
    "Rattle.scroll_layouts.specs.Marks": ("CountedMarked",),
    "Rattle.scroll_layouts.specs.Wholes": ("KeepsWhole", "ReadsBack", "ReadsExact", "ReadsWhole", "WritesWhole"),
    "Rattle.scroll_layouts.specs.lemmas.EqualLemmas": ("number-again", "number-there", "option-again", "parts-unique", "record-again", "record-there"),
    "Rattle.scroll_layouts.specs.lemmas.WholeLemmas": ("whole-kept",),
    "Rattle.scroll_layouts.specs.declared.items.ListOf": ("ListOf",),
    "Rattle.scroll_layouts.specs.declared.choice.Choice.TheVariants": ("First", "Second"),
}
CHOICE = "scroll_layouts::Choice"
CODE: Dict[str, Sequence[str]] = {
    "scroll::ctx": ("Record", "TryFromCtx", "TryIntoCtx", "Written"),
    "scroll": ("BE", "Endian", "Error", "LE"),
    "scroll_formats": ("Kept", "SmallError", "Table", "Zeros"),
    CHOICE: ("First", "Second"),
    "scroll_layouts": tuple(
        "Behind Choice Choose Closed Count Decimal EndMark Ends Field Filled Given Head Headed Hexadecimal IsList Items "
        "ListOf ListPart Listed Low Marked NameEnd Octal Ordered Packed Padded Part Pointer ReadPart Run Shape Sleb Split "
        "ToLast ToMark TwoZeroUlebs U24 Uleb Unmarked Vlq When Within ZeroUleb Zigzag begins_with is kept_exact kept_whole "
        "read_exact read_whole shifted write_whole".split()
    ),
    "std::marker": ("PhantomData",),
    "std::result": ("Result",),
}
# Where a file that describes imports a type of a field from. (Of C strings std has others.)
HOMES = {"CStr": "scroll::cstr", **{name: it for it in ("scroll_formats", "scroll_layouts") for name in CODE[it]}}
# Where each name of printed code is from.
PLACES = {"Option": "std::option", "CStr": "scroll::cstr", **{name: module for module, names in CODE.items() for name in names}}


def qualified(text: str, names: Set[str], crate: str) -> str:
    """Returns printed text in which the crate's own names are marked, without the marks, and with whole paths for these names
    where they are the libraries'. (In the logic that is so between brackets alone.)"""

    def in_code(code: str) -> str:
        for name in names:
            path = re.sub(rf"^{crate}\b", "crate", PLACES[name])
            code = re.sub(rf"(?<![\w.:{OWN}])(?<!type ){name}\b", f"{path}::{name}", code)
        return code

    parts = re.split(r"(ghost \w+ = \{.*?(?=\n\n|\Z)|ensures \{.*?(?=\n    \{))", text, flags=re.S)
    for at, part in enumerate(parts):
        parts[at] = re.sub(r"⟦.*?⟧", lambda it: in_code(it[0]), part, flags=re.S) if at % 2 else in_code(part)
    return "".join(parts).replace(OWN, "")
