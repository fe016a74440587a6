"""Which comments look like a note, or like the line that asks for implementations, and are neither.

Such a comment would be ignored, and what it says would not be proved. So it is refused wherever a description could mean it.
"""

import re
import unicodedata
from typing import Optional

# The words of notes.
WORDS = "is ctx else if check within padded order big bits given tag items ends last error".split()
# Attributes of other tools that describe binary formats.
OTHERS = {"br", "bw", "brw", "binrw", "binread", "binwrite", "deku", "nom", "zerocopy", "serde"}
TRAITS = ("pread", "pwrite")
# The letters of the lines that ask for implementations.
MARKS = ("derivepart", "derivepreadpwrite", "derivepreadpwritekept")
BRACKET = r"[\[({]"
ATTRIBUTE = re.compile(rf"#\s*!?\s*{BRACKET}")
CALLED = re.compile(rf"(\w+)\s*{BRACKET}\s*\w+\s*=(?!=)")
BRACKETED = re.compile(rf"{BRACKET}\s*(\w+)\s*{BRACKET}")
ASSIGNED = re.compile(rf"(?m)^\W*({'|'.join(WORDS)})\s*=(?!=)")
NAMED = re.compile(rf"(?m)(?:^|[,\[({{])\W*(\w+)\s*:?=(?!=)\s*\S")
SAID = re.compile(rf"^\W*({'|'.join(it for it in WORDS if len(it) > 2)}|ctx)\s*:\s*\S+\W*$")
ASSIGNED_INSIDE = re.compile(rf"{BRACKET}\s*({'|'.join(WORDS)})\s*=(?!=)")


def distance(one: str, other: str) -> int:
    """Returns how many letters differ: one is left out, is too many, is another, or two change places."""
    before: "list[int]" = []
    row = [*range(len(other) + 1)]
    for at, char in enumerate(one, 1):
        before, last, row = row, before, [at]
        for place, wanted in enumerate(other, 1):
            least = min(before[place] + 1, row[-1] + 1, before[place - 1] + (char != wanted))
            if at > 1 and place > 1 and char == other[place - 2] and one[at - 2] == wanted:
                least = min(least, last[place - 2] + 1)
            row.append(least)
    return row[-1]


def is_near(word: str, wanted: str, most: int) -> bool:
    return abs(len(word) - len(wanted)) <= most and distance(word, wanted) <= most


def plain(comment: str) -> str:
    """Returns what a comment says, in small letters of ASCII where Unicode has others for them."""
    text = unicodedata.normalize("NFKC", comment).lower()
    return re.sub(r"^(//+!?|/\*+!?)|\*+/$", "", text).strip()


def is_doc(comment: str) -> bool:
    return bool(re.match(r"///(?!/)|//!|/\*\*(?![*/])|/\*!", comment))


def looks_like_note(comment: str) -> bool:
    """Returns whether a comment that is no note looks like one. Documentation may name `scroll`, and only an attribute in it counts."""
    text = plain(comment)
    if any(is_near(name, "scroll", 2) for name in CALLED.findall(text)):
        return True
    attributes = re.findall(rf"#\s*!?\s*{BRACKET}\s*(\w+)", text)
    if any(is_near(it, "scroll", 2) or it in OTHERS for it in attributes):
        return True
    if is_doc(comment):
        return False
    return bool(
        re.search(r"\bscroll", text)
        or ATTRIBUTE.search(text)
        or any(is_near(it, "scroll", 2) or it in OTHERS for it in BRACKETED.findall(text))
        or any(is_near(it, "scroll", 1) for it in re.findall(r"\w+", text))
        or ASSIGNED.search(text)
        or ASSIGNED_INSIDE.search(text)
        or SAID.search(text)
        or any(is_close(it) for it in NAMED.findall(text))
    )


def is_close(word: str) -> bool:
    """Returns whether a word is one of notes, or one with a slip."""
    return any(word == it or is_near(word, it, 2 if len(it) > 5 else 1) for it in WORDS if len(it) > 2) or word in ("is", "if", "iz", "si", "fi")


def looks_like_mark(comment: str) -> bool:
    """Returns whether a comment that isn't the line that asks for implementations looks like it."""
    text = plain(comment)
    words = re.findall(r"\w+", text)
    has_trait = any(is_near(it, trait, 2) for it in words for trait in TRAITS)
    has_derive = any(is_near(it, "derive", 2) for it in words)
    if is_doc(comment):
        return bool(re.search(rf"#\s*{BRACKET}\s*\w+\s*{BRACKET}", text)) and has_trait and has_derive
    has_bracket = bool(re.search(BRACKET, text))
    letters = re.sub(r"[^a-z]", "", text)
    return (
        (has_trait and (has_derive or has_bracket))
        or (has_bracket and any(is_near(letters, it, 2) for it in MARKS))
        or bool(re.fullmatch(r"\W*p\w*d\s*,\s*p\w*e\W*", text))
    )


def spelled(comment: str) -> Optional[str]:
    """Returns how the note is spelled that a comment seems to mean, or nothing."""
    text = re.sub(r"^(//+!?|/\*+!?)|\*+/$", "", comment).strip()
    found = re.search(r"\w+\s*[\[({](.*?)[\])}]*\s*$", text) or re.search(rf"((?:{'|'.join(WORDS)})\s*=(?!=).*?)[\])}}]*\s*$", text)
    if not found or not re.match(rf"\s*(?:{'|'.join(WORDS)})\s*=(?!=)", found[1]):
        return None
    said = found[1].strip()
    said += "".join({"(": ")", "[": "]"}[it] for it in reversed(unclosed(said)))
    return f"// #[scroll({said})]"


def unclosed(text: str) -> str:
    """Returns the brackets that a text opens and doesn't close."""
    left = ""
    for char in text:
        if char in "([":
            left += char
        elif char in ")]" and left:
            left = left[:-1]
    return left
