"""Literals by Rust's rules: numbers, letters and texts of bytes, and lists of them."""

import re
from typing import List, Optional

NUMBER = re.compile(r"0x_*[0-9a-fA-F][0-9a-fA-F_]*|0o_*[0-7][0-7_]*|0b_*[01][01_]*|[0-9][0-9_]*")
LETTER = re.compile(r"b'(\\x[0-9a-fA-F]{2}|\\[nrt\\0'\"]|[^\\'\n\r\t])'", re.A)
RAW = re.compile(r'br(#*)"(.*)"\1', re.S)
ESCAPES = {"n": 10, "r": 13, "t": 9, "\\": 92, "0": 0, "'": 39, '"': 34}


def number_of(text: str) -> int:
    """Returns a literal number, perhaps a letter such as `b'T'`, or -1."""
    if LETTER.fullmatch(text):
        found = bytes_within(text[2:-1], "'")
        return found[0] if found and len(found) == 1 else -1
    if not NUMBER.fullmatch(text):
        return -1
    digits = text.replace("_", "")
    return int(digits, 10) if digits.isdigit() else int(digits, 0)


def bytes_of(text: str) -> Optional[bytes]:
    """Returns a literal of bytes, `b".."` or `[1, b'K']`, perhaps behind `*` or `&`, or nothing."""
    text = text.lstrip("*& ")
    raw = RAW.fullmatch(text)
    if raw:
        return raw[2].encode() if raw[2].isascii() else None
    if len(text) > 2 and text.startswith('b"') and text.endswith('"'):
        return bytes_within(text[2:-1], '"')
    if text.startswith("[") and text.endswith("]"):
        return bytes_in_list(text[1:-1])
    return None


def bytes_in_list(text: str) -> Optional[bytes]:
    """Returns the bytes between the brackets of an array, `1, 2` or `0; 4`."""
    literal = rf"(?:{LETTER.pattern}|\w+)"
    repeated = re.fullmatch(rf"\s*({literal})\s*;\s*(\w+)\s*", text, re.A)
    if repeated:
        byte, length = number_of(repeated[1]), number_of(repeated[repeated.re.groups])
        return bytes([byte] * length) if 0 <= byte < 256 and 0 <= length < 2**16 else None
    if text.strip() and not re.fullmatch(rf"\s*{literal}(?:\s*,\s*{literal})*\s*,?\s*", text, re.A):
        return None
    found = [number_of(it[0]) for it in re.finditer(literal, text, re.A)]
    return bytes(found) if all(0 <= it < 256 for it in found) else None


def bytes_within(text: str, quote: str) -> Optional[bytes]:
    """Returns the bytes between the quotes of a literal, with its escapes, or nothing where one isn't Rust's."""
    made: List[int] = []
    place = 0
    while place < len(text):
        char = text[place]
        place += 1
        if char != "\\":
            if char == quote or ord(char) > 127:
                return None
            made.append(ord(char))
            continue
        escape = text[place : place + 1]
        place += 1
        hexadecimal = re.fullmatch(r"[0-9a-fA-F]{2}", text[place : place + 2])
        if escape in ESCAPES:
            made.append(ESCAPES[escape])
        elif escape == "x" and hexadecimal:
            made.append(int(hexadecimal[0], 16))
            place += 2
        elif escape == "\n":
            place += len(text[place:]) - len(text[place:].lstrip())
        else:
            return None
    return bytes(made)
