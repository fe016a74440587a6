"""What the program prints for a session, as crates/scroll_run/README.md and docs/API.md say it.

This is written from these pages and not from the program. The stored sessions check it, whose answers are the Rust crate's;
gate/sessions/stored.py and gate/sessions/random_sessions.py compare the program with it. It is not proved, and its memory and streams
never fail.
"""

import re
from functools import lru_cache, partial
from itertools import count
from typing import Any, Callable, Dict, List, Optional, Pattern, Tuple

LONGEST_INPUT = 65536
LONGEST_LEB128 = 10

# What is read from the bytes that start at the offset: the words that are printed of it, and its size.
Value = Tuple[List[str], int]
# The type of a number: its size, and its values.
Width = Tuple[int, range]
# Where a text ends: by which rule, at which delimiter, and within how many bytes, or after so many.
End = Tuple[str, bytes, Optional[int]]
# What a command does to a buffer at an offset; it returns the line that is printed, and the size.
Act = Callable[[bytearray, int], Tuple[str, int]]


class BadLine(Exception):
    """A line means nothing; in the end, the number of the first such line."""


class Refused(Exception):
    """A command fails, with this error."""


def too_big(size: int, left: int) -> Refused:
    return Refused(f"type is too big ({size}) for {left}")


def bad_input(why: str, size: int) -> Refused:
    return Refused(f"bad input {why} ({size})")


def show(data: bytes) -> str:
    return data.hex() or "-"


def integers(bits: int, is_signed: bool = False) -> range:
    """Returns the integers of so many bits; signed ones are in two's complement."""
    return range(-(2 ** (bits - 1)), 2 ** (bits - 1)) if is_signed else range(2**bits)


def parse_integer(word: str, allowed: range = integers(64)) -> int:
    """Returns an integer that is allowed; a `-` comes first only where some are negative."""
    found = re.fullmatch("(-?)0*([0-9]{1,39})", word)
    if not found or int(found[1] + found[2]) not in allowed or (found[1] and allowed.start == 0):
        raise BadLine
    return int(found[1] + found[2])


def read_number(source: bytes, width: Width, order: str) -> Value:
    """A number is the sum of its bytes times powers of 256; in two's complement, one above the greatest is 256 ** size less."""
    size, values = width
    if len(source) < size:
        raise too_big(size, len(source))
    lowest_first = source[:size] if order == "le" else source[:size][::-1]
    total = sum(byte * 256**place for place, byte in enumerate(lowest_first))
    return [str(total if total in values else total - 256**size)], size


def put_numbers(width: Width, order: str, *words: str) -> List[bytes]:
    """The bytes are the digits to the base 256. (Floored divisions give those of two's complement.)"""
    size, values = width
    numbers = [parse_integer(word, values) for word in words]
    lowest_first = [bytes(number // 256**place % 256 for place in range(size)) for number in numbers]
    return [it if order == "le" else it[::-1] for it in lowest_first]


def read_leb128(source: bytes, is_signed: bool) -> Value:
    """DWARF 5, section 7.6: groups of seven bits, the lowest first, each in a byte, whose highest bit is set in all but the last.
    A signed number is negative if the highest bit of the last group is set."""
    size = next((place + 1 for place, byte in enumerate(source[:LONGEST_LEB128]) if byte < 128), 0)
    if not size:
        raise too_big(1, 0) if len(source) < LONGEST_LEB128 else bad_input("failed to parse", len(source))
    value = sum(byte % 128 * 128**place for place, byte in enumerate(source[:size]))
    if is_signed and source[size - 1] % 128 >= 64:
        value -= 128**size
    if value not in integers(64, is_signed):
        raise bad_input("failed to parse", len(source))
    return [str(value), str(size)], size


def put_leb128(is_signed: bool, word: str) -> List[bytes]:
    """As few groups as have the number."""
    value = parse_integer(word, integers(64, is_signed))
    size = next(it for it in count(1) if value in integers(7 * it, is_signed))
    *groups, last = (value // 128**place % 128 for place in range(size))
    return [bytes([*(128 + group for group in groups), last])]


def is_utf8(data: bytes) -> bool:
    return data.decode(errors="ignore").encode() == data


def read_text(source: bytes, end: End) -> Value:
    """The size counts a delimiter, even where none is there."""
    rule, delimiter, length = end
    if length is not None and length > len(source):
        raise too_big(length, len(source))
    text = source[:length]
    if rule != "len":
        text, found, _ = text.partition(delimiter)
        if rule == "required" and not found:
            raise bad_input("missing delimiter", len(source))
    if not is_utf8(text):
        raise bad_input("invalid utf8", len(source))
    return [show(text)], len(text) + (rule != "len")


def put_text(data: bytes) -> List[bytes]:
    if not is_utf8(data):
        raise BadLine
    return [data]


def read_c_string(source: bytes) -> Value:
    text, zero, _ = source.partition(b"\0")
    if not zero:
        raise bad_input("The input doesn't contain a null byte", 0)
    return [show(text)], len(text) + 1


def put_c_string(data: bytes) -> List[bytes]:
    if 0 in data:
        raise BadLine
    return [data + b"\0"]


def read_slice(source: bytes, length: int) -> Value:
    if length > len(source):
        raise too_big(length, len(source))
    return [show(source[:length])], length


def put_slices(*slices: bytes) -> List[bytes]:
    return [*slices]


def read_array(source: bytes, length: int, read_one: Callable[..., Value], *how: Any) -> Value:
    """The elements, one after another. One may not start past the end; its offset counts from the start of the array."""
    words: List[str] = []
    offset = 0
    for _ in range(length):
        if offset > len(source):
            raise Refused(f"bad offset {offset}")
        more, size = read_one(source[offset:], *how)
        words, offset = words + more, offset + size
    return words, offset


def read(heading: str, read_one: Callable[..., Value], how: List[Any], buffer: bytearray, offset: int) -> Tuple[str, int]:
    words, size = read_one(bytes(buffer[offset:]), *how)
    return " ".join([heading, *words]), size


def write(pieces: List[bytes], buffer: bytearray, offset: int) -> Tuple[str, int]:
    """Writes one after another, each of them whole or not at all."""
    end = offset
    for piece in pieces:
        if len(piece) > len(buffer) - end:
            raise too_big(len(piece), len(buffer) - end)
        buffer[end : end + len(piece)] = piece
        end += len(piece)
    return f"wrote {end - offset}", end - offset


def parse_width(word: str) -> Width:
    return int(word[1:]) // 8, integers(int(word[1:]), word[0] == "i")


def parse_end(words: str) -> End:
    rule, first, *more = words.split(" ")
    if rule == "len":
        return rule, b"", parse_integer(first)
    return rule, bytes.fromhex(first), parse_integer(more[0]) if more else None


# Where a text ends: `HH` stands for a delimiter, and `N` for a length.
ENDS = ("delim HH", "required HH", "until HH N", "len N")
# What stands for words of a line in the program's page: their form, and what they mean.
BYTE = "[0-9A-Fa-f]{2}"
WORDS: Dict[str, Tuple[str, Callable[[str], Any]]] = {
    "N": ("[0-9]+", parse_integer),
    "V": ("-?[0-9]+", str),
    "HEX": (f"-|(?:{BYTE})+", lambda word: bytes.fromhex(word.replace("-", ""))),
    "W": ("[ui](?:8|16|32|64|128)", parse_width),
    "ORD": ("le|be", str),
    "T": ("|".join(ENDS).replace("HH", BYTE).replace("N", "[0-9]+"), parse_end),
}
# What is read, with the first word of its line, and what is written. The meanings of the words follow what stands here.
READS: Dict[str, Tuple[Any, ...]] = {
    "W ORD": ("number", read_number),
    "str T": ("text", read_text),
    "bytes N": ("bytes", read_slice),
    "cstr": ("cstr", read_c_string),
    "cstring": ("cstr", read_c_string),
    "uleb": ("uleb", read_leb128, False),
    "sleb": ("sleb", read_leb128, True),
    "u8x0 ORD": ("numbers", read_array, 0, read_number, parse_width("u8")),
    "u16x3 ORD": ("numbers", read_array, 3, read_number, parse_width("u16")),
    "strx2 T": ("texts", read_array, 2, read_text),
}
WRITES: Dict[str, Tuple[Any, ...]] = {
    "W ORD V": (put_numbers,),
    "uleb V": (put_leb128, False),
    "sleb V": (put_leb128, True),
    "u16x3 ORD V V V": (put_numbers, parse_width("u16")),
    "str HEX": (put_text,),
    "cstr HEX": (put_c_string,),
    "bytes HEX": (put_slices,),
    "bytesx2 HEX HEX": (put_slices,),
}


def values_of(form: str, name: str) -> range:
    """Returns the numbers that a command of this form and name may write."""
    put, *how = WRITES[form]
    return integers(64, *how) if put is put_leb128 else (how[0] if how else parse_width(name))[1]


@lru_cache(maxsize=None)
def pattern_of(form: str) -> Pattern[str]:
    return re.compile(" ".join(f"({WORDS[it][0]})" if it in WORDS else it for it in form.split(" ")))


def parse(line: str, forms: Dict[str, Tuple[Any, ...]]) -> List[Any]:
    """Returns what stands beside the form that a line has, and then the meanings of its words."""
    for form, given in forms.items():
        found = pattern_of(form).fullmatch(line)
        if found:
            letters = [it for it in form.split(" ") if it in WORDS]
            return [*given, *(WORDS[it][1](word) for it, word in zip(letters, found.groups()))]
    raise BadLine


def parse_command(line: str) -> Tuple[Optional[int], Act]:
    """Returns the offset, which is none at the cursor, and what is done there."""
    verb, _, rest = line.partition(" ")
    if verb not in ("pread", "gread", "pwrite", "gwrite"):
        raise BadLine
    offset = None
    if verb[0] == "p":
        place, _, rest = rest.partition(" ")
        offset = parse_integer(place)
    if verb[1:] == "read":
        heading, read_one, *how = parse(rest, READS)
        return offset, partial(read, heading, read_one, how)
    put, *how = parse(rest, WRITES)
    return offset, partial(write, put(*how))


def parse_line(number: int, line: str) -> Any:
    try:
        if number > 2:
            return parse_command(line)
        return parse(line, {"buffer HEX": ()} if number == 1 else {"cursor N": ()})[0]
    except BadLine:
        raise BadLine(number) from None


def run(given: bytes, cursor: int, *commands: Tuple[Optional[int], Act]) -> List[str]:
    """Returns the lines of output. A command that fails leaves the cursor unchanged."""
    buffer, printed = bytearray(given), []
    for place, act in commands:
        offset = cursor if place is None else place
        try:
            if offset > len(buffer):
                raise Refused(f"bad offset {offset}")
            line, size = act(buffer, offset)
            cursor = offset + size if place is None else cursor
        except Refused as error:
            line = f"error {error}"
        printed.append(line)
    return [*printed, f"buffer {show(buffer)}", f"cursor {cursor}"]


def answer(given: bytes) -> Tuple[int, bytes]:
    """Returns the exit status and the output for an input."""
    if len(given) > LONGEST_INPUT:
        return 2, b"input too long\n"
    # (the bytes after the last line feed are one more line, and a line that is missing is a bad one)
    lines = [it.rstrip("\n") for it in re.findall("[^\n]*\n|[^\n]+", given.decode("latin-1"))]
    lines += [""] * (2 - len(lines))
    try:
        printed = run(*(parse_line(number, line) for number, line in enumerate(lines, 1)))
    except BadLine as number:
        return 2, f"bad line {number}\n".encode()
    return 0, "".join(f"{line}\n" for line in printed).encode()
