"""The kinds of fields that tools/derive takes: how each is written, and which bytes a value of it is.

This says by itself what a read and a write give, by the library's documents, and asks tools/derive nothing. A value is a
number, of a float its bits; `bytes`; a list of the parts of an array or of a struct of a fixed size; a dictionary of a struct's
fields; the number and the size of a number in LEB128; `None`, or an optional value; or the index of a variant and its values.
"""

import random
from typing import Any, List, Tuple

from descriptions.counts import FLOATS, Fixed, Group, Known, Refused, Rule, Sum, bad, is_count, lines_of, padding, take_bytes
from descriptions.counts import take_zeros, too_big


class Kind:
    """A kind of field: its type, its notes, and the counts in these. It is exact where it has no floats."""

    def __init__(self, type_: str, notes: List[str], *counts: Sum) -> None:
        self.type, self.own_notes, self.counts, self.is_exact = type_, notes, counts, True

    def notes(self) -> List[str]:
        return [*self.own_notes, *(f"else = {it.own}" for it in self.counts if it.own)]

    def rules(self, name: str) -> List[Tuple[List[str], Rule]]:
        """Returns what is tested of numbers, with their names."""
        return [(it.names, it.check) for it in self.counts if it.is_less]

    def draw(self, rng: random.Random, order: str, known: Known) -> Any:
        raise NotImplementedError

    def put(self, value: Any, order: str) -> bytes:
        return bytes(value)

    def take(self, source: bytes, at: int, order: str, known: Known) -> Tuple[Any, int]:
        raise NotImplementedError

    def check(self, value: Any, order: str, known: Known) -> None:
        """Refuses a value that isn't written."""

    def numbers(self, name: str, value: Any) -> Known:
        """Returns the numbers that a field says."""
        return {}

    def lines(self, path: str) -> List[str]:
        """Returns the lines that add a value to a digest."""
        raise NotImplementedError

    def mixed(self, value: Any, order: str) -> bytes:
        """Returns the bytes that these add."""
        return len(value).to_bytes(8, "little") + value

    def is_nan(self, value: Any) -> bool:
        return False


class Number(Kind):
    """A field of a fixed size, perhaps of some bits, or with a constant, a number or the bytes of a text, whose other values may
    have an error of one's own."""

    def __init__(self, of: Fixed, constant: Any = None, own: str = "", bits: int = 0, named: str = "", is_letter: bool = False) -> None:
        self.text = named or (bytes(constant).decode() if isinstance(constant, list) else chr(constant) if is_letter else str(constant))
        said = named or (f'b"{self.text}"' if isinstance(constant, list) else f"b'{self.text}'" if is_letter else self.text)
        notes = [f"bits = {bits}"] if bits else [f"is = {said}"] if constant is not None else []
        super().__init__(of.type, [*notes, *([f"else = {own}"] if own else [])])
        self.of, self.constant, self.own, self.bits = of, constant, own, bits
        self.is_exact = not any(it.type in FLOATS for _, it in of.leaves(""))

    def rules(self, name: str) -> List[Tuple[List[str], Rule]]:
        def check(known: Known) -> None:
            if isinstance(self.constant, list):
                if any(known[f"{name}[{at}]"] != it for at, it in enumerate(self.constant)):
                    raise bad(0, f"{name} is not {self.text}")
                return
            number, own = known[name], self.own.partition("::")[2]
            if number != self.constant:
                raise Refused(f"{own} {number}") if own else bad(number, f"{name} is not {self.text}")

        return [([name], check)] if self.constant is not None else []

    def draw(self, rng: random.Random, order: str, known: Known) -> Any:
        value = self.of.draw(rng) if self.constant is None else self.constant
        return value % (1 << self.bits) if self.bits else value

    def put(self, value: Any, order: str) -> bytes:
        return self.of.put(value, order)

    def take(self, source: bytes, at: int, order: str, known: Known) -> Tuple[Any, int]:
        take_bytes(source, at, self.of.width)
        return self.of.take(source, at, order), at + self.of.width

    def numbers(self, name: str, value: Any) -> Known:
        if isinstance(self.of, Group):
            return {name + where: one for (where, it), one in zip(self.of.parts, value) if is_count(it)}
        return {name: value} if is_count(self.of) else {}

    def lines(self, path: str) -> List[str]:
        return lines_of(self.of, path)

    def mixed(self, value: Any, order: str) -> bytes:
        return self.of.put(value, "little")

    def is_nan(self, value: Any) -> bool:
        return self.of.is_nan(value)


class Slice(Kind):
    """Bytes or a text of a count."""

    def __init__(self, count: Sum, is_text: bool = False) -> None:
        has_call = is_text and count.text() != "rest"
        note = f"ctx = StrCtx::Length({count.text()})" if has_call else f"ctx = {count.text()}"
        super().__init__("&'a str" if is_text else "&'a [u8]", [note], count)
        self.count, self.is_text = count, is_text

    def draw(self, rng: random.Random, order: str, known: Known) -> bytes:
        count = self.count.draw(known)
        return draw_text(rng, count) if self.is_text else bytes(rng.choices(range(256), k=count))

    def take(self, source: bytes, at: int, order: str, known: Known) -> Tuple[bytes, int]:
        found = take_bytes(source, at, self.count.of(known))
        if self.is_text:
            check_text(found, len(source) - at)
        return found, at + len(found)

    def check(self, value: bytes, order: str, known: Known) -> None:
        if len(value) != self.count.of(known):
            raise bad(len(value), "another length than its count")

    def numbers(self, name: str, value: bytes) -> Known:
        return {f"{name}.len()": len(value)}

    def lines(self, path: str) -> List[str]:
        return [f"let made = mix_bytes(made, {path}{'.as_bytes()' * self.is_text});"]


def draw_text(rng: random.Random, count: int, without: int = -1) -> bytes:
    made = b""
    while len(made) < count:
        letter = rng.choice(["a", "b", "z", " ", "é", "€", "😀"]).encode()
        made += letter if len(made) + len(letter) <= count and without not in [*letter] else b"x"
    return made


def check_text(text: bytes, left: int) -> None:
    try:
        text.decode()
    except UnicodeDecodeError:
        raise bad(left, "invalid utf8") from None


class Ended(Kind):
    """A text up to a byte, or a C string, where the byte is below zero."""

    def __init__(self, byte: int) -> None:
        super().__init__("CStr<'a>" if byte < 0 else "&'a str", [] if byte < 0 else [f"ctx = StrCtx::Required({byte})"])
        self.byte = byte

    def draw(self, rng: random.Random, order: str, known: Known) -> bytes:
        return draw_text(rng, rng.randint(0, 9), self.byte)

    def put(self, value: bytes, order: str) -> bytes:
        return value + bytes([max(self.byte, 0)])

    def take(self, source: bytes, at: int, order: str, known: Known) -> Tuple[bytes, int]:
        end = source.find(max(self.byte, 0), at)
        if end < 0:
            raise bad(0, "The input doesn't contain a null byte") if self.byte < 0 else bad(len(source) - at, "missing delimiter")
        if self.byte >= 0:
            check_text(source[at:end], len(source) - at)
        return source[at:end], end + 1

    def check(self, value: bytes, order: str, known: Known) -> None:
        if self.byte >= 0 and self.byte in value:
            raise bad(value.index(self.byte), "a text has its delimiter")

    def numbers(self, name: str, value: bytes) -> Known:
        return {} if self.byte < 0 else {f"{name}.len()": len(value)}

    def lines(self, path: str) -> List[str]:
        return [f"let made = mix_bytes(made, {path}{'.to_bytes()' if self.byte < 0 else '.as_bytes()'});"]


class Leb(Kind):
    """A number of any length, with the length of its encoding: in LEB128, in zigzag, or with its high groups first."""

    def __init__(self, type_: str) -> None:
        super().__init__(type_, [])
        self.is_signed = type_ in ("Sleb", "Zigzag")

    def draw(self, rng: random.Random, order: str, known: Known) -> Tuple[int, int]:
        value = rng.getrandbits(rng.choice([2, 2, 3, 3, 7, 8, 14, 63]))
        value = -value if self.is_signed and rng.random() < 0.5 else value
        return value, self.least(value) + (rng.randint(0, 2) if abs(value) < 1 << 40 else 0)

    def made(self, number: int) -> Tuple[int, int]:
        return number, self.least(number)

    def code(self, value: int) -> int:
        """Returns the number whose groups are encoded."""
        return value if self.type != "Zigzag" else 2 * value if value >= 0 else -2 * value - 1

    def least(self, value: int) -> int:
        code = self.code(value)
        return max(1, -(-((code if code >= 0 else ~code).bit_length() + (self.type == "Sleb")) // 7))

    def put(self, value: Tuple[int, int], order: str) -> bytes:
        groups = [self.code(value[0]) >> 7 * at & 127 for at in range(value[1])][:: -1 if self.type == "Vlq" else 1]
        return bytes([*(it | 128 for it in groups[:-1]), groups[-1]])

    def take(self, source: bytes, at: int, order: str, known: Known) -> Tuple[Tuple[int, int], int]:
        left = source[at:]
        end = next((index for index, it in enumerate(left) if it < 128), len(left))
        if len(left) < 10 and end == len(left):
            raise too_big(1, 0)
        groups = left[: end + 1][:: -1 if self.type == "Vlq" else 1]
        value = sum((it & 127) << 7 * index for index, it in enumerate(groups))
        if self.type == "Sleb" and end < len(left) and left[end] & 64:
            value -= 1 << 7 * (end + 1)
        least = -(1 << 63) if self.type == "Sleb" else 0
        if end >= 10 or end == len(left) or not least <= value < least + (1 << 64):
            raise bad(len(left), "failed to parse")
        if self.type == "Zigzag":
            value = -(value + 1) // 2 if value % 2 else value // 2
        return (value, end + 1), at + end + 1

    def numbers(self, name: str, value: Tuple[int, int]) -> Known:
        return {} if self.is_signed else {name: value[0]}

    def lines(self, path: str) -> List[str]:
        return [f"let made = mix(made, &{path}.value.to_le_bytes());", f"let made = mix(made, &{path}.count.to_le_bytes());"]

    def mixed(self, value: Tuple[int, int], order: str) -> bytes:
        return value[0].to_bytes(8, "little", signed=self.is_signed) + value[1].to_bytes(8, "little")


class Numeral(Kind):
    """A number in digits in a field of some bytes: its value and the field."""

    is_signed = False
    BASES = {"Octal": 8, "Decimal": 10, "Hexadecimal": 16}

    def __init__(self, name: str, width: int) -> None:
        super().__init__(f"{name}<{width}>", [])
        self.base, self.width = self.BASES[name], width

    def draw(self, rng: random.Random, order: str, known: Known) -> Tuple[int, bytes]:
        size = rng.randint(0, self.width)
        field = bytes(rng.choices(b"01234567"[: self.base], k=rng.randint(0, size)))
        field = b" " * (size - len(field)) + field
        field += bytes(rng.choices(b"\0 ", k=self.width - size)) if field.strip() else b" " * (self.width - size)
        return self.value(field), field

    def made(self, number: int) -> Tuple[int, bytes]:
        said = {8: "o", 10: "d", 16: "x"}[self.base]
        field = f"{number:{said}}".encode().rjust(self.width, b"0")
        return number, field

    def value(self, field: bytes) -> int:
        """Returns the number in a field, or -1."""
        rest = field.lstrip(b" ")
        digits = next((rest[:at] for at, it in enumerate(rest) if not is_digit(it, self.base)), rest)
        value = int(digits or b"0", self.base)
        return value if not rest[len(digits) :].strip(b"\0 ") and value < 2**64 else -1

    def put(self, value: Tuple[int, bytes], order: str) -> bytes:
        return value[1]

    def take(self, source: bytes, at: int, order: str, known: Known) -> Tuple[Tuple[int, bytes], int]:
        field = take_bytes(source, at, self.width)
        if self.value(field) < 0:
            raise bad(self.width, "the digits are no number")
        return (self.value(field), field), at + self.width

    def numbers(self, name: str, value: Tuple[int, bytes]) -> Known:
        return {name: value[0]}

    def lines(self, path: str) -> List[str]:
        return [f"let made = mix(made, &{path}.value.to_le_bytes());", f"let made = mix_bytes(made, &{path}.bytes);"]

    def mixed(self, value: Tuple[int, bytes], order: str) -> bytes:
        return value[0].to_bytes(8, "little") + super().mixed(value[1], order)


def is_digit(byte: int, base: int) -> bool:
    return chr(byte).lower() in "0123456789abcdef"[:base]


class Filled(Kind):
    """A text in a field of some bytes, which others fill up."""

    def __init__(self, width: int, byte: int) -> None:
        super().__init__("&'a [u8]", [f"ctx = Filled({width}, {byte})"])
        self.width, self.byte = width, byte

    def draw(self, rng: random.Random, order: str, known: Known) -> bytes:
        return draw_text(rng, rng.randint(0, self.width), self.byte).rstrip(bytes([self.byte]))

    def put(self, value: bytes, order: str) -> bytes:
        return value.ljust(self.width, bytes([self.byte]))

    def take(self, source: bytes, at: int, order: str, known: Known) -> Tuple[bytes, int]:
        return take_bytes(source, at, self.width).rstrip(bytes([self.byte])), at + self.width

    def check(self, value: bytes, order: str, known: Known) -> None:
        if len(value) > self.width:
            raise bad(len(value), "more bytes than its field")
        if value and value[-1] == self.byte:
            raise bad(len(value) - 1, "a text ends with what fills its field")

    def numbers(self, name: str, value: bytes) -> Known:
        return {f"{name}.len()": len(value)}

    def lines(self, path: str) -> List[str]:
        return [f"let made = mix_bytes(made, {path});"]


class Gap(Kind):
    """Zeros: a count of them, or up to a multiple of a size, counted from the first byte of the struct."""

    def __init__(self, count: Sum, multiple: int = 0) -> None:
        note = f"ctx = padding(offset, {multiple})" if multiple else f"ctx = {count.text()}"
        super().__init__("Zeros", [note], *([] if multiple else [count]))
        self.count, self.multiple = count, multiple

    def size(self, known: Known) -> int:
        return padding(known["offset"], self.multiple) if self.multiple else self.count.of(known)

    def draw(self, rng: random.Random, order: str, known: Known) -> bytearray:
        return bytearray(self.size(known) if self.multiple else self.count.draw(known))

    def take(self, source: bytes, at: int, order: str, known: Known) -> Tuple[bytearray, int]:
        size = self.size(known)
        end = take_zeros(source, at, size)
        return bytearray(size), end

    def check(self, value: bytearray, order: str, known: Known) -> None:
        # (A value says nothing of how many there are: so many are written as what is before them says.)
        value[:] = bytes(self.size(known))

    def lines(self, path: str) -> List[str]:
        return []

    def mixed(self, value: bytes, order: str) -> bytes:
        return b""
