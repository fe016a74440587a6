"""Draws random sessions for gate/sessions/random_sessions.py, from the forms of commands in gate/sessions/model.py."""

import random
from typing import List, Tuple

from sessions import model

# What a session has: commands of one name, of all names, bad lines, or very many bytes.
NAMES = sorted({form.split(" ")[0] for form in (*model.READS, *model.WRITES)})
ALL, BAD, LONG = "all commands", "bad lines", "about 65,536 bytes"
KINDS = (*NAMES, ALL, BAD, LONG)
# One session in so many is a long one; and of all commands, or with bad lines, are so many times as many as of one name.
LONG_ONES, MIXED = 200, 3

# The bytes at which UTF-8 and LEB128 change what they mean.
EDGES = bytes.fromhex("0001093f40617e7f8081bfc0c1c2dfe0edeff0f4f5ff")
# No UTF-8, or only just: overlong, surrogates, too high, without an end or without a start.
ODD = "80 bf c080 c1bf c2 c27f dfc0 e08080 e09fbf e0a080 e180 ed9fbf eda080 ee8080 efbf f0808080 f08fbfbf f0908080 f48fbfbf f4908080"
ODD_TEXTS = [*map(bytes.fromhex, ODD.split())]
# The first and the last characters of one, two, three and four bytes, beside the surrogates too.
CHARACTERS = "\x00\x7f\x80\u07ff\u0800\ud7ff\ue000\uffff\U00010000\U0010ffff"
# What no word is, or hardly one.
BAD_WORDS = (f"{2**64}", "-1", "-", "+1", "", "0", "000", "0g", "00", "LE", "u24", "delim", "x")


class Draw(random.Random):
    """Draws a session of a kind, with sizes up to 2 to the power of `bits`."""

    kind = ""
    bits = 0
    buffer = b""

    def chance(self, percent: float) -> bool:
        return self.random() * 100 < percent

    def size(self, bits: int) -> int:
        """A size below 2 to the power of `bits`, of each number of bits as often."""
        return self.randrange(1 << self.randint(0, bits))

    def piece(self, style: int, most: int) -> bytes:
        """Some bytes in a style, about as many at most."""
        if style < 3:
            return bytes(self.choices([range(256), EDGES, b"abcdefghijklmnopqrstuvwxyz"][style], k=self.randint(1, most)))
        if style == 3:
            return self.choice([b"\0", b"\xff"]) * self.randint(1, most)
        if style == 4:
            return self.text(most)
        if style == 5:
            return self.choice(ODD_TEXTS)
        groups = [self.choice([0x80, 0xFF, 0x80 | self.randrange(128)])] * self.choice([self.randrange(8), 8, 9, 10])
        return bytes([*groups, self.choice([0, 1, 2, 0x3F, 0x40, 0x7E, 0x7F, self.randrange(128)])])

    def content(self, length: int) -> bytes:
        """So many bytes of one style, or of several."""
        only = self.choice([None, *range(7)])
        content = bytearray()
        while len(content) < length:
            content += self.piece(self.randrange(7) if only is None else only, length - len(content)) or b"a"
        return bytes(content[:length])

    def text(self, most: int) -> bytes:
        return "".join(self.choices(CHARACTERS + "az", k=self.randint(0, most))).encode()

    def offset(self) -> int:
        """An offset into the buffer: mostly within it, or just past its end, sometimes near 2 to the power of 32 or 64."""
        length = len(self.buffer)
        near = [0, max(0, length + 2 - self.randrange(20)), self.randrange(length + 2)]
        far = [2**64 - 1 - self.randrange(20), 2**32 - 10 + self.randrange(20), self.getrandbits(64)]
        return self.choice(far if self.chance(10) else near)

    def length(self) -> int:
        """How many bytes are read: mostly few."""
        return self.size(6) if self.chance(70) else self.offset()

    def integer(self, allowed: range) -> int:
        """An integer that is allowed: near a bound, near a power of two, or any."""
        power = 2 ** self.randrange(allowed.stop.bit_length()) - self.randrange(2)
        few = self.randrange(3)
        found = self.choice([allowed.start + few, allowed.stop - 1 - few, power, -power, few])
        return found if found in allowed and self.chance(70) else self.randrange(allowed.start, allowed.stop)

    def value(self, allowed: range) -> str:
        """An integer that is written, in a session with bad lines sometimes one that isn't allowed."""
        if self.kind == BAD and self.chance(3):
            return self.choice(["-0", str(allowed.stop), str(allowed.start - 1)])
        return self.digits(self.integer(allowed))

    def digits(self, number: int) -> str:
        """The digits of a number, sometimes after zeros."""
        zeros = "0" * (self.randrange(40) if self.chance(3) else 0)
        minus = "-" if number < 0 else ""
        return f"{minus}{zeros}{abs(number)}"

    def hexadecimal(self, data: bytes) -> str:
        return model.show(data).upper() if self.chance(10) else model.show(data)

    def end(self) -> str:
        delimiter = bytes([self.choice(self.buffer or EDGES) if self.chance(60) else self.randrange(256)]).hex()
        return self.choice(model.ENDS).replace("HH", delimiter).replace("N", self.digits(self.length()))

    def data(self, form: str) -> bytes:
        """Bytes that a command of this form may write."""
        data = self.content(self.size(min(self.bits, 8)))
        try:
            model.WRITES[form][0](data)
        except model.BadLine:
            return self.text(self.size(min(self.bits, 6))).replace(b"\0", b"")
        return data

    def words(self, form: str) -> str:
        """Words in a form of gate/sessions/model.py, which in a session with bad lines sometimes are none."""
        said = [self.choice([*"ui"]) + self.choice(["8", "16", "32", "64", "128"]) if it == "W" else it for it in form.split(" ")]
        name = said[0]
        for place, letters in enumerate(said):
            if letters == "V":
                said[place] = self.value(model.values_of(form, name))
            elif letters == "N":
                said[place] = self.digits(self.length())
            elif letters == "HEX":
                said[place] = self.hexadecimal(self.data(form))
            elif letters == "ORD":
                said[place] = self.choice(["le", "be"])
            elif letters == "T":
                said[place] = self.end()
        if self.kind == BAD and self.chance(3):
            said[self.randrange(len(said))] = self.choice(BAD_WORDS)
        return " ".join(said)

    def command(self) -> str:
        verb = self.choice(["pread", "pread", "pwrite", "gread", "gwrite"])
        forms = model.READS if verb[1:] == "read" else model.WRITES
        words = self.words(self.choice([it for it in forms if it.split(" ")[0] == self.kind] or [*forms]))
        return f"{verb} {self.digits(self.offset())} {words}" if verb[0] == "p" else f"{verb} {words}"

    def spoil(self, given: bytes) -> bytes:
        """Changes a byte, so that its line is probably a bad one."""
        place = self.randrange(len(given) + 1)
        before, after = given[:place], given[place:]
        added = bytes([self.choice(b" \n\t\r-+0f")])
        changed = [after[1:], added + after, added + after[1:], b"", after.swapcase()]
        return before + self.choice(changed)

    def session(self) -> bytes:
        """The input of a session."""
        is_long = self.kind == LONG
        bits = min(self.bits, 10) if is_long else self.bits
        self.buffer = self.content(max(self.size(bits), self.size(bits)))
        most = model.LONGEST_INPUT if is_long else min(self.size(min(self.bits, 9)), 2**18 // (len(self.buffer) + 1))
        head, cursor = f"buffer {self.hexadecimal(self.buffer)}\ncursor ", f"{self.digits(0 if self.chance(50) else self.offset())}\n"
        commands: List[str] = []
        left = model.LONGEST_INPUT - len(head + cursor)
        while len(commands) < most and left > 0:
            commands.append(self.command() + "\n")
            left -= len(commands[-1])
        if is_long:
            # (zeros before the cursor, up to about the greatest length)
            commands.pop()
            head += "0" * (model.LONGEST_INPUT + self.randint(-2, 2) - len("".join([head, cursor, *commands])))
        given = "".join([head, cursor, *commands]).encode()
        for _ in range(self.randint(1, 3) if self.kind == BAD and self.chance(60) else 0):
            given = self.spoil(given)
        return given[:-1] if self.chance(10) else given


def draw_session(seed: int, number: int, bits: int) -> Tuple[str, bytes]:
    """Returns the kind of a session and its input."""
    draw = Draw(f"{seed} {number}")
    draw.kind = draw.choice([*NAMES, *[ALL, BAD] * MIXED]) if draw.randrange(LONG_ONES) else LONG
    draw.bits = bits
    return draw.kind, draw.session()
