"""Tables and lists: how they are written, and which bytes a value of them is."""

import random
from typing import Any, List, Tuple

from descriptions.counts import GREATEST, MARK, Fixed, Group, Hopeless, Known, Sum, bad, lines_of, take_bytes
from descriptions.kinds import Kind, Number


class ListBytes(bytes):
    """The bytes of a list or a table that was read, with the order in which its values were read, and their number."""

    order = ""
    count = 0


class Table(Kind):
    """A count of elements of a fixed size."""

    def __init__(self, element: Fixed, count: Sum) -> None:
        super().__init__(f"Table<'a, {element.type}>", [f"ctx = {count.text()}"], count)
        self.element, self.count = element, count

    def size(self, known: Known) -> int:
        return min(self.count.of(known) * self.element.width, GREATEST)

    def draw(self, rng: random.Random, order: str, known: Known) -> bytes:
        return b"".join(self.element.put(self.element.draw(rng), order) for _ in range(self.count.draw(known)))

    def take(self, source: bytes, at: int, order: str, known: Known) -> Tuple[bytes, int]:
        found = ListBytes(take_bytes(source, at, self.size(known)))
        found.order, found.count = order, len(found) // self.element.width
        return found, at + len(found)

    def check(self, value: bytes, order: str, known: Known) -> None:
        assert isinstance(value, ListBytes)
        if value.order != order:
            raise bad(len(value), "another byte order than its values")
        if len(value) != self.size(known):
            raise bad(len(value), "another length than its count")

    def lines(self, path: str) -> List[str]:
        inside = [f"    {it}" for it in ["let made = walked;", *lines_of(self.element, "one"), "walked = made;"]]
        head = [f"let made = mix(made, &{path}.len().to_le_bytes());", "let mut walked = made;"]
        return [*head, f"for one in {path}.elements() {{", *inside, "}", "let made = walked;"]

    def values(self, value: "ListBytes") -> List[Any]:
        return [self.element.take(value, at * self.element.width, value.order) for at in range(value.count)]

    def mixed(self, value: Any, order: str) -> bytes:
        return value.count.to_bytes(8, "little") + b"".join(self.element.put(it, "little") for it in self.values(value))

    def is_nan(self, value: Any) -> bool:
        return any(map(self.element.is_nan, self.values(value)))


# How a list is walked, if not by `values`.
WALKS = {"mark": "values_to_mark", "last": "values_to_last"}
# The types of marks that are so many zeros.
ZEROS = {1: "ZeroUleb", 2: "TwoZeroUlebs"}


class Listing(Kind):
    """Values in so many bytes, so many of them, up to a mark, or up to one that says that it is the last. A struct without fields
    has the name of the list."""

    def __init__(self, name: str, item: Kind, how: str, count: Sum, mark: bytes = b"") -> None:
        notes = {"bytes": "ctx = {}", "values": "ctx = Count({})", "mark": "ctx = ToMark", "last": "ctx = ToLast"}
        super().__init__(f"Items<'a, {name}>", [notes[how].format(count.text())], *([] if how in ("mark", "last") else [count]))
        self.name, self.item, self.how, self.count, self.mark = name, item, how, count, mark
        # A mark that is a number in LEB128, or two, which are zero, however padded.
        self.zeros = 0
        # What holds of the last value alone.
        self.last: Any = None
        # The note that names an error, of a list of numbers.
        self.error = ""

    def print(self) -> str:
        """Prints the struct that has the list's name."""
        ends = f", ends = {[*self.mark]}" if self.mark else f", ends = {ZEROS[self.zeros]}" if self.zeros else ""
        ends = f", last = {self.last.text()}" if self.last else ends
        return f"{MARK}// #[scroll(items = {self.item.type.partition('<')[0]}{ends}{self.error})]\npub struct {self.name};\n"

    def draw(self, rng: random.Random, order: str, known: Known) -> bytes:
        count = self.count.draw(known) if self.how == "values" else rng.randint(0, 3)
        items: List[bytes] = []
        while len(items) < count:
            items.append(self.item.put(self.draw_item(rng, order, False), order))
            if count > 40 or not items[-1] or (self.how == "mark" and self.mark_size(items[-1], 0)):
                raise Hopeless
        if self.how == "bytes":
            self.count.want(known, sum(map(len, items)))
        zeros = b"".join(b"\x80" * rng.randint(0, 2) + b"\0" for _ in range(self.zeros))
        final = self.item.put(self.draw_item(rng, order, True), order) if self.last else b""
        whole = b"".join(items) + self.mark + zeros + final
        if self.how == "mark" and self.end(whole, order, known)[0] != len(whole):
            raise Hopeless
        return whole

    def draw_item(self, rng: random.Random, order: str, is_last: bool) -> Any:
        """Draws a value, which says that it is the last or doesn't."""
        for _ in range(99):
            value = self.item.draw(rng, order, {})
            if self.is_last(value) == is_last:
                return value
        raise Hopeless

    def is_last(self, value: Any) -> bool:
        """Returns whether a value says that it is the last."""
        return bool(self.last) and self.last.holds({name.lstrip("."): it for name, it in self.item.numbers("", value).items()})

    def mark_size(self, source: bytes, at: int) -> int:
        """Returns the size of the mark at an offset, or 0."""
        if not self.zeros:
            return len(self.mark) if source.startswith(self.mark, at) else 0
        end = at
        for _ in range(self.zeros):
            first = next((it for it in range(end, len(source)) if source[it] != 0x80), len(source))
            if source[first : first + 1] != b"\0" or first - end > 9:
                return 0
            end = first + 1
        return end - at

    def take_item(self, source: bytes, at: int, order: str) -> Tuple[Any, int]:
        value, end = self.item.take(source, at, order, {})
        if end == at:
            raise bad(at, "a value has no bytes")
        return value, end

    def end(self, source: bytes, order: str, known: Known) -> Tuple[int, int]:
        """Returns where the values in a source end, with their mark, and how many they are."""
        at = done = 0
        if self.how == "mark":
            while not self.mark_size(source, at):
                at, done = self.take_item(source, at, order)[1], done + 1
            return at + self.mark_size(source, at), done
        if self.last:
            value, at = self.take_item(source, at, order)
            done = 1
            while not self.is_last(value):
                value, at = self.take_item(source, at, order)
                done += 1
            return at, done
        while at < len(source) if self.how == "bytes" else done < self.count.of(known):
            at, done = self.take_item(source, at, order)[1], done + 1
        return at, done

    def take(self, source: bytes, at: int, order: str, known: Known) -> Tuple[bytes, int]:
        left = take_bytes(source, at, self.count.of(known)) if self.how == "bytes" else source[at:]
        end, count = self.end(left, order, known)
        found = ListBytes(left[:end])
        found.order, found.count = order, count
        return found, at + end

    def check(self, value: bytes, order: str, known: Known) -> None:
        assert isinstance(value, ListBytes)
        if value.order != order:
            raise bad(len(value), "another byte order than its values")
        if self.how == "bytes" and len(value) != self.count.of(known):
            raise bad(len(value), "another length than its count")
        if self.how == "values" and value.count != self.count.of(known):
            raise bad(value.count, "another number of values than its count")

    def item_lines(self, path: str) -> List[str]:
        """Returns the lines that add a value of the list to a digest."""
        if isinstance(self.item, Number):
            path += ".0.0" if isinstance(self.item.of, Group) and self.item.of.is_struct else ".0"
        return self.item.lines(path)

    def lines(self, path: str) -> List[str]:
        inside = [f"    {it}" for it in ["let made = walked;", *self.item_lines("one"), "walked = made;"]]
        head = [f"let made = mix(made, &{path}.count.to_le_bytes());", "let mut walked = made;"]
        return [*head, f"for one in {path}.{WALKS.get(self.how, 'values')}() {{", *inside, "}", "let made = walked;"]

    def values(self, value: ListBytes) -> List[Any]:
        """Returns the values of a list that was read."""
        found, at = [], 0
        while len(found) < value.count:
            one, at = self.take_item(value, at, value.order)
            found.append(one)
        return found

    def mixed(self, value: Any, order: str) -> bytes:
        return value.count.to_bytes(8, "little") + b"".join(self.item.mixed(it, order) for it in self.values(value))

    def is_nan(self, value: Any) -> bool:
        return any(map(self.item.is_nan, self.values(value)))
