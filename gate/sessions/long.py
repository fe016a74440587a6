"""Makes the sessions that are too long to be stored. Their outputs are those of gate/sessions/model.py."""

from typing import Callable, Dict, Iterable, Iterator, List

from sessions.model import LONGEST_INPUT

WIDTHS = (8, 64, 32, 8, 128, 32, 16, 128, 64, 16)


def greatest_input_length() -> str:
    """Writes and reads that go over 32 bytes in steps, up to the last byte that an input may have."""
    said = f"buffer {'5a' * 32}\ncursor 4\n"
    for step in range(3423):
        number, is_read = divmod(step, 2)
        said += f"pread {7 * number % 33} u16 le\n" if is_read else f"pwrite {number % 33} u16 be {number * 40503 % 2**16}\n"
    # (zeros before the last offset)
    return said + f"pread {31:0{LONGEST_INPUT - len(said) - 13}} u8 le\n"


def many_commands_at_the_cursor() -> Iterator[str]:
    yield f"buffer {'00' * 2048}\ncursor 11\n"
    for number in range(0, 700, 4):
        widths = [WIDTHS[(number + it) % 10] for it in range(4)]
        yield f"gread u{widths[0]} le\n"
        yield f"gwrite i{widths[1]} be {(55 - 9 * number) % 128}\n"
        yield f"pread {31 * (number + 2) % 2400} u{widths[2]} be\n"
        yield f"pwrite {53 * (number + 3) % 2300} i{widths[3]} le {(35 + number) % 128}\n"


def many_commands_in_one_session() -> Iterator[str]:
    yield f"buffer {'00' * 64}\ncursor 31\n"
    for number in range(997):
        if number % 3:
            yield f"pwrite {37 * number % 61} u32 {['le', 'be'][number % 2]} {2654435761 * number % 2**32}\n"
        else:
            yield f"pread {7 * number % 66} u{[8, 64, 32, 16][number // 3 % 4]} be\n"


def long_sessions() -> Dict[str, bytes]:
    makers: List[Callable[[], Iterable[str]]] = [greatest_input_length, many_commands_at_the_cursor, many_commands_in_one_session]
    return {it.__name__: "".join(it()).encode() for it in makers}
