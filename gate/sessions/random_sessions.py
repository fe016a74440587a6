#!/usr/bin/env python3
"""Runs random sessions by the program, and compares its answers with those of gate/sessions/model.py.

    python3 gate/sessions/random_sessions.py [--program PROGRAM] [--seed SEED] [--count COUNT] [--lie]

COUNT sessions (20000) are drawn from SEED, which is printed, and without the flag is another one each time. Their sizes grow, up to
inputs of 65,536 bytes, and they are of the kinds of gate/sessions/draw.py. PROGRAM is as in gate/sessions/stored.py; compare/run.sh
gives the Rust crate behind compare/src/spoken.rs.

The first session of each kind in which an answer differs is made smaller while one still differs. It is printed as it can be
stored, with the model's answers, and then what the program answers. With `--lie` the model is wrong at one place, and the run has
to fail. A kind is a check, and so is a short run with `--lie`.
"""

import argparse
import itertools
import sys
import time
from concurrent.futures import ProcessPoolExecutor
from functools import partial
from pathlib import Path
from typing import Dict, Iterator, List, NamedTuple, Optional, Tuple

sys.path.insert(0, str(Path(__file__).resolve().parents[1]))
from sessions import model
from sessions.draw import KINDS, draw_session
from sessions.stored import Session, block_of, fault_of, find_program, run
from step import Step, Stop, count_workers, run_step

# How many sessions a process takes at once.
BLOCK = 100
# The sizes of buffers, as powers of two. (The longest don't fit in an input.)
LEAST_BITS, MOST_BITS = 2, 15
SECONDS_TO_SHRINK = 5
LIES = 400


class Run(NamedTuple):
    """So many sessions from a seed."""

    program: str
    seed: int
    count: int

    def draw(self, number: int) -> Tuple[str, bytes]:
        """Returns the kind of a session and its input."""
        return draw_session(self.seed, number, LEAST_BITS + number * (MOST_BITS + 1 - LEAST_BITS) // self.count)


def fault_in(program: str, given: bytes) -> Optional[str]:
    """Returns in what the program differs from the model."""
    return fault_of(run(program, given), *model.answer(given))


def lie() -> None:
    """Makes the model wrong at one place."""
    model.LONGEST_LEB128 = 9


def try_block(tried: Run, first: int) -> List[Tuple[str, int, bool]]:
    """Returns the kinds and the numbers of some sessions, and whether an answer differs."""
    found = []
    for number in range(first, min(first + BLOCK, tried.count)):
        kind, given = tried.draw(number)
        found.append((kind, number, fault_in(tried.program, given) is not None))
    return found


def try_all(tried: Run, lies: bool) -> Dict[str, List[Tuple[int, bool]]]:
    """Returns for each kind the numbers of its sessions, and whether an answer differs."""
    kinds: Dict[str, List[Tuple[int, bool]]] = {it: [] for it in KINDS}
    with ProcessPoolExecutor(count_workers(), initializer=lie if lies else None) as pool:
        for block in pool.map(partial(try_block, tried), range(0, tried.count, BLOCK)):
            for kind, number, differs in block:
                kinds[kind].append((number, differs))
    return {kind: found for kind, found in kinds.items() if found}


def without_parts(length: int) -> Iterator[Tuple[int, int]]:
    """Parts of so many items to leave out: first halves, last single items."""
    size = (length + 1) // 2
    while size:
        for start in range(0, min(length, 100 * size), size):
            yield start, start + size
        size //= 2


def simpler_words(word: bytes) -> Iterator[bytes]:
    """Words with a lower number, fewer bytes, or zeros for some."""
    minus, digits = word[:1] == b"-", word.lstrip(b"-")
    if digits.isdigit() and len(digits) < 50:
        number = int(digits)
        for other in (0, number // 2, number - 1):
            yield from [b"%d" % other, b"-%d" % other][: 1 + minus] if other >= 0 else ()
    if len(word) % 2 == 0:
        for start, end in without_parts(len(word) // 2):
            yield word[: 2 * start] + word[2 * end :] or b"-"
            yield word[: 2 * start] + b"0" * (2 * (min(end, len(word) // 2) - start)) + word[2 * end :]


def smaller(given: bytes) -> Iterator[bytes]:
    """Inputs with lines left out, or with a word that is simpler."""
    lines = given.split(b"\n")
    # (what follows the last line feed is left alone)
    for start, end in without_parts(len(lines) - 1):
        yield b"\n".join([*lines[:start], *lines[min(end, len(lines) - 1) :]])
    for number, line in enumerate(lines[:60]):
        words = line.split(b" ")
        for place, word in enumerate(words):
            for other in simpler_words(word):
                changed = b" ".join([*words[:place], other, *words[place + 1 :]])
                yield b"\n".join([*lines[:number], changed, *lines[number + 1 :]])


def weight(given: bytes) -> Tuple[int, int, int]:
    return given.count(b"\n"), len(given), sum(given)


def shrink(program: str, given: bytes) -> bytes:
    """Returns the smallest input found in some seconds at which an answer differs too."""
    until = time.monotonic() + SECONDS_TO_SHRINK
    while True:
        lighter = (it for it in smaller(given) if weight(it) < weight(given))
        in_time = itertools.takewhile(lambda _: time.monotonic() < until, lighter)
        found = next((it for it in in_time if fault_in(program, it)), None)
        if found is None:
            return given
        given = found


def show(tried: Run, number: int) -> str:
    """Returns a session in which an answer differs, made small, and what the program answers."""
    given = shrink(tried.program, tried.draw(number)[1])
    status, output = model.answer(given)
    block = block_of(Session("", f"random_{tried.seed}_{number}", status, given, output))
    return f"\n{block}\n\n{fault_in(tried.program, given)}"


def work(step: Step, given: argparse.Namespace) -> None:
    program = find_program(given.program)
    if not program:
        raise Stop("there is no program")
    tried = Run(program, given.seed, given.count)
    step.tell(f"seed {tried.seed}")
    if given.lie:
        lie()
    kinds = try_all(tried, given.lie)
    for kind, found in kinds.items():
        differing = [number for number, differs in found if differs]
        fault = f"{len(differing)} of {len(found)} sessions differ:\n{show(tried, differing[0])}" if differing else None
        step.count(kind, fault)
    step.tell(", ".join(f"{len(found)} of {kind}" for kind, found in kinds.items()))
    if not given.lie:
        lies = try_all(Run(program, tried.seed, LIES), True)
        is_found = any(differs for found in lies.values() for _, differs in found)
        step.count("a model that is wrong", None if is_found else "its sessions don't differ")


def main() -> int:
    words = argparse.ArgumentParser(description="Compares the program with gate/sessions/model.py on random sessions.")
    words.add_argument("--program", help="the program, in place of the one that was proved")
    words.add_argument("--seed", type=int, default=time.time_ns() // 1000 % 10**9, help="from which the sessions are drawn")
    words.add_argument("--count", type=int, default=20000, help="how many sessions are run")
    words.add_argument("--lie", action="store_true", help="makes the model wrong at one place")
    given = words.parse_args()
    return run_step("random_sessions", lambda step: work(step, given))


if __name__ == "__main__":
    sys.exit(main())
