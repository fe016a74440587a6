#!/usr/bin/env python3
"""Draws descriptions of structs, has them printed by tools/derive and proved, and compares what that code reads and writes.

    python3 gate/descriptions/random_descriptions.py [SEED [COUNT]]

COUNT structs (8) are drawn from SEED (34:24) by gate/descriptions/draw.py, of 2 to 14 fields of all kinds that tools/derive takes,
nested to depth 3; the last of twenty-four is nested to depth 10. (`34:24` is the twenty-fifth draw from 34, which has lists to their last
values, and a pointer to a struct of a fixed size.) `python3 tools/derive` prints what they need, in crates of some structs over
the libraries as `rt lib` proves them in this repository. Each struct has functions that use it, with no proof by hand: a reader that
says where fields stand and which error a short source is, a writer that reads a field back, a walk over a list, a read of what
a pointer says, and without floats a copier. `rt check` proves each crate.

Then values are drawn, and their bytes made, by gate/descriptions/structs.py, which knows the descriptions alone. A program of
the same text, which promises nothing more and so is built by `rt try`, reads them, and them cut, with each number one greater
and at its greatest, counts, constants and tags among these, and with bytes that are damaged at random; it also changes fields
before it writes a value, so that counts disagree, and writes into targets that are too small. It prints the error, or the size
and a digest of all fields that it read, and what it wrote; each has to be what the description says. Where a float is no
number, nothing is compared.

Each struct is a check that it is proved, and a check that it agrees. One that isn't proved is named with its functions that
aren't, and with the prover's reasons; with `--keep FOLDER` the crates stay there. That each kind is in a struct is a check where
COUNT is at least 24; so is that a false claim of a reader is refused, and that a lie in what is expected is found.
"""

import argparse
import contextlib
import random
import re
import shutil
import subprocess
import sys
import time
from concurrent.futures import ThreadPoolExecutor
from pathlib import Path
from typing import Dict, Iterator, List, NamedTuple, Optional

sys.path.insert(0, str(Path(__file__).resolve().parents[1]))
from descriptions import draw, draw_numbers
from descriptions.counts import UNSIGNED, Hopeless, Plain, Refused, Sum
from descriptions.kinds import Leb, Number, Slice
from descriptions.pointers import pointers_of
from descriptions.program import changes_of, print_main, print_tried
from descriptions.structs import Field, Struct
from descriptions.users import print_module, read
from edits.judge import WAITS
from step import FOLDERS, TOP, Ran, Step, Stop, below, copy_kept, count_workers, read_crates, run_step

LIBRARY = "scroll_layouts"
SEED, COUNT = "34:24", 8
# How often structs are drawn again, so that they have all kinds.
AGAIN = 500
# How many structs are in a crate at most: the more, the more memory a check takes.
MOST = 2
# The crate of the program.
TRIED = "tried"
# How many values of a struct are tried, and how many cuts and damages of each.
VALUES, CUTS, DAMAGES = 12, 40, 30
# How many bytes the program may print of a struct. (`rt try` takes 1 MiB.)
MOST_TOLD = 900_000
VERDICT = re.compile(r"(?m)^(?:so far: )?((?:fn|impl|struct|enum) (\w+)::(\w+)::\S+): (.*)")
PRIME = 1_099_511_628_211
# A struct about which a false claim is made.
LIE = "Lie"
# What is printed where a float is no number, whose bits aren't said.
NAN = "anything"


class Module(NamedTuple):
    """A module of a crate: what is drawn, its text, and the functions that use the struct."""

    crate: str
    made: draw.Drawn
    text: str
    users: List[str]

    @property
    def name(self) -> str:
        return self.made.struct.name.lower()


def draw_all(seed: str, count: int) -> List[Module]:
    """Draws structs of all kinds, if they are that many."""
    seed, _, first = seed.partition(":")
    for again in range(int(first or 0), AGAIN):
        modules = draw_modules(f"{seed} {again}", count)
        if count < draw_numbers.ALL or not missing_of(modules):
            break
    return modules


def missing_of(modules: List[Module]) -> List[str]:
    return [kind for kind in (*draw_numbers.KINDS, *draw_numbers.OTHERS) if not any(kind in it.made.kinds for it in modules)]


def draw_modules(seed: str, count: int) -> List[Module]:
    """Draws structs, and prints each as a module."""
    modules, bag, again = [], [], 0
    for at in range(count):
        if len(bag) < len(draw_numbers.KINDS):
            more = [*draw_numbers.KINDS]
            random.Random(f"{seed} {at}").shuffle(more)
            bag += more
        crate = f"formats{at % -(-count // MOST)}"
        made = draw.draw(f"F{at}", f"{seed} {at}", at, bag)
        while not has_values(made.struct):
            again += 1
            made = draw.draw(f"F{at}", f"{seed} {at} {again}", at, bag)
        text = print_module(made, crate)
        modules.append(Module(crate, made, text, re.findall(r"(?m)^pub fn (\w+)", text)))
    return modules


def has_values(struct: Struct) -> bool:
    """Returns whether values that agree are found. (Some counts exclude each other.)"""
    for at in range(20):
        with contextlib.suppress(Hopeless):
            return bool(struct.draw(str(at), "big"))
    return False


# What is compared


class Case(NamedTuple):
    """A line of the program's input, and what it prints for it."""

    line: str
    wanted: str


def digest(mixed: bytes) -> int:
    made = 0
    for it in mixed:
        made = (made ^ it) * PRIME % 2**64
    return made


def answer(struct: Struct, source: bytes, order: str, change: int, room: int) -> str:
    """Returns what the program prints, by the description."""
    try:
        value, end = struct.take(source, 0, order)
    except Refused as refused:
        return str(refused)
    pointed = [kind.found(source, value[name][0], order) for name, kind in pointers_of(struct)]
    if struct.is_nan(value) or any(it and it[0].is_nan(it[1]) for it in pointed):
        return NAN
    mixed = b"".join(it[0].mixed(it[1], order) if it else b"\2" for it in pointed)
    whole = struct.put(value, order)
    mixed += appended(whole)
    mixed += struct.mixed(value, order) if struct.is_fixed else appended(3 * whole)
    said = f"{digest(struct.mixed(value, order) + mixed)} {end}"
    changes = changes_of(struct)
    if change:
        of = changes[change - 1][0]
        value = {**value, of.name: changed(of, value[of.name])}
    try:
        struct.check(value, order)
        made = struct.put(value, order)
        if len(made) > room:
            raise Refused(f"type is too big ({len(made)}) for {room}")
    except Refused as refused:
        return f"{said} {refused}"
    return f"{said} {made.hex()}"


def appended(made: bytes) -> bytes:
    """Returns what bytes that were appended add to a digest."""
    return len(made).to_bytes(8, "little") + made


def changed(of: Field, value: object) -> object:
    """Returns a field as the program changes it."""
    if of.condition:
        return None
    if isinstance(of.kind, Number):
        assert isinstance(value, int)
        return (value + 1) % 256**of.kind.of.width
    return b"a b\n"


def cases_of(struct: Struct, seed: str) -> Iterator[Case]:
    """Returns what the program is asked, as long as its answers have room."""
    told = 0
    for it in every_case(struct, seed):
        told += len(it.wanted) + 1
        if told > MOST_TOLD:
            return
        yield it


def every_case(struct: Struct, seed: str) -> Iterator[Case]:
    rng, name = random.Random(seed), struct.name.lower()
    found = 0
    for at in range(20 * VALUES):
        order = rng.choice(["little", "big"])
        try:
            value = struct.draw(f"{seed} {at}", order)
        except Hopeless:
            continue
        made = struct.put(value, order)
        sources = [made, made + b"\x00\xff", *(made[:cut] for cut in rng.sample(range(len(made)), min(CUTS, len(made))))]
        sources += wrong_numbers(struct, value, order)
        sources += [damaged(made, rng) for _ in range(DAMAGES)]
        sources.append(struct.put(value, "little" if order == "big" else "big"))
        for source in sources:
            yield ask(struct, name, source, order, 0, len(source) + 8)
        for change in range(1, len(changes_of(struct)) + 1):
            yield ask(struct, name, made, order, change, len(made) + 40)
        for room in {len(made) - 1, rng.randrange(len(made))}:
            yield ask(struct, name, made, order, 0, room)
        found += 1
        if found == VALUES:
            return


def ask(struct: Struct, name: str, source: bytes, order: str, change: int, room: int) -> Case:
    return Case(f"{name} {order} {change} {room} {source.hex()}", answer(struct, source, order, change, room))


def wrong_numbers(struct: Struct, value: Dict[str, object], order: str) -> Iterator[bytes]:
    """Returns the bytes with each number one greater, and at its greatest: counts, constants, tags and conditions among them."""
    for it in struct.fields:
        kind, number = it.kind, value[it.name]
        if it.condition or not (isinstance(kind, (Leb, Number)) and kind.type in (*UNSIGNED, "Uleb", "Vlq")):
            continue
        if isinstance(kind, Leb):
            assert isinstance(number, tuple)
            for other in (number[0] + 1, 2**64 - 1):
                yield struct.put({**value, it.name: (other, max(number[1], kind.least(other)))}, order)
        else:
            assert isinstance(number, int)
            greatest = (1 << (kind.bits or 8 * kind.of.width)) - 1
            for other in {min(number + 1, greatest), greatest}:
                yield struct.put({**value, it.name: other}, order)


def damaged(made: bytes, rng: random.Random) -> bytes:
    """Returns bytes of which one bit, or one to three bytes are others."""
    found = bytearray(made)
    if rng.random() < 0.4:
        found[rng.randrange(len(found))] ^= 1 << rng.randrange(8)
        return bytes(found)
    for _ in range(rng.choice([1, 1, 2, 3])):
        found[rng.randrange(len(found))] = rng.choice([0, 1, 127, 128, 255, rng.randrange(256)])
    return bytes(found)


def differences(cases: List[Case], lines: List[str]) -> List[str]:
    """Returns where the program printed what isn't wanted."""
    if len(lines) != len(cases):
        return [f"    {len(lines)} lines for {len(cases)}: {''.join(lines[-1:])[:200]}\n"]
    others = [(it, line) for it, line in zip(cases, lines) if it.wanted not in (line, NAN)]
    return [f"    {it.line[:300]}\n    wanted {it.wanted[:300]}\n    got    {line[:300]}\n" for it, line in others]


# What is proved


def claim_falsely(crate: str) -> Module:
    """Returns a module of a small struct, with an error that its reader doesn't return."""
    struct = Struct(LIE, [Field("f0", Number(Plain("u16"))), Field("f1", Slice(Sum([("f0", 1)])))])
    made = draw.Drawn(struct, [struct], [])
    return Module(crate, made, print_module(made, crate).replace("TooBig 2 ", "TooBig 3 "), [f"read_{LIE.lower()}"])


def write_crate(step: Step, top: Path, name: str, texts: Dict[str, str]) -> Path:
    """Writes a crate in a workspace of its own, over the libraries with their builds, and returns its folder."""
    crates, room = read_crates(), top / name
    libraries = [*below(LIBRARY, crates), LIBRARY]
    for it in libraries:
        copy_kept(crates[it].folder, room / "crates" / it, [*FOLDERS, "incremental"])
    lines = [*(crates[it].line for it in libraries), f"{name}: {' '.join(libraries)} hex"]
    (room / "crates.txt").write_text("".join(f"{it}\n" for it in lines), encoding="utf-8")
    (room / "HANDLES").write_bytes((TOP / "HANDLES").read_bytes())
    folder = room / "crates" / name
    (folder / "src").mkdir(parents=True)
    for it, text in texts.items():
        path = folder / "src" / f"{it}.rt"
        path.parent.mkdir(parents=True, exist_ok=True)
        path.write_text(text, encoding="utf-8")
    ran = step.run(top, sys.executable, TOP / "tools" / "derive", folder)
    if ran.status:
        raise Stop(f"tools/derive refuses {name}\n{ran.end()}")
    return folder


def write_proved(step: Step, top: Path, name: str, modules: List[Module]) -> Path:
    """Writes a crate of modules that are to be proved."""
    texts = {it.name: it.text for it in modules if it.crate == name}
    head = "//! Structs that were drawn, and what uses them.\n#![tactic(auto)]\n\n"
    return write_crate(step, top, name, {**texts, "lib": head + "".join(f"pub mod {it};\n" for it in texts)})


def write_program(step: Step, top: Path, modules: List[Module]) -> Path:
    """Writes the program over the same modules."""
    texts = {it.name: print_module(it.made, TRIED) for it in modules}
    tried = {f"try_{it.name}": print_tried(it.made) for it in modules}
    return write_crate(step, top, TRIED, {**texts, **tried, "told": read("told"), "main": print_main([*texts])})


def fault_of(module: Module, said: str) -> Optional[str]:
    """Returns what of a module isn't proved."""
    place = (module.crate, module.name)
    verdicts = {what: verdict for what, crate, name, verdict in VERDICT.findall(said) if (crate, name) == place}
    open_ones = {what: verdict for what, verdict in verdicts.items() if verdict != "proved"}
    missing = [it for it in module.users if f"fn {module.crate}::{module.name}::{it}" not in verdicts]
    if not open_ones and not missing:
        return None
    own = {what: verdict for what, verdict in open_ones.items() if not WAITS.search(verdict)} or open_ones
    errors = re.findall(rf"(?m)^src/{module.name}(?:/derived)?\.rt:\d+:\d+: error.*", said)
    goals = re.findall(rf"(?m)^note: (`.*` of proofs/{module.name}/.* must prove: .*)", said)
    lines = [*(f"{what}: {verdict}" for what, verdict in own.items()), *(f"{it} has no verdict" for it in missing)]
    lines += [*errors, *goals]
    return "".join(f"    {it}"[:400] + "\n" for it in lines)


def judge(step: Step, modules: List[Module], lie: Module, said: str) -> None:
    """Counts what is proved of a crate."""
    for it in modules:
        step.count(f"{it.crate}::{it.name}: {', '.join(dict.fromkeys(it.made.kinds))}", fault_of(it, said))
    if lie.crate == modules[0].crate:
        refused = fault_of(lie, said)
        is_refused = refused and f"fn {lie.crate}::{lie.name}::{lie.users[0]}: no proof" in refused and "-short`" in refused
        step.count("a false claim is proved", None if is_refused else refused or "")


def write_cases(top: Path, cases: Dict[str, List[Case]]) -> Path:
    """Writes the program's input for each struct, and returns the folder."""
    given = top / "cases"
    given.mkdir()
    for name, asked in cases.items():
        (given / name).write_text("".join(f"{it.line}\n" for it in asked), encoding="utf-8")
    return given


def compare(step: Step, cases: Dict[str, List[Case]], ran: Ran) -> None:
    """Compares what the program read and wrote."""
    if ran.status:
        raise Stop(f"the program ends with status {ran.status}\n{ran.end()}")
    # (what it says of each case is on standard error, which comes last)
    parts = re.split(r"(?m)^== (\w+)\n", re.split(r"(?m)^case=", ran.said)[0])
    said = {name: text.splitlines() for name, text in zip(parts[1::2], parts[2::2])}
    for name, asked in cases.items():
        lines = said.get(name, [])
        found = differences(asked, lines)
        step.count(f"{name} agrees", "".join([*found[:3], f"    {len(found)} differ\n"]) if found else None)
        lies = [it._replace(wanted=it.wanted.replace("1", "2", 1)) for it in asked if "1" in it.wanted]
        told = [line for it, line in zip(asked, lines) if "1" in it.wanted]
        step.count(f"a lie about {name} is found", None if len(differences(lies, told)) == len(lies) else "")


def work(step: Step, given: argparse.Namespace) -> None:
    ran = step.run(TOP / "crates" / LIBRARY, "rt", "lib", "--jobs", count_workers())
    if ran.status:
        raise Stop(f"{LIBRARY} is not proved\n{ran.end()}")
    modules = draw_all(given.seed, given.count)
    lie = claim_falsely(modules[-1].crate)
    top = Path(given.keep) if given.keep else step.room
    names = list(dict.fromkeys(it.crate for it in modules))
    program = write_program(step, top, modules)
    cases = {it.name: [*cases_of(it.made.struct, f"{given.seed} {it.name}")] for it in modules}
    inputs = write_cases(top, cases)

    def run(name: str, folder: Path, *words: object) -> Ran:
        begun = time.time()
        ran = step.run(folder, "rt", *words, stderr=subprocess.PIPE)
        step.tell(f"{name}, {time.time() - begun:.0f} s")
        return ran

    def prove(name: str) -> Ran:
        ran = run(name, write_proved(step, top, name, [*modules, lie]), "check", "--jobs", 1)
        if not given.keep:
            shutil.rmtree(top / name)
        return ran

    with ThreadPoolExecutor(count_workers()) as pool:
        proofs = {name: pool.submit(prove, name) for name in names}
        tried = pool.submit(run, TRIED, program, "try", "--steps", 1, "--cases", inputs)
        for name, proof in proofs.items():
            judge(step, [it for it in modules if it.crate == name], lie, proof.result().said)
        compare(step, cases, tried.result())
    if given.count >= draw_numbers.ALL:
        step.count("kinds that no struct has", f"    {', '.join(missing_of(modules))}\n" if missing_of(modules) else None)
    kinds = ", ".join(f"{sum(kind in it.made.kinds for it in modules)} with {kind}" for kind in (*draw_numbers.KINDS, *draw_numbers.OTHERS))
    step.tell(f"seed {given.seed}, {len(modules)} structs, {sum(map(len, cases.values()))} lines compared: {kinds}")


def main() -> int:
    words = argparse.ArgumentParser(description="Proves random descriptions, and compares what the proved code reads and writes.")
    words.add_argument("seed", nargs="?", default=SEED, help="from which the structs are drawn")
    words.add_argument("count", type=int, nargs="?", default=COUNT, help="how many structs are drawn")
    words.add_argument("--keep", help="a new folder in which the crates stay")
    given = words.parse_args()
    return run_step("random_descriptions", lambda step: work(step, given))


if __name__ == "__main__":
    sys.exit(main())
