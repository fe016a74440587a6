#!/usr/bin/env python3
"""Replays the stored sessions, whole and with their buffers cut.

    python3 gate/sessions/stored.py [--program PROGRAM] [NAME..]
    python3 gate/sessions/stored.py --unpack FOLDER [NAME..]

Each file sessions/SUBJECT.txt holds sessions, one a block; crates/scroll_run/README.md says what their lines are, and
its own first session is one more, `readme`. Those of the subject `long` are made by gate/sessions/long.py. A NAME is that of a
session, or a subject, for all of its sessions. Without one, all are tried.

PROGRAM is a path, or a name that the shell finds. Without it the program is crates/scroll_run/out/scroll_run, as
`rt run` or `rt ci` left it; if it is missing, or older than a file that it is made of, `rt run` first proves and builds
it. `--unpack` replays nothing: it writes FOLDER/SUBJECT/NAME.in, NAME.out and, where it isn't 0, NAME.status.

A stored session is run by the program, and again by gate/sessions/model.py. One with status 0 is also run with its buffer cut to
every length; what the program prints then is what the model says. These are three checks, and the form of all files is one. A malformed
block, a name that stands twice and a file of another kind are failures.
"""

import argparse
import os
import re
import shutil
import subprocess
import sys
from concurrent.futures import ThreadPoolExecutor
from dataclasses import dataclass
from pathlib import Path
from typing import Dict, Iterator, List, Optional, Tuple

sys.path.insert(0, str(Path(__file__).resolve().parents[1]))
import markdown
from sessions import model
from sessions.long import long_sessions
from step import TOP, Step, count_workers, run_step

PAGE = TOP / "crates" / "scroll_run" / "README.md"
SESSIONS = TOP / "sessions"
PROGRAM = TOP / "crates" / "scroll_run" / "out" / "scroll_run"

NAME = re.compile(r"# ([a-z][a-z0-9_]*)")
ESCAPE = re.compile(r"\\x([0-9a-f]{2})(?:\{(\d+)\})?")


class Malformed(Exception):
    """A file of sessions isn't in the form that crates/scroll_run/README.md says."""


@dataclass
class Session:
    subject: str
    name: str
    status: int = 0
    input: bytes = b""
    output: bytes = b""
    # Its output is the model's, and its buffer isn't cut.
    is_made: bool = False

    def digits(self) -> bytes:
        """Returns the digits of the buffer; none if the input doesn't begin with one, or it has no bytes."""
        found = re.match(rb"buffer ((?:[0-9A-Fa-f]{2})+)\n", self.input)
        return found[1] if found else b""

    def cut_lengths(self) -> range:
        """Returns the lengths to which the buffer is cut."""
        return range(0 if self.is_made or self.status else len(self.digits()) // 2)

    def cut(self, length: int) -> Tuple[bytes, bytes]:
        """Returns the input with the buffer cut to a length, and the output for it."""
        digits = self.digits()
        given = b"buffer " + (digits[: 2 * length] or b"-") + self.input[7 + len(digits) :]
        return given, model.answer(given)[1]


def read_block(subject: str, lines: List[str]) -> Iterator[Session]:
    """Reads the lines of a session, or of one for each `?` line."""
    head = NAME.fullmatch(lines[0])
    if not head:
        raise Malformed(f"`{lines[0]}` is no line `# NAME`, with a name of small letters, digits and `_`")
    texts = [it[2:] for it in lines if it.startswith("? ")]
    if not texts:
        yield read_session(subject, head[1], lines[1:])
    plain = [it for it in lines[1:] if not it.startswith("? ")]
    for number, text in enumerate(texts, 1):
        yield read_session(subject, f"{head[1]}_{number}", [it.replace("{}", text) if it[:1] == "<" else it for it in plain])


def read_session(subject: str, name: str, lines: List[str]) -> Session:
    """Reads the lines of one session."""
    session = Session(subject, name)
    inputs: List[bytes] = []
    outputs: List[bytes] = []
    for line in lines:
        if not (line.isascii() and line.isprintable()) or line.endswith(" "):
            raise Malformed(f"{line!r} has a byte that is no printable ASCII, or a space at its end: write `\\xHH`")
        mark, _, text = line.partition(" ")
        if mark == "<":
            inputs.append(unescape(text))
        elif mark == ">":
            outputs.append(text.encode() + b"\n")
        elif mark == "status" and re.fullmatch("[1-9][0-9]*", text) and not session.status:
            session.status = int(text)
        else:
            raise Malformed(f"`{line}` is no line of a session, or stands twice")
    if not inputs or not outputs or any(not it.endswith(b"\n") for it in inputs[:-1]):
        raise Malformed("it has no input or no output, or a line that isn't the last has no line feed")
    session.input, session.output = b"".join(inputs), b"".join(outputs)
    return session


def unescape(text: str) -> bytes:
    """Returns the bytes of an input line, whose line feed is left out if it ends with a `\\`."""
    text, end = (text[:-1], "") if text.endswith("\\") else (text, "\n")
    plain = ESCAPE.sub(lambda it: chr(int(it[1], 16)) * int(it[2] or 1), text)
    if "\\" in ESCAPE.sub("", text):
        raise Malformed(f"`{text}` has a `\\` that is neither at its end nor before `xHH`")
    return (plain + end).encode("latin-1")


def block_of(session: Session) -> str:
    """Returns the lines of a session, as they can be stored."""
    *lines, last = session.input.decode("latin-1").split("\n")
    given = [*map(escape, lines), *([escape(last) + "\\"] if last or not lines else [])]
    status = [f"status {session.status}"] if session.status else []
    said = [f"> {it}" for it in session.output.decode().splitlines()]
    return "\n".join([f"# {session.name}", *status, *(f"< {it}".rstrip(" ") for it in given), *said])


def escape(line: str) -> str:
    return re.sub(r"[^ -~]|\\| $", lambda it: f"\\x{ord(it[0]):02x}", line)


def read_sessions(failures: List[str]) -> List[Session]:
    """Reads all files. A block that is malformed, a name that stands twice and a file of another kind are failures."""
    sessions: Dict[str, Session] = {}
    for path in sorted(SESSIONS.glob("*.txt")):
        for block in path.read_bytes().decode().rstrip("\n").split("\n\n"):
            try:
                for session in read_block(path.stem, block.split("\n")):
                    if session.name in sessions:
                        raise Malformed("the name stands twice")
                    sessions[session.name] = session
            except Malformed as why:
                head = block.partition("\n")[0]
                failures.append(f"{path.relative_to(TOP)}, {head}: {why}")
    blocks = [it.code for it in markdown.read(PAGE).blocks if it.section == "A session"]
    if len(blocks) == 2:
        whole, output = ("".join(f"{line}\n" for line in it).encode() for it in blocks)
        sessions["readme"] = Session("page", "readme", input=whole, output=output)
    else:
        failures.append("crates/scroll_run/README.md has no session with its input and its output")
    for name, given in long_sessions().items():
        sessions[name] = Session("long", name, 0, given, model.answer(given)[1], is_made=True)
    failures += [f"{it.relative_to(TOP)}: it is no file of sessions" for it in sorted(SESSIONS.iterdir()) if it.suffix != ".txt"]
    return list(sessions.values())


def run(program: str, given: bytes) -> Tuple[int, bytes, bytes]:
    ran = subprocess.run([program], input=given, capture_output=True)
    return ran.returncode, ran.stdout, ran.stderr


def fault_of(ran: Tuple[int, bytes, bytes], status: int, output: bytes) -> Optional[str]:
    """Returns what is wrong with a run, with the first line in which the output differs."""
    found_status, found, error = ran
    if found_status == status and found == output:
        return None
    why = "the output differs" if found_status == status else f"the exit status is {found_status}, and {status} is wanted"
    pairs = zip([*output.splitlines(), b""], [*found.splitlines(), b""])
    number, wanted, there = next(((i, a, b) for i, (a, b) in enumerate(pairs, 1) if a != b), (0, b"", b""))
    said = [f"    line {number} is wanted:  {wanted!r}"[:160], f"    line {number} is there:   {there!r}"[:160]] if number else []
    said += [f"    standard error: {it!r}"[:160] for it in error.splitlines()[:4]]
    return "\n".join([why, *said])


def replay(program: str, session: Session) -> Optional[str]:
    """Returns what is wrong with a session."""
    return fault_of(run(program, session.input), session.status, session.output)


def replay_cuts(program: str, session: Session) -> Optional[str]:
    """Returns what is wrong with the first cut of a session at which something is."""
    for length in session.cut_lengths():
        given, output = session.cut(length)
        fault = fault_of(run(program, given), 0, output)
        if fault:
            return f"the buffer cut to {length} bytes: {fault}"
    return None


def is_current() -> bool:
    """Returns whether the proved program exists, and no file that it is made of is newer."""
    if not os.access(PROGRAM, os.X_OK):
        return False
    built = PROGRAM.stat().st_mtime
    parts = [TOP / "crates" / crate / part for crate in ("scroll", "scroll_run") for part in ("src", "specs", "proofs")]
    sources = [it for part in parts for it in part.rglob("*.*t")]
    return all(it.stat().st_mtime <= built for it in [TOP / "crates.txt", *sources])


def find_program(given: Optional[str]) -> Optional[str]:
    """Returns the program, which is proved and built first if it must be."""
    if given:
        return shutil.which(given)
    if not is_current():
        print("sessions: rt run proves and builds the program", flush=True)
        # (a program that was built and then failed is replayed anyway: its differences say more)
        subprocess.run(["rt", "run"], cwd=PROGRAM.parents[1], input=b"buffer -\ncursor 0\n", stdout=sys.stderr)
    return str(PROGRAM) if is_current() else None


def unpack(sessions: List[Session], folder: Path) -> None:
    for it in sessions:
        path = folder / it.subject / it.name
        path.parent.mkdir(parents=True, exist_ok=True)
        path.with_suffix(".in").write_bytes(it.input)
        path.with_suffix(".out").write_bytes(it.output)
        if it.status:
            path.with_suffix(".status").write_text(f"{it.status}\n")


def replay_all(step: Step, program: str, sessions: List[Session]) -> None:
    """Replays sessions, whole and cut, and counts them."""
    cut = [it for it in sessions if it.cut_lengths()]
    with ThreadPoolExecutor(count_workers()) as pool:
        wholes = pool.map(lambda it: (it, replay(program, it)), sessions)
        cuts = pool.map(lambda it: (it, replay_cuts(program, it)), cut)
        for it, fault in [*wholes, *cuts]:
            step.count(f"{it.subject}/{it.name}", fault)
    stored = [it for it in sessions if not it.is_made]
    for it in stored:
        step.count(f"{it.subject}/{it.name}, by gate/sessions/model.py", fault_of((*model.answer(it.input), b""), it.status, it.output))
    cuts_in_all = sum(len(it.cut_lengths()) for it in cut)
    step.tell(f"{len(sessions)} sessions, {len(stored)} of them stored, and {cuts_in_all} cuts of the buffers of {len(cut)}")


def choose(sessions: List[Session], names: List[str], failures: List[str]) -> List[Session]:
    """Returns the sessions of these names and subjects, or all without one."""
    known = {name for it in sessions for name in (it.name, it.subject)}
    failures += [f"there is no session {it}" for it in names if it not in known]
    return [it for it in sessions if not names or {it.name, it.subject} & {*names}]


def work(step: Step, given: argparse.Namespace) -> None:
    failures: List[str] = []
    chosen = choose(read_sessions(failures), given.names, failures)
    for failure in failures:
        step.count(failure, "")
    step.passed += not failures
    program = None if given.unpack else find_program(given.program)
    if given.unpack:
        unpack(chosen, given.unpack)
    elif program:
        replay_all(step, program, chosen)
    else:
        step.count(f"there is no program {given.program}" if given.program else "rt run did not prove and build crates/scroll_run", "")


def main() -> int:
    words = argparse.ArgumentParser(description="Replays the stored sessions.")
    words.add_argument("--program", help="the program, in place of the one that was proved")
    words.add_argument("--unpack", type=Path, metavar="FOLDER", help="writes the sessions as plain files, and replays none")
    words.add_argument("names", nargs="*", metavar="NAME", help="a session, or a subject")
    given = words.parse_args()
    return run_step("sessions", lambda step: work(step, given))


if __name__ == "__main__":
    sys.exit(main())
