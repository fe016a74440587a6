#!/usr/bin/env python3
"""Runs the proved program on each stored session with failing allocations and with failing streams, and each proved test of the
libraries with failing allocations. gate/sessions/faults.c replaces malloc, realloc, read and write of the C library.

    python3 gate/sessions/faults.py [CRATE|SESSION|SUBJECT..]

The program is crates/scroll_run/out/scroll_run, and the tests are crates/CRATE/out/CRATE_tests, as rt ci leaves them, or rt run
and rt test leave them. With names, only these sessions, and the tests of these crates, are tried.

| one allocation fails, or all from one on       | status 3 and the one line `out of memory` |
| a read fails; input is a folder, or closed     | status 4, and nothing is printed |
| a write fails; output is closed, or full       | status 4, and some first bytes of the output |
| reads and writes move one byte                 | as usual |
| the first reads and writes are interrupted     | as usual |
| each read, or each write, is interrupted       | status 4, and nothing is printed |
| an allocation of a test fails                  | the test passes, or says that it got this error |

The first allocation fails, then the second, and so on until a run allocates no more; likewise for reads and writes. Of a test that
allocates in a long loop the later allocations fail at growing distances. A session, or a test, passes if all its runs are as in
this table. Without a C compiler only the folder and the closed and full streams are
tried, and the rest is one skipped check.
"""

import itertools
import os
import re
import resource
import shutil
import subprocess
import sys
from concurrent.futures import ThreadPoolExecutor
from dataclasses import dataclass, field
from pathlib import Path
from typing import Callable, Dict, List, Optional, Union

sys.path.insert(0, str(Path(__file__).resolve().parents[1]))
from sessions.stored import PROGRAM, Session, choose, read_sessions
from step import TOP, Step, Stop, count_workers, read_crates, run_step

# How many of the first calls fail in turn where a read and a write move one byte.
FIRST_CALLS = 8
# So many of a test's first allocations fail each in turn.
EACH = 200
# A run takes milliseconds. One that a bug keeps from ending is ended after so many seconds.
LIMIT = 120
ALWAYS = 10**9
NO_MEMORY = b"out of memory\n"
TOLD = re.compile(rb"(?m)(?:^|[ (])(?:AllocError|NoMemory|OutOfMemory)(?:\)| \})*$")


class Wrong(Exception):
    """A run went wrong."""


class Run:
    """A run that has ended."""

    def __init__(self, what: str, status: int, output: bytes, told: bytes) -> None:
        self.what, self.status, self.output = what, status, output
        # Whether a call failed.
        self.is_met = told == b".!"

    def wrong(self, why: str) -> Wrong:
        lines = self.output.decode(errors="replace").splitlines()[:4]
        return Wrong("\n".join([f"    {self.what}: {why}", *(f"    {it}"[:160] for it in lines)]))

    def want(self, status: int, output: bytes) -> None:
        if self.status != status:
            raise self.wrong(f"the exit status is {self.status}, and {status} is wanted")
        if self.output != output:
            raise self.wrong("the output is another")

    def want_met(self) -> None:
        """Expects that a call failed, so that no run passes because nothing failed."""
        if not self.is_met:
            raise self.wrong("no call went wrong: the program doesn't make it by the C library")


@dataclass
class Faults:
    """The compiled gate/sessions/faults.c, if there is a C compiler, and a counter of the runs."""

    step: Step
    library: Optional[Path]
    runs: "itertools.count[int]" = field(default_factory=itertools.count)

    def run(self, what: str, words: List[str], given: Union[int, "os.PathLike[str]"] = subprocess.DEVNULL, **faults: int) -> Run:
        """Runs a command with these faults, such as READ=2, on a file."""
        variables = {f"FAULT_{name}": str(number) for name, number in faults.items()}
        end, start = os.pipe()
        try:
            if self.library:
                variables.update(LD_PRELOAD=str(self.library), FAULT_TOLD=str(start))
            stdin = given if isinstance(given, int) else os.open(given, os.O_RDONLY)
            try:
                how = {"env": {**os.environ, **variables}, "pass_fds": [start], "timeout": LIMIT}
                status, output = self.step.call(*words, stdin=stdin, **how)
            finally:
                if stdin is not given:
                    os.close(stdin)
        finally:
            os.close(start)
            with os.fdopen(end, "rb") as marks:
                told = marks.read(64)
        next(self.runs)
        ran = Run(what, status, output, told)
        if self.library and not told:
            raise ran.wrong("gate/sessions/faults.c was not loaded")
        return ran


def compile_faults(step: Step) -> Faults:
    # (no core file for a run that a bug ends)
    resource.setrlimit(resource.RLIMIT_CORE, (0, resource.getrlimit(resource.RLIMIT_CORE)[1]))
    compiler = next((it for it in os.environ.get("CC", "cc gcc clang").split() if shutil.which(it)), None)
    if not compiler:
        step.tell("left out, since there is no C compiler (cc, gcc or clang): refused memory, and reads and writes that fail")
        step.skipped += 1
        return Faults(step, None)
    library = step.room / "faults.so"
    made = step.run(TOP, compiler, "-O2", "-fPIC", "-shared", "-o", library, "gate/sessions/faults.c")
    if made.status:
        raise Stop(f"gate/sessions/faults.c does not compile\n{made.end()}")
    return Faults(step, library)


@dataclass
class Tried:
    """A session over faults, with its input as a file."""

    faults: Faults
    session: Session
    input: Path

    def run(self, what: str, **faults: int) -> Run:
        return self.faults.run(what, [str(PROGRAM)], self.input, **faults)

    def want_as_ever(self, ran: Run) -> None:
        ran.want(self.session.status, self.session.output)

    def want_prefix(self, ran: Run) -> None:
        """Expects status 4 and some first bytes of the output, and not all."""
        ran.want(4, self.session.output[: len(ran.output)])
        if ran.output == self.session.output:
            raise ran.wrong("the whole output was written")

    def each(self, variable: str, call: str, want: Callable[[Run], None]) -> None:
        """Lets each call fail in turn, until a run makes no more of them."""
        number = 1
        ran = self.run(f"the first {call} fails", **{variable: 1})
        ran.want_met()
        while ran.is_met:
            want(ran)
            number += 1
            ran = self.run(f"{call} {number} fails", **{variable: number})
        self.want_as_ever(ran)

    def memory(self) -> None:
        self.each("MEMORY", "allocation", lambda ran: ran.want(3, NO_MEMORY))
        for number in range(1, FIRST_CALLS + 1):
            ran = self.run(f"each allocation from number {number} on fails", GONE=number)
            if not ran.is_met:
                break
            ran.want(3, NO_MEMORY)

    def streams(self) -> None:
        self.each("READ", "read", lambda ran: ran.want(4, b""))
        self.each("WRITE", "write", self.want_prefix)

    def pieces(self) -> None:
        self.want_as_ever(self.run("a read and a write move one byte", PIECES=1))
        for number in range(1, FIRST_CALLS + 1):
            # (a short input takes fewer reads)
            ran = self.run(f"a read moves one byte, and read {number} fails", PIECES=1, READ=number)
            if ran.is_met:
                ran.want(4, b"")
            ran = self.run(f"a write moves one byte, and write {number} fails", PIECES=1, WRITE=number)
            ran.want_met()
            ran.want(4, self.session.output[: number - 1])

    def interruptions(self) -> None:
        for number in (1, 2, 3):
            self.want_as_ever(self.run(f"the first {number} reads and writes are interrupted", READS=number, WRITES=number))
        what = "a read and a write move one byte, and the first three of each are interrupted"
        self.want_as_ever(self.run(what, PIECES=1, READS=3, WRITES=3))
        self.run("each read is interrupted", READS=ALWAYS).want(4, b"")
        self.run("each write is interrupted", WRITES=ALWAYS).want(4, b"")

    def descriptors(self) -> None:
        """Tries what needs no C file: standard input a folder or closed, standard output closed or full."""
        self.faults.run("standard input is a folder", [str(PROGRAM)], self.input.parent).want(4, b"")
        for what, redirected in (
            ("standard input is closed", "<&-"),
            ("standard output is closed", "2>&1 >&-"),
            ("standard output is full", "2>&1 >/dev/full"),
        ):
            self.faults.run(what, ["sh", "-c", f'exec "$0" {redirected}', str(PROGRAM)], self.input).want(4, b"")

    def all(self) -> None:
        self.descriptors()
        if self.faults.library:
            for part in (self.memory, self.streams, self.pieces, self.interruptions):
                part()


def try_session(faults: Faults, session: Session) -> None:
    file = faults.step.room / "inputs" / session.name
    file.parent.mkdir(exist_ok=True)
    file.write_bytes(session.input)
    Tried(faults, session, file).all()


def try_test(faults: Faults, program: Path, name: str) -> None:
    """Runs one test with its allocations failing in turn. A test that doesn't allocate passes unchanged. One that fails says at
    the end of a line which error it got: `Error: NoMemory`, or `expected BadChildren(2), got NoMemory`."""
    number = 1
    while True:
        ran = faults.run(f"allocation {number} fails", [str(program), name], MEMORY=number)
        if ran.status and not (ran.is_met and TOLD.search(ran.output)):
            raise ran.wrong(f"the test ends with status {ran.status}")
        if not ran.is_met:
            return
        number += 1 + number // EACH


def list_tests(step: Step, program: Path) -> List[str]:
    if not os.access(program, os.X_OK):
        raise Stop(f"there is no program {program}: rt test proves and builds it")
    names = re.findall(r"(?m)^(.*): test$", step.run(TOP, program, "--list").said)
    if not names:
        raise Stop(f"{program} lists no tests")
    return names


def programs_of_tests() -> Dict[str, Path]:
    """Returns the tests of each library, which are a program. (Those of scroll_run compare what it writes, and without memory that is
    something else: its sessions show what.)"""
    return {name: it.folder / "out" / f"{name}_tests" for name, it in read_crates().items() if it.has_tests and not it.is_program}


def fault_of(attempt: Callable[[], None]) -> Optional[str]:
    try:
        attempt()
        return None
    except Wrong as why:
        return str(why)


def try_all(faults: Faults, sessions: List[Session], programs: List[Path], workers: int) -> None:
    """Tries sessions, the longest first, and then tests. Each is counted."""
    step = faults.step
    tests = [(it, name) for it in programs for name in list_tests(step, it)] if faults.library else []
    attempts: "List[tuple[str, Callable[[], None]]]" = []
    for session in sorted(sessions, key=lambda it: -len(it.input)):
        attempts.append((session.name, lambda it=session: try_session(faults, it)))  # type: ignore[misc]
    for program, name in tests:
        attempts.append((f"{program.name}: {name}", lambda program=program, name=name: try_test(faults, program, name)))  # type: ignore[misc]
    with ThreadPoolExecutor(workers) as pool:
        for (name, _), fault in zip(attempts, pool.map(lambda it: fault_of(it[1]), attempts)):
            step.count(name, fault)
    step.tell(f"{next(faults.runs)} runs of {len(sessions)} sessions and {len(tests)} tests")


def work(step: Step, words: List[str]) -> None:
    faults = compile_faults(step)
    programs = programs_of_tests()
    names = [it for it in words if it not in programs]
    failures: List[str] = []
    sessions = choose(read_sessions(failures), names, failures) if names or not words else []
    if failures:
        raise Stop("\n".join(failures))
    if sessions and not os.access(PROGRAM, os.X_OK):
        raise Stop(f"there is no program {PROGRAM}: rt run in crates/scroll_run proves and builds it")
    try_all(faults, sessions, [programs[it] for it in words or programs if it in programs], count_workers())


if __name__ == "__main__":
    sys.exit(run_step("faults", lambda step: work(step, sys.argv[1:])))
