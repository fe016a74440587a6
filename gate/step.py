"""What the steps of the gate share: the crates, a folder that goes, the commands that they run, their counts and their last line.

What the folders share is in gate/ itself, which a script in a folder puts first on Python's path. Each module is imported from
there: `step`, `documents.cited`.

The last line of a step is `N passed, M failed`, and `, K skipped` follows where something was left out. The exit status is 0
where M is 0, and N is not or all was left out.
"""

import contextlib
import os
import re
import shutil
import signal
import subprocess
import sys
import tempfile
from dataclasses import dataclass, field
from pathlib import Path
from typing import Any, Callable, Dict, Iterable, List, NamedTuple, Optional, Set, Tuple

TOP = Path(__file__).resolve().parents[1]
# Where a crate has its edits (gate/edits/files.py).
FOLDERS = ("must-fail", "bugs")


class Stop(Exception):
    """A step can't continue."""


class Crate(NamedTuple):
    """A crate, and its line of crates.txt: whether it is a static library, and the libraries that it uses."""

    folder: Path
    line: str
    is_static: bool
    uses: Tuple[str, ...]

    @property
    def is_program(self) -> bool:
        return (self.folder / "src" / "main.rt").is_file()

    @property
    def is_edited(self) -> bool:
        return any((self.folder / it).is_dir() for it in FOLDERS)

    @property
    def has_tests(self) -> bool:
        return any("#[test]" in it.read_text(encoding="utf-8") for it in (self.folder / "src").rglob("*.rt"))


def read_crates(top: Path = TOP) -> Dict[str, Crate]:
    """Returns the crates by their names, in the order of crates.txt."""
    crates = {}
    for line in (top / "crates.txt").read_text(encoding="utf-8").splitlines():
        line = line.partition("#")[0].strip()
        (name, *kind), uses = line.partition(":")[0].split() or [""], line.partition(":")[2]
        if name:
            crates[name] = Crate(top / "crates" / name, line, "staticlib" in kind, tuple(uses.replace(",", " ").split()))
    return crates


def below(name: str, crates: Dict[str, Crate]) -> List[str]:
    """Returns the repository's libraries below a crate, each after those that it uses."""
    found: List[str] = []
    for use in crates[name].uses:
        if use in crates:
            found += [it for it in [*below(use, crates), use] if it not in found]
    return found


class Ran(NamedTuple):
    """A command that has ended: its status, and what it printed."""

    status: int
    said: str

    def end(self, lines: int = 20, width: int = 200) -> str:
        """Returns the end of what was said, without the lines on what is proved."""
        left = [it for it in self.said.splitlines() if ": proved" not in it and "modules loaded=" not in it]
        return "".join(f"    {it}"[:width] + "\n" for it in left[-lines:])


@dataclass
class Step:
    """A step, with a folder for its files."""

    name: str
    room: Path
    passed: int = 0
    failed: int = 0
    skipped: int = 0
    running: "Set[subprocess.Popen[Any]]" = field(default_factory=set)
    is_ended: bool = False

    def tell(self, what: str) -> None:
        print(f"{self.name}: {what}", flush=True)

    def count(self, what: str, fault: Optional[str]) -> None:
        """Counts a check, which failed if there is a fault: empty, or lines."""
        self.passed += fault is None
        self.failed += fault is not None
        if fault is not None:
            print(f"FAILED {what}\n{fault}", end="" if fault.endswith("\n") or not fault else "\n", flush=True)

    def call(self, *words: object, **how: Any) -> "tuple[int, bytes]":
        """Runs a command with its input, output and folder in `how`, and returns its status and its output.
        Where it ends without a status, that is its signal, below zero."""
        if self.is_ended:
            raise Stop("it was ended")
        limit = how.pop("timeout", None)
        given = {"stdin": subprocess.DEVNULL, "stdout": subprocess.PIPE, "stderr": subprocess.STDOUT, **how}
        with subprocess.Popen([str(it) for it in words], **given) as ran:
            self.running.add(ran)
            try:
                said, error = ran.communicate(timeout=limit)
            except subprocess.TimeoutExpired:
                ran.kill()
                said, error = ran.communicate()
            finally:
                self.running.discard(ran)
        return ran.returncode, (said or b"") + (error or b"")

    def run(self, folder: Path, *words: object, **how: Any) -> Ran:
        """Runs a command in a folder, with no input."""
        status, said = self.call(*words, cwd=folder, **how)
        return Ran(status, said.decode(errors="replace"))

    def end(self, *_: object) -> None:
        """Ends what runs, and the step. (`rt` ends what it started.)"""
        self.is_ended = True
        for ran in list(self.running):
            ran.terminate()
        sys.exit(1)

    def finish(self) -> int:
        print(f"{self.passed} passed, {self.failed} failed" + (f", {self.skipped} skipped" if self.skipped else ""))
        return 0 if not self.failed and (self.passed or self.skipped) else 1


def copy_kept(source: Path, to: Path, left_out: Iterable[str] = ()) -> None:
    """Copies a folder without what has one of these names. What checks kept gets a second name in place of a copy, since a
    check replaces such a file and never writes into it."""

    def copy(one: str, other: str) -> object:
        if one.endswith(".oantt"):
            with contextlib.suppress(OSError):
                return os.link(one, other)
        return shutil.copy2(one, other)

    shutil.copytree(source, to, symlinks=True, ignore=lambda _, names: {*left_out} & {*names}, copy_function=copy)


def copy_crate(name: str, to: Path, top: Path = TOP) -> Path:
    """Makes a workspace of a crate with what its checks kept, without its edits, and of the libraries below it with their builds.
    Returns the crate's folder there."""
    crates = read_crates(top)
    names = [*below(name, crates), name]
    for it in names:
        copy_kept(crates[it].folder, to / "crates" / it, [*FOLDERS, "rlib" if it == name else "incremental"])
    (to / "crates.txt").write_text("".join(f"{crates[it].line}\n" for it in names), encoding="utf-8")
    shutil.copy(top / "HANDLES", to)
    return to / "crates" / name


def run_step(name: str, work: Callable[[Step], None]) -> int:
    """Runs a step, and returns the exit status."""
    with tempfile.TemporaryDirectory(prefix=f"{name}-") as room:
        step = Step(name, Path(room))
        for number in (signal.SIGHUP, signal.SIGINT, signal.SIGTERM):
            signal.signal(number, step.end)
        try:
            work(step)
        except (Stop, OSError) as why:
            step.tell(str(why))
            step.failed += 1
        return step.finish()


def count_workers() -> int:
    """Returns how many jobs run side by side: as many as there are processors, or fewer, so that each has 3 GB of memory.
    The variable WORKERS sets another number."""
    memory = re.search(r"MemAvailable:\s+(\d+)", Path("/proc/meminfo").read_text())
    by_memory = int(memory[1]) // (3 << 20) if memory else 1
    return max(1, int(os.environ.get("WORKERS", 0)) or min(len(os.sched_getaffinity(0)), by_memory))
