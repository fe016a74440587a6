#!/usr/bin/env python3
"""Proves all and runs the other checks of the repository, over copies of its files, and shows what each says.

    python3 gate/check.py             what holds
    python3 gate/check.py edits       the bugs that the prover must refuse
    python3 gate/check.py all         both

The steps are:

    rt ci           the toolchain's own gate: proves each crate and its tests from nothing, builds them, runs the tests, and the program
                    as two compilers build it
    documents/compare.py
                    the documents: their code, names and links are those of the sources, and what is made of these is current
    prove.py        proves again what edits/misuse.py, embed.py, documents/readme.py, descriptions/random_descriptions.py,
                    descriptions/catalogue.py, compare/run.sh and edits/refused.py begin with
    edits/misuse.py
                    what must not compile
    embed.py        the library of embed/ in C and Python, and in Rust where cargo is, on real files and on damaged ones
    documents/readme.py
                    README's first command, its lines for a repository of one's own, and the documentation's examples
    descriptions/random_descriptions.py
                    random descriptions are printed, proved with what uses them, and what they read and write is that of another reader
    descriptions/catalogue.py
                    the descriptions of catalogue/ are printed and proved, on bytes that other programs made
    descriptions/clients.py
                    the clients that are descriptions, on a hundred files of the programs that these come from, whole, cut and damaged
    sessions/stored.py
                    the stored sessions, whole and with their buffers cut, by the program that rt ci proved; by
                    sessions/random_sessions.py, random ones
    sessions/limits.py
                    long inputs, at which that program must not run out of memory
    sessions/faults.py
                    the sessions and the tests of all libraries where memory is refused and streams fail, by what rt ci proved
    bench/count     the instructions, mispredictions and misses of each workload of bench/, by valgrind, beside those that are stored
    compare/run.sh  sessions and calls beside the Rust crate, where cargo finds it
    edits/refused.py
                    the edits of each crate, many in one check; sessions/limits.py --edits, those that only long inputs and tests tell

rt ci runs in a copy without the edits, which edits/refused.py tries faster, and it proves what it hasn't yet passed on this machine.
The steps that need its program and its tests run in that copy too. Steps run side by side, and a step starts when those that it needs
have ended. In all they have two jobs more than there are workers (gate/step.py), since parts of a check run on one processor.

A step's time and the processor time that it took are printed at its end, and again in a table at the end of all. The last line
is `N passed, M failed`, the sums of the counts, with `, K skipped` after it where something was left out. A step that ends
without its counts, or that fails without counting a failure, is one failure more. The exit status is 0 where M is 0.
"""

import contextlib
import os
import re
import signal
import subprocess
import sys
import tempfile
import threading
import time
from dataclasses import dataclass, field
from pathlib import Path
from queue import Queue
from typing import Any, Dict, List, Sequence, Tuple

from step import FOLDERS, TOP, copy_kept, count_workers, read_crates

WORDS = {"stands": ("stands",), "edits": ("edits",), "all": ("stands", "edits")}
COUNTS = re.compile(r"(\d+) passed, (\d+) failed(?:, (\d+) skipped)?")
CI = "rt ci"
EMBED = "python3 gate/embed.py"
# A step is a group of processes, which is ended as one.
GROUP: Dict[str, Any] = {"process_group": 0} if sys.version_info >= (3, 11) else {"start_new_session": True}


@dataclass
class Step:
    """A command in a copy of the files. It takes so many of the jobs, and starts when the commands that it needs have ended."""

    command: str
    jobs: int
    needs: Tuple[str, ...] = ()
    tree: str = "tree"
    said: str = ""
    status: int = 1
    seconds: float = 0
    processor: float = 0
    counts: Tuple[int, int, int] = (0, 1, 0)

    def count(self) -> None:
        """Reads the counts off the last line."""
        found = COUNTS.fullmatch((self.said.splitlines() or [""])[-1])
        if not found:
            self.said += f"check: '{self.command}' ended with status {self.status} and without its counts\n"
            return
        passed, failed, skipped = (int(it or 0) for it in found.groups())
        if self.status and not failed:
            self.said += f"check: '{self.command}' ended with status {self.status}\n"
            failed = 1
        self.counts = (passed, failed, skipped)

    def row(self) -> str:
        return "{:7} {:7} {:8} {:8.0f} {:12.0f}  {}".format(*self.counts, self.seconds, self.processor, self.command)


@dataclass
class Gate:
    """The copies of the files, in `room`, and what runs there."""

    room: Path
    free: int
    running: Dict[str, "subprocess.Popen[str]"] = field(default_factory=dict)
    ended: "Queue[Step]" = field(default_factory=Queue)

    def copy_files(self, name: str) -> Path:
        """A copy of the files without what git and earlier checks keep; for rt ci, without the edits too."""
        tree = self.room / name
        if not tree.exists():
            copy_kept(TOP, tree, (".git", "out", *(FOLDERS if name == "ci" else ())))
        return tree

    def start(self, step: Step) -> None:
        tree = self.copy_files(step.tree)
        begun = time.time()
        process = subprocess.Popen(
            step.command.split(),
            cwd=tree,
            env={**os.environ, "WORKERS": str(step.jobs)},
            text=True,
            errors="replace",
            stdin=subprocess.DEVNULL,
            stdout=subprocess.PIPE,
            stderr=subprocess.STDOUT,
            **GROUP,
        )
        self.running[step.command] = process
        self.free -= step.jobs
        threading.Thread(target=self.follow, args=(step, process, begun), daemon=True).start()

    def follow(self, step: Step, process: "subprocess.Popen[str]", begun: float) -> None:
        """Waits for a step. Its processor time is that of all that it ran."""
        assert process.stdout
        step.said = process.stdout.read()
        _, status, used = os.wait4(process.pid, 0)
        step.status = process.returncode = os.WEXITSTATUS(status) if os.WIFEXITED(status) else 1
        step.seconds, step.processor = time.time() - begun, used.ru_utime + used.ru_stime
        self.ended.put(step)

    def run(self, steps: Sequence[Step]) -> None:
        """Runs the steps. The first that can start goes first; one that needs more jobs than there are waits for all."""
        waiting = list(steps)
        left = {it.command for it in steps}
        while left:
            for step in list(waiting):
                if step.jobs <= self.free and not left & {*step.needs}:
                    waiting.remove(step)
                    self.start(step)
            step = self.ended.get()
            del self.running[step.command]
            left.remove(step.command)
            self.free += step.jobs
            step.count()
            print(f"== {step.command}\n{step.said}check: {step.seconds:.0f} s, {step.processor:.0f} processor s, {len(left)} steps left", flush=True)

    def stop(self) -> None:
        """Ends what still runs, and waits for it."""
        for process in self.running.values():
            # (one that has ended may still be in the list)
            with contextlib.suppress(ProcessLookupError):
                os.killpg(process.pid, signal.SIGTERM)
        while self.running:
            del self.running[self.ended.get().command]


def list_steps(groups: Sequence[str], workers: int) -> List[Step]:
    """Returns the steps, in the order in which they start where they can."""
    half, crates = max(1, workers // 2), read_crates()
    edited = [name for name, it in crates.items() if it.is_edited and "edits" in groups]
    begun_with = ["scroll", "scroll_layouts", *(name for name, it in crates.items() if it.is_static)] if "stands" in groups else []
    proofs = f"python3 gate/prove.py {' '.join(dict.fromkeys([*edited, *begun_with]))}"
    steps = []
    if "stands" in groups:
        steps.append(Step(CI, workers, tree="ci"))
        steps.append(Step("python3 gate/documents/compare.py", 1))
    steps.append(Step(proofs, half))
    if "stands" in groups:
        # (the long ones first, so that short ones are left for the end)
        steps += [Step(f"python3 gate/descriptions/{it}.py", half, (proofs,)) for it in ("catalogue", "random_descriptions")]
    for at, name in enumerate(edited):
        # (embed.py builds the library whose files edits/refused.py copies; the first crate has most of the edits)
        needs = (proofs, EMBED) if crates[name].is_static and "stands" in groups else (proofs,)
        steps.append(Step(f"python3 gate/edits/refused.py {name}", half if at else workers, needs))
    if "stands" in groups:
        steps += [Step(it, 1, (proofs,)) for it in (EMBED, "python3 gate/documents/readme.py", "python3 gate/edits/misuse.py")]
        steps.append(Step("python3 gate/descriptions/clients.py", 1))
    if edited:
        steps.append(Step("python3 gate/sessions/limits.py --edits", 1, (proofs,)))
    if "stands" in groups:
        steps += [Step(it, half, (CI,), "ci") for it in ("python3 gate/sessions/faults.py", "python3 bench/count check")]
        steps.append(Step("sh compare/run.sh --gate", 1, (proofs,)))
        steps += [Step(f"python3 gate/sessions/{it}.py", 1, (CI,), "ci") for it in ("random_sessions", "stored", "limits")]
    return steps


def main(words: List[str]) -> int:
    if {*words} - {*WORDS}:
        print(f"check: '{' '.join(words)}' is none of {', '.join(WORDS)}\n0 passed, 1 failed")
        return 1
    groups = [group for word in words or ["stands"] for group in WORDS[word]]
    begun = time.time()
    workers = count_workers()
    steps = list_steps(groups, workers)
    with tempfile.TemporaryDirectory(prefix="check-") as room:
        gate = Gate(Path(room), workers + 2)
        for number in (signal.SIGHUP, signal.SIGINT, signal.SIGTERM):
            signal.signal(number, lambda *_: sys.exit(1))
        try:
            gate.run(steps)
        finally:
            gate.stop()
    passed, failed, skipped = (sum(it) for it in zip(*(step.counts for step in steps)))
    print(" passed  failed  skipped  seconds  processor s  step", *(step.row() for step in steps), sep="\n")
    print(f"check: all in {time.time() - begun:.0f} s, {sum(it.processor for it in steps):.0f} processor s")
    print(f"{passed} passed, {failed} failed" + (f", {skipped} skipped" if skipped else ""))
    return 0 if passed and not failed else 1


if __name__ == "__main__":
    sys.exit(main(sys.argv[1:]))
