#!/usr/bin/env python3
"""Runs the tests of the crates and the stored sessions by `rt try`, which proves nothing.

    python3 gate/test.py [CRATE..]

Without names all are run, as many side by side as there are workers (gate/step.py), those that take longest first; with names, the
tests of these crates, and the sessions if scroll_run is among them. gate/sessions/stored.py runs the sessions' cuts too, by the
proved program. A crate is printed as it ends.

These are checks: each test; each session; of each crate, that what tools/derive writes isn't stale, and that its files are laid out as
`rt ci` wants them; and each test of tools/derive. A crate whose tests don't compile is one failure; where no crate has tests, that is
skipped.
"""

import re
import shutil
import sys
import time
from concurrent.futures import ThreadPoolExecutor
from pathlib import Path
from typing import Callable, Dict, List, NamedTuple

from sessions.stored import Session, read_sessions
from step import FOLDERS, TOP, Crate, Ran, Step, copy_kept, count_workers, read_crates, run_step

PROGRAM = "scroll_run"
# So many builds of the program run the sessions, since each takes a quarter of a second for one.
SHARES = 2
RESULT = re.compile(r"(?m)^test result: \w+\. (\d+) passed; (\d+) failed; 0 ignored")
# What stands in a crate that has files by tools/derive: the line that asks for one, or the first one of such a file.
DESCRIBED = re.compile(r"(?m)^// (?:#\[derive\(P|Printed by tools/derive )")
FORMATTED = re.compile(r"(?m)^rt: formatted (.*)")
CASE = re.compile(r"(?m)^case=(\S+) run=ended status=(\d+) runners=\d output=expected proved=no$")


class Counted(NamedTuple):
    """What has run: how many checks passed and failed, and what is printed of these."""

    passed: int
    failed: int
    told: str


def run_tests(step: Step, name: str, crate: Crate) -> Counted:
    """Runs the tests of a crate."""
    ran = step.run(crate.folder, "rt", "try", "--test")
    found = RESULT.search(ran.said)
    passed, failed = (int(found[1]), int(found[2])) if found else (0, 0)
    failed = max(failed, int(ran.status != 0 or not found))
    return Counted(passed, failed, f"FAILED {name}\n{ran.end()}" if failed else "")


def write_cases(folder: Path, sessions: List[Session]) -> Dict[str, int]:
    """Writes the sessions as cases of `rt try`, and returns the status of each."""
    folder.mkdir()
    for it in sessions:
        (folder / it.name).write_bytes(it.input)
        (folder / f"{it.name}.stdout").write_bytes(it.output)
    return {it.name: it.status for it in sessions}


def run_sessions(step: Step, crate: Crate, share: int) -> Counted:
    """Runs a share of the stored sessions."""
    malformed: List[str] = []
    cases = step.room / f"cases{share}"
    wanted = write_cases(cases, read_sessions(malformed)[share::SHARES])
    ran = step.run(crate.folder, "rt", "try", "--cases", cases)
    passed = {name for name, status in CASE.findall(ran.said) if wanted.get(name) == int(status)}
    failures = malformed + [f"{it}, whose output or status is another" for it in wanted if it not in passed]
    if not passed:
        failures = ["the sessions: none passes"]
    # (what is said of a case stands above its line)
    left = [it for it in ran.said.splitlines() if (CASE.findall(it) or [("", "")])[0][0] not in passed]
    told = "".join(f"FAILED {it}\n" for it in failures) + Ran(ran.status, "\n".join(left)).end(40)
    return Counted(len(passed), len(failures), told if failures else "")


def check_derived(step: Step, crates: Dict[str, Crate]) -> Counted:
    """The files that tools/derive writes into the crates are those that stand there, and its own tests pass."""
    described = {
        name: crate.folder
        for name, crate in crates.items()
        if any(DESCRIBED.search(it.read_text(encoding="utf-8")) for it in crate.folder.glob("src/**/*.rt"))
    }
    commands = {f"{name}: a derived file": ["tools/derive", "--check", folder] for name, folder in described.items()}
    commands["tools/derive"] = ["-m", "unittest", "discover", "tools/derive/tests"]
    told = []
    for what, words in commands.items():
        ran = step.run(TOP, "python3", "-B", *words)
        told += [f"FAILED {what}\n{ran.end()}"] if ran.status else []
    return Counted(len(commands) - len(told), len(told), "".join(told))


def check_layout(step: Step, crates: Dict[str, Crate]) -> Counted:
    """Each crate's files are as `rt fmt` lays them out."""
    told = []
    for name, crate in crates.items():
        folder = step.room / "layout" / name
        copy_kept(crate.folder, folder, [*FOLDERS, "out"])
        ran = step.run(folder, "rt", "fmt")
        files = FORMATTED.findall(ran.said)
        if files or ran.status:
            told.append(f"FAILED {name}: rt fmt lays out {', '.join(files) or 'nothing'}\n{ran.end() if ran.status else ''}")
    return Counted(len(crates) - len(told), len(told), "".join(told))


def work(step: Step, crates: Dict[str, Crate]) -> None:
    sizes = {name: sum(it.stat().st_size for it in (crate.folder / "src").rglob("*.rt")) for name, crate in crates.items()}
    jobs: Dict[str, Callable[[], Counted]] = {
        "derived files": lambda: check_derived(step, crates),
        "layout": lambda: check_layout(step, crates),
    }
    for share in range(SHARES if PROGRAM in crates else 0):
        jobs[f"sessions, {share + 1} of {SHARES}"] = lambda share=share: run_sessions(step, crates[PROGRAM], share)  # type: ignore[misc]
    for name in sorted((it for it in crates if crates[it].has_tests), key=lambda it: -sizes[it]):
        jobs[name] = lambda name=name: run_tests(step, name, crates[name])  # type: ignore[misc]

    def run(name: str) -> None:
        begun = time.time()
        passed, failed, told = jobs[name]()
        step.passed, step.failed = step.passed + passed, step.failed + failed
        print(f"{told}{name}: {passed} passed, {failed} failed, {time.time() - begun:.0f} s", flush=True)

    step.skipped += not jobs
    with ThreadPoolExecutor(count_workers()) as pool:
        list(pool.map(run, jobs))


def main(names: List[str]) -> int:
    crates = read_crates()
    unknown = [it for it in names if it not in crates]
    if not shutil.which("rt") or unknown:
        why = f"there is no crate {unknown[0]}, but {', '.join(crates)}" if unknown else "`rt` of the Rattle kit is not there"
        print(f"test: {why}", file=sys.stderr)
        return 1
    return run_step("test", lambda step: work(step, {it: crates[it] for it in names or crates}))


if __name__ == "__main__":
    sys.exit(main(sys.argv[1:]))
