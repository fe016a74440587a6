#!/usr/bin/env python3
"""Tries what must not compile: a borrowed value that was read from a buffer is used after a write to the buffer, or after the
buffer is dropped.

    python3 gate/edits/misuse.py

gate/edits/misuse.txt has modules of `scroll`, one a block that begins with `# NAME`. The lines that end in `// misuse: CODE` are
the misuse. In a copy of that crate the modules are first proved without these lines. With them, each module must have the
error CODE for each of them and no other error, so a refusal can't have another reason. Each module is a check.
"""

import re
import sys
from pathlib import Path
from typing import Dict, List

sys.path.insert(0, str(Path(__file__).resolve().parents[1]))
from step import TOP, Ran, Step, Stop, copy_crate, run_step

TEXTS = TOP / "gate" / "edits" / "misuse.txt"
MISUSE = re.compile(r"^.*// misuse: ([a-z0-9-]+)\n", re.M)


def read_modules() -> Dict[str, str]:
    """Returns the text of each module."""
    parts = re.split(r"^# ([a-z_]+)\n", TEXTS.read_text(encoding="utf-8"), flags=re.M)
    modules = dict(zip(parts[1::2], parts[2::2]))
    if parts[0] or not modules or len(modules) != len(parts) // 2:
        raise Stop("gate/edits/misuse.txt doesn't begin with a line `# NAME`, or a name stands twice")
    return modules


def check(step: Step, crate: Path, modules: Dict[str, str], *only: str) -> Ran:
    """Checks the copy with these modules."""
    for name, text in modules.items():
        (crate / "src" / f"{name}.rt").write_text(text, encoding="utf-8")
    return step.run(crate, "rt", "check", *only)


def errors_of(name: str, said: str) -> List[str]:
    return sorted(re.findall(rf"(?m)^src/{name}\.rt:\d+:\d+: error\[([a-z0-9-]+)\]", said))


def work(step: Step) -> None:
    modules = read_modules()
    crate = copy_crate("scroll", step.room)
    with (crate / "src" / "lib.rt").open("a") as lib:
        lib.writelines(f"mod {it};\n" for it in modules)

    only = [word for it in modules for word in ("--only", it)]
    ran = check(step, crate, {name: MISUSE.sub("", text) for name, text in modules.items()}, *only)
    proved = re.search(r"^only=(\d+) proved=\1$", ran.said, re.M)
    if ran.status or not proved or proved[1] == "0":
        raise Stop(f"without the misuse the modules are not proved\n{ran.end()}")
    ran = check(step, crate, modules, "--only", "")
    if not ran.status:
        raise Stop(f"with the misuse the modules are not refused\n{ran.end()}")

    wanted = 0
    for name, text in modules.items():
        marked = sorted(MISUSE.findall(text))
        errors = errors_of(name, ran.said)
        step.count(f"{name}: {errors} in place of {marked}", None if marked and errors == marked else "")
        wanted += len(marked)
    errors = [it for it in ran.said.splitlines() if "error" in it]
    if not step.failed and len(errors) != wanted:
        step.count("there are other errors", "".join(f"    {it}"[:200] + "\n" for it in errors))
    step.tell(f"{proved[1]} functions proved without the misuse, {step.passed} modules refused with it")


if __name__ == "__main__":
    sys.exit(run_step("misuse", work))
