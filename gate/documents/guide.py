"""Puts the code into docs/GUIDE.md from the clients and the library's proofs, which the gate compiles and proves, and compares it.

Above each block of the guide is a comment `<!-- code: FILE | ITEM | ITEM .. -->`: the block has these items of the file, in this
order. An item is named by the start of its first line of code, such as `pub fn read_length`; `imports` are the lines of `use` at the
head, and `all` is the file without its tests. `python3 gate/documents/compare.py write` writes the blocks, and the list of the files
in proofs/lemmas/callers/.

The blocks in the library's doc comments and in docs/FROM-RUST.md below a line that begins with a file's name, such as
"From `crates/examples/src/chunk.rt`", have the parts of that file in the same order. The checks of the tests, which callers
copy from the client `examples`, are those of the library too. A block is a check, and so are the checks of the tests.
"""

import re
from pathlib import Path
from typing import List, Optional

import markdown
from step import TOP, Step

GUIDE = TOP / "docs" / "GUIDE.md"
BLOCK = re.compile(r"(?ms)^<!-- code: ([^|\n]+) \| (.*?) -->\n\n(?:From `[^`\n]+`:\n\n```\w*\n.*?^```\n)?")
BEGIN, END = "<!-- lemmas: begin -->\n", "<!-- lemmas: end -->\n"
# A line that a file has at its head.
AUTO = "#![tactic(auto)]"


class Bad(Exception):
    """A block names what its file doesn't have."""


def items_of(text: str, is_proof: bool) -> List[str]:
    """Returns the items of a file at its top level: what empty lines separate outside of braces."""
    found: List[str] = []
    is_open = False
    for part in text.strip("\n").split("\n\n"):
        if is_open:
            found[-1] += f"\n\n{part}"
        else:
            found.append(part)
        last = found[-1].split("\n")[-1]
        is_open = not is_proof and (last.startswith(" ") or last.endswith("{"))
    return found


def first_line(item: str) -> str:
    return next((it for it in item.split("\n") if not re.match(r"//|#\[|--", it)), "")


def block(file: str, names: str) -> str:
    """Returns a block with the line above it."""
    path = TOP / file
    if not path.is_file():
        raise Bad(f"there is no file {file}")
    is_proof = file.endswith(".antt")
    text = path.read_text(encoding="utf-8")
    items = items_of(text, is_proof)
    picked: List[str] = []
    for name in names.split(" | "):
        if name == "all":
            picked += [it for it in items if "#[test]" not in it]
        elif name == "imports":
            picked += [re.sub(r"(?m)^//.*\n", "", it) for it in items if first_line(it).startswith(("ghost use", "use"))]
        else:
            found = [it for it in items if first_line(it).startswith(name)]
            if not found:
                raise Bad(f"{file} has no item `{name}`")
            picked.append(found[0])
    code = "\n\n".join(picked)
    return f"From `{file}`:\n\n```{'antt' if is_proof else 'rust'}\n{code}\n```\n"


def source_fault(found: markdown.Block) -> Optional[str]:
    """Returns what a block has that the file named above it doesn't."""
    if not (TOP / found.source).is_file():
        return f"    there is no file {found.source}"
    text = "\n" + (TOP / found.source).read_text(encoding="utf-8")
    place = 0
    for part in found.parts():
        at = text.find(f"\n{part}\n", place)
        if at < 0 and part != AUTO:
            return f"    this is not in {found.source}, or not in this order:\n{part}"
        place = at + len(part) + 1
    return None


def lemmas() -> str:
    """Returns the files of the lemmas for callers, each with what it is about."""
    lines = []
    for path in sorted(TOP.glob("crates/scroll*/proofs/lemmas/callers/*.antt")):
        comment = re.match(r"(?:--.*\n)+", path.read_text(encoding="utf-8"))
        about = " ".join(it[2:].strip() for it in comment[0].splitlines()) if comment else ""
        about = re.sub(r"^Lemmas for callers: ", "", about).partition(". ")[0].rstrip(".")
        lines.append(f"- [{path.stem}](../{path.relative_to(TOP).as_posix()}): {about[0].lower()}{about[1:]}\n")
    return "".join(lines)


def try_guide(step: Step, is_writing: bool) -> int:
    text = GUIDE.read_text(encoding="utf-8")
    made: List[str] = []
    end = 0
    for found in BLOCK.finditer(text):
        what = f"docs/GUIDE.md:{text.count(chr(10), 0, found.start()) + 1}"
        head = f"<!-- code: {found[1]} | {found[2]} -->\n\n"
        try:
            wanted = head + block(found[1], found[2])
        except Bad as why:
            step.count(what, f"    {why}")
            continue
        is_same = found[0] == wanted
        step.count(what, None if is_same or is_writing else "    python3 gate/documents/compare.py write puts another block there")
        made += [text[end : found.start()], wanted]
        end = found.end()
    before, _, rest = text[end:].partition(BEGIN)
    listed, _, after = rest.partition(END)
    step.count("docs/GUIDE.md has other lemmas", None if listed == lemmas() or is_writing else "    python3 gate/documents/compare.py write lists them")
    if is_writing:
        GUIDE.write_text("".join([*made, before, BEGIN, lemmas(), END, after]), encoding="utf-8")
    return len(made) // 2


def try_all(step: Step, is_writing: bool) -> None:
    library = (TOP / "crates/scroll/src/tests/results.rt").read_text(encoding="utf-8")
    copy = (TOP / "crates/examples/src/results.rt").read_text(encoding="utf-8")
    is_copy = copy == library.replace("\nuse crate::", "\nuse scroll::")
    step.count("crates/examples/src/results.rt is no copy of src/tests/results.rt", None if is_copy else "")
    count = try_guide(step, is_writing)
    step.count("docs/GUIDE.md has no block", None if count else "")
    pages: List[Path] = [TOP / "docs" / "FROM-RUST.md", *sorted(TOP.glob("crates/scroll*/src/**/*.rt"))]
    for path in pages:
        for it in markdown.read(path).blocks:
            if it.language.startswith(("rust", "antt")) and it.source:
                step.count(f"{path.name}:{it.line}", source_fault(it))
                count += 1
    step.tell(f"{count} blocks of docs/GUIDE.md, docs/FROM-RUST.md and doc comments were compared")
