"""Makes docs/DEFINITIONS.md from the comments in specs/ of the library, and compares it: each section must say what the comments
of its file say.

The files come in the order of specs/Lib.antt. The comment at the head of a file is the title of its section, up to the first
full stop, and then its text; an empty line of the comment ends a paragraph. The comment above a definition says what it means;
a definition without one shares that of the definition before it. Where a definition has several equations, its comment begins
with the name and the parameters, between backticks, and a colon. Where a comment ends with a colon, the page has the equations.
Of the words of laws the page has the names, and so it has of a part: a definition that no contract of a public item cites, no client
and nothing that tools/derive prints, and that no meaning on the page names.

A file of specs/ is a check.
"""

import itertools
import re
from dataclasses import dataclass
from pathlib import Path
from typing import Dict, Iterator, List, Set, Tuple

from documents.layers import LIBRARIES, list_clients
from step import TOP, Step

PAGE = TOP / "docs" / "DEFINITIONS.md"

HEAD = """# Definitions

The words that the contracts cite, from the comments in `specs/`. `rt lemma WORD` prints a definition whole, with its import. Of *parts*, which definitions alone cite, the page has the names.
"""

# The files of which only the laws' contracts speak: their names alone are on the page.
FOR_LAWS = ("Laws",)

START = re.compile(r"(?:abbrev pub|unfoldable pub|pub record) ([^\s:({]+)(.*)")
FORMS = re.compile(r"((?:`[^`]+`(?:, )?)+): ")
PARAMETERS = re.compile(r"\(([^:()]+) :")
PART = re.compile(r"  pub (\w+) :")
# What of the sources is no contract of a public item: comments, imports, and functions for the crate alone.
INNER = re.compile(r"(?ms)//[^\n]*|--[^\n]*|^(?:ghost )?use [^;]*;|^(?:pub\(crate\) )?(?:const )?fn .*?^\}")
WORD = re.compile(r"[^\W\d][\w-]*")


class Bad(Exception):
    """A file of specs/ can't be read."""


@dataclass
class Definition:
    name: str
    form: str
    parts: List[str]
    equations: List[str]


def paragraphs(comment: List[str]) -> List[str]:
    text = "\n".join(line[2:].strip() for line in comment)
    return [" ".join(it.split()) for it in text.split("\n\n")]


def headed(comment: List[str]) -> List[str]:
    """The title of a head comment, and the paragraphs after it."""
    first, *others = paragraphs(comment)
    return [*first.split(". ", 1), *others]


def blocks(path: Path) -> Iterator[Tuple[List[str], List[str]]]:
    """The parts of a file between its empty lines, each as the lines of its comment and the lines after it."""
    for block in re.split(r"\n\n+", path.read_text(encoding="utf-8").rstrip("\n")):
        lines = block.split("\n")
        size = next((i for i, line in enumerate(lines) if not line.startswith("--")), len(lines))
        yield lines[:size], lines[size:]


def definition(name: str, after_name: str, lines: List[str]) -> Definition:
    """A definition with its form, the name and the parameters; the form is empty where there are several equations."""
    parts = [found[1] for found in map(PART.match, lines) if found]
    if lines[0].startswith("pub record"):
        after_name = " ".join([after_name, *itertools.takewhile(lambda line: not PART.match(line), lines[1:])])
        return Definition(name, " ".join([name, *PARAMETERS.findall(after_name)]), parts, [])
    equations = list(itertools.dropwhile(lambda line: line.split(" ")[0] != name, lines[1:]))
    heads = [re.split(r" =(?: |$)", line)[0] for line in equations if line.split(" ")[0] == name]
    form = " ".join(re.sub(r"\{\w+\}", "", heads[0]).split()) if len(heads) == 1 else ""
    return Definition(name, form, [], equations)


def item(meaning: str, group: List[Definition]) -> str:
    """The entry of definitions that share a comment."""
    names = ", ".join(it.name for it in group)
    forms = [it.form for it in group]
    told = FORMS.match(meaning)
    if told:
        forms = re.findall(r"`([^`]+)`", told[1])
        meaning = meaning[told.end() :]
        if [it.split(" ")[0] for it in forms] != [it.name for it in group]:
            raise Bad(f"the comment of {names} begins with other names")
    if not all(forms):
        raise Bad(f"the equations of {names} don't show its parameters, and its comment doesn't begin with them")
    if any(it.parts != group[0].parts for it in group):
        raise Bad(f"{names} share a comment, and have different parts")
    text = "- " + ", ".join(f"`{it}`" for it in forms) + f": {meaning}"
    if meaning.endswith(":"):
        code = "\n".join(f"  {line}" for it in group for line in it.equations)
        return f"{text}\n  ```text\n{code}\n  ```\n"
    return text + ("\n" if meaning.endswith(".") else ".\n")


def entries_of(path: Path) -> List[Tuple[str, List[Definition]]]:
    """The meanings in a file, each with the definitions that share it."""
    entries: List[Tuple[str, List[Definition]]] = []
    for comment, lines in list(blocks(path))[1:]:
        start = START.match(lines[0]) if lines else None
        if not start:
            continue
        if comment:
            entries.append((" ".join(paragraphs(comment)), []))
        elif not entries:
            raise Bad(f"{start[1]} has no comment")
        entries[-1][1].append(definition(start[1], start[2], lines))
    return entries


def names_of(group: List[Definition]) -> str:
    return ", ".join(f"`{it.name}`" for it in group)


def cited_names(meanings: Dict[str, str]) -> Set[str]:
    """The definitions that a user meets: those that are cited, and those that the meaning of one of these names."""
    sources = [TOP / "crates" / it / "src" for it in LIBRARIES]
    files = [it for src in sources for it in src.rglob("*.rt") if "tests" not in it.relative_to(src).parts]
    files += [it for name in list_clients() for it in (TOP / "crates" / name).glob("s*/**/*.*t")] + [*TOP.glob("tools/derive/*.*")]
    words = {it for path in files for it in WORD.findall(INNER.sub("", path.read_text(encoding="utf-8")))}
    left, found = [it for it in meanings if it in words], set()
    while left:
        name = left.pop()
        if name not in found:
            found.add(name)
            left += [it for span in re.findall(r"`([^`]+)`", meanings[name]) for it in WORD.findall(span) if it in meanings]
    return found


def section(path: Path, entries: List[Tuple[str, List[Definition]]], cited: Set[str]) -> str:
    """The section of a file; it is empty where the file defines nothing."""
    title, *text = headed(next(blocks(path))[0])
    if not entries:
        return ""
    if not title:
        raise Bad("it has no comment at its head")
    link = f"[{path.name}]({Path('..') / path.relative_to(TOP)})"
    if path.stem in FOR_LAWS:
        names = ", ".join(names_of(group) for _, group in entries)
        return f"\n### {title.rstrip('.')}\n\n{link}, of which only laws speak: {names}.\n"
    head = "\n\n".join([f"### {title.rstrip('.')}", " ".join([f"{link}.", *text])])
    told = [it for it in entries if any(one.name in cited for one in it[1])]
    parts = ", ".join(names_of(group) for meaning, group in entries if (meaning, group) not in told)
    return f"\n{head}\n\n" + "".join(item(*entry) for entry in told) + (f"- Parts: {parts}.\n" if parts else "")


def try_all(step: Step, is_writing: bool) -> None:
    page = HEAD
    made: List[Tuple[Path, str]] = []
    failed = step.failed
    libs = [TOP / "crates" / it / "specs" / "Lib.antt" for it in LIBRARIES]
    entries: Dict[Path, List[Tuple[str, List[Definition]]]] = {}
    for path in [lib.parent / f"{name}.antt" for lib in libs for name in re.findall(r"(?m)^pub mod ([A-Z]\w*)", lib.read_text(encoding="utf-8"))]:
        try:
            entries[path] = entries_of(path)
        except Bad as why:
            step.count(f"{path.relative_to(TOP)}: {why}", "")
    listed = [it for path in entries for it in entries[path] if path.stem not in FOR_LAWS]
    cited = cited_names({one.name: meaning for meaning, group in listed for one in group})
    for path in entries:
        try:
            made.append((path, section(path, entries[path], cited)))
        except Bad as why:
            step.count(f"{path.relative_to(TOP)}: {why}", "")
    for lib in libs:
        title, *text = headed(next(blocks(lib))[0])
        page += "\n" + "\n\n".join([f"## {title.rstrip('.')}", *text]) + "\n" + "".join(it for path, it in made if path.parent == lib.parent)
    if is_writing and step.failed == failed:
        PAGE.write_text(page, encoding="utf-8")
    there = PAGE.read_text(encoding="utf-8") if PAGE.is_file() else ""
    for path, it in made:
        what = f"{path.relative_to(TOP)}: docs/DEFINITIONS.md says something else of it"
        step.count(what, None if it in there else "")
    if there != page and step.failed == failed:
        step.count("docs/DEFINITIONS.md is not what the comments say", "")
    step.tell(f"{len(made)} files of specs/ were compared with docs/DEFINITIONS.md")
