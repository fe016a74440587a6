"""Edits: bugs in code that the prover must refuse. This module reads them and puts them into a copy of a crate.

The folder `bugs/` of a crate holds files of edits, one a block, with an empty line between two. The line `file:` stands before
the edits of a source file:

    file: src/slice.rt

    # write_start_at_the_end_is_refused
    bug: a write at the end of the slice is past the end
    breaks: `slice::pwrite_with`, `refused`
    promise: past the end
    old:     if offset > dst.len() {
    new:     if offset >= dst.len() {

`promise:` names promises of gate/documents/promises.txt (gate/documents/promises.py). The text after `old:` occurs exactly once in its
file. More pairs of `old:` and `new:` may follow, and before one of them `file: src/error.rt` if it is in another file. The folder
`must-fail/` holds edits that `rt` tries too, each in a file NAME.edit of the form that `rt` wants: the same lines without the first,
and with `file:` before the first pair.
"""

import re
from dataclasses import dataclass
from pathlib import Path
from typing import Dict, Iterable, Iterator, List, NamedTuple, Set, Tuple

from step import FOLDERS

# How an edit is named: by its file, or by the first line of its block.
TITLES = {"must-fail": re.compile(r"([A-Za-z0-9_-][A-Za-z0-9_.-]*)\.edit"), "bugs": re.compile(r"# ([A-Za-z0-9_-][A-Za-z0-9_.-]*)")}
HEAD = re.compile(r"^([ \t]*)(?:pub(?:\([a-z]+\))? )?(?:final )?(?:const )?(?:unsafe )?(?:extern \"C\" )?fn (\w+)", re.M)


class Bad(Exception):
    """An edit can't be read or put in."""


class Pair(NamedTuple):
    file: str
    old: str
    new: str


@dataclass(frozen=True)
class Edit:
    crate: str
    folder: str
    name: str
    bug: str
    breaks: str
    promises: Tuple[str, ...]
    pairs: Tuple[Pair, ...]


class Function(NamedTuple):
    """A function of a source file, with the lines from its head to its closing brace; `name` is empty outside of functions."""

    file: str
    name: str
    first: int
    last: int


class Block(NamedTuple):
    """The lines of an edit, below its title. `file` is the source file that it is for; empty in must-fail/."""

    place: str
    folder: str
    title: str
    file: str
    lines: List[str]

    def read(self, crate: str) -> Edit:
        title = TITLES[self.folder].fullmatch(self.title)
        if not title:
            raise Bad(f"`{self.title}` names no edit")
        file, old, bug, breaks, promise = self.file, "", "", "", ""
        pairs: List[Pair] = []
        for line in self.lines:
            word, _, text = line.partition(":")
            text = text[1:] if text.startswith(" ") else text
            if word == "file":
                file = text.strip()
            elif word == "old":
                old = text
            elif word == "new":
                if not file or not old:
                    raise Bad("a `new:` stands before any `file:` or `old:`")
                pairs.append(Pair(file, old, text))
                old = ""
            elif word == "bug":
                bug = text.strip()
            elif word == "breaks":
                breaks = text.strip()
            elif word == "promise":
                promise = text.strip()
            else:
                raise Bad(f"the line `{line}` is none of file, old, new, bug, breaks and promise")
        if not pairs or old:
            raise Bad("it has no pair of `old:` and `new:`, or half of one")
        if self.file not in ("", pairs[0].file):
            raise Bad(f"its first pair is not in {self.file}")
        if not bug or not breaks:
            raise Bad("it has no line `bug:`, or no line `breaks:`")
        return Edit(crate, self.folder, title[1], bug, breaks, tuple(it for it in promise.split(", ") if it), tuple(pairs))


def blocks(crate: Path) -> Iterator[Block]:
    """Returns the edits of a crate's two folders, by files in the order of their names."""
    for folder in FOLDERS:
        for path in sorted(it for it in (crate / folder).rglob("*") if it.is_file()):
            inner = path.relative_to(crate / folder)
            text = path.read_text(encoding="utf-8")
            if folder == "must-fail":
                yield Block(str(path.relative_to(crate.parent)), folder, str(inner), "", text.splitlines())
                continue
            file = ""
            for block in text.rstrip("\n").split("\n\n"):
                title, *lines = block.split("\n")
                if title.startswith("file: "):
                    file = title[len("file: ") :]
                    continue
                yield Block(f"{path.relative_to(crate.parent)}, {title}", folder, title, file, lines)


def read_edits(crate: Path, failures: List[str]) -> List[Edit]:
    """Returns the edits of a crate. A block or a file that isn't an edit, or can't be put in, is a failure."""
    edits: Dict[str, Edit] = {}
    texts = Texts(crate)
    for block in blocks(crate):
        try:
            edit = block.read(crate.name)
            texts.after([edit])
            if edit.name in edits:
                raise Bad("the name stands twice")
            edits[edit.name] = edit
        except Bad as why:
            failures.append(f"{block.place}: {why}")
    return list(edits.values())


class Texts:
    """The files of a crate's src/, unchanged and after some edits. Each `old:` text is searched for in the unchanged file."""

    def __init__(self, crate: Path) -> None:
        self.crate = crate
        self.before: Dict[str, str] = {}

    def load(self, file: str) -> str:
        if file not in self.before:
            if not file.startswith("src/") or not (self.crate / file).is_file():
                raise Bad(f"there is no file {file} below src/")
            self.before[file] = (self.crate / file).read_text(encoding="utf-8")
        return self.before[file]

    def places(self, edit: Edit) -> List[Tuple[int, Pair]]:
        """Returns where each pair of the edit changes the unchanged file. As for `rt`, an `old:` text is searched for after the pairs before it."""
        texts: Dict[str, str] = {}
        found: List[Tuple[int, Pair]] = []
        for pair in edit.pairs:
            text = texts.get(pair.file, self.load(pair.file))
            if text.count(pair.old) != 1:
                raise Bad(f"an `old:` text stands {text.count(pair.old)} times in {pair.file}, and not once")
            place = text.index(pair.old)
            texts[pair.file] = text.replace(pair.old, pair.new)
            before = [len(it.new) - len(it.old) for at, it in found if it.file == pair.file and at < place]
            found.append((place - sum(before), pair))
        return found

    def functions(self, edit: Edit) -> Set[Function]:
        """Returns the functions that the edit changes, by their lines in the unchanged files."""
        return {function_at(it.file, self.load(it.file), place) for place, it in self.places(edit)}

    def after(self, edits: Iterable[Edit]) -> Tuple[Dict[str, str], Dict[str, Set[Function]]]:
        """Returns the files' texts after the edits, and the functions that each edit changes, by their lines in these texts."""
        changes = sorted((it.file, place, it, edit.name) for edit in edits for place, it in self.places(edit))
        texts: Dict[str, str] = {}
        places: List[Tuple[str, str, int]] = []
        end: Dict[str, int] = {}
        for file, place, pair, name in changes:
            start = end.get(file, 0)
            if place < start:
                raise Bad(f"two edits change the same text of {file}")
            texts[file] = texts.get(file, "") + self.load(file)[start:place]
            places.append((name, file, len(texts[file])))
            texts[file] += pair.new
            end[file] = place + len(pair.old)
        for file in texts:
            texts[file] += self.load(file)[end[file] :]
        functions: Dict[str, Set[Function]] = {}
        for name, file, place in places:
            functions.setdefault(name, set()).add(function_at(file, texts[file], place))
        return texts, functions


def function_at(file: str, text: str, place: int) -> Function:
    """Returns the function around a place in a file's text, with its attributes."""
    line = text.count("\n", 0, place) + 1
    for head in reversed(list(HEAD.finditer(text, 0, text.find("\n", place)))):
        end = re.compile(f"^{head[1]}}}", re.M).search(text, head.end())
        last = text.count("\n", 0, end.start()) + 1 if end else line
        if line <= last:
            lines = text[: head.start()].split("\n")[:-1]
            while lines and lines[-1].strip().startswith("#["):
                lines.pop()
            return Function(file, head[2], len(lines) + 1, last)
    return Function(file, "", 0, 0)
