"""Reads the documents, and doc comments: their prose, their headings, their blocks of code and the rows of their tables."""

import re
from dataclasses import dataclass, field
from pathlib import Path
from typing import Iterator, List, NamedTuple, Set, Tuple

FENCE = re.compile(r"```(.*)")
HEADING = re.compile(r"#+ +(.*?) *")
SOURCE = re.compile(r"From `([^`]+)`")
DOC = re.compile(r" *//[/!] ?(.*)")


class Block(NamedTuple):
    """A block of code: its language, the heading above it, the file that a line `From ..` above it names, the number of its
    first line, and its lines."""

    language: str
    section: str
    source: str
    line: int
    code: List[str]

    def parts(self) -> List[str]:
        """Returns what empty lines separate."""
        return [it for it in "\n".join(self.code).split("\n\n") if it.strip("\n")]


@dataclass
class Document:
    path: Path
    # The lines, those of code blocks as empty ones.
    prose: List[str] = field(default_factory=list)
    headings: List[str] = field(default_factory=list)
    blocks: List[Block] = field(default_factory=list)

    def anchors(self) -> Set[str]:
        return {anchor(it) for it in self.headings}

    def rows(self) -> Iterator[Tuple[int, List[str]]]:
        """Returns the rows of the tables, each with the index of its line and its cells."""
        for index, line in enumerate(self.prose):
            if line.startswith("|") and not set(line) <= set("|-: "):
                yield index, [it.strip() for it in re.split(r"(?<!\\)\|", line)[1:-1]]


def anchor(heading: str) -> str:
    """Returns what a link has after `#`: the heading in lower case, with no punctuation, and with `-` for a space."""
    return re.sub(r"[^\w -]", "", heading).lower().replace(" ", "-")


def read(path: Path) -> Document:
    """Reads a document, or the doc comments of a file of code."""
    document = Document(path)
    source = ""
    code: "List[str] | None" = None
    for number, line in enumerate(path.read_text(encoding="utf-8").split("\n"), 1):
        if path.suffix == ".rt":
            doc = DOC.fullmatch(line)
            line = doc[1] if doc else ""
        fence = FENCE.match(line)
        document.prose.append("" if fence or code is not None else line)
        if fence and code is None:
            code = []
            section = document.headings[-1] if document.headings else ""
            document.blocks.append(Block(fence[1].strip(), section, source, number, code))
        elif fence:
            code, source = None, ""
        elif code is not None:
            code.append(line)
        else:
            heading, named = HEADING.fullmatch(line), SOURCE.match(line)
            document.headings += [heading[1]] if heading else []
            source = named[1] if named else source
    return document
