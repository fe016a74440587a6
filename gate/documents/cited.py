"""Looks up the names that the documents cite in the sources, and follows their links, so that none is out of date.

A name is a word between backticks, or words joined by `::`, such as `Pread::gread_with`; of code between backticks, such as
`file.pread_with::<u32>(4, LE)?`, it is what is called, and each word with a `_`, a `-` or a capital. In `TooBig { size: 8, len: 4 }`
the fields must be those of such a value. A name with `::` must lead to a declaration (gate/documents/declarations.py), from member to
owner. A single word must be declared, be an identifier of code, a word of a session's lines, the name of a file, an edit, a session
or a lemma, or one of the words below, of Rust or of a tool. Clauses
that are cited after a function, as in "`slice::pwrite_with` `refused`", or before one, as in "clause `refused` of
`slice::pwrite_with`", must be that function's. So must those of the line `breaks:` of an edit, and those of an item of a list that
begins with a function. A path of the repository must be there, in a block of commands too. A link to a file of the repository
must lead to one, and its part after `#` to a heading there, or to a line. A document, or a file of edits, is a check.
"""

import re
from pathlib import Path
from typing import Dict, Iterator, List, Set, Tuple

import markdown
from documents.declarations import Declarations
from step import TOP, Step

# Names of Rust, of its crates and of processors, and placeholders.
FOREIGN = set("""
BoxedSlice CowSlice I Self::Units array::try_from_fn array::from_fn cause collect c3 core::mem core::result f64 memchr scroll_derive
x86-64-v2
HEX HH ORD SESSION crates/first crates/first/src crates/first/src/lib.rt export description AsRef This RangeFrom memmove Proof Lts Tie
SCROLL byteorder gimli goblin object zerocopy grind rw debug_line libscroll_ffi in_ok-entry fence binrw deku nom
""".split())
# Paths into std begin so.
STD = re.compile(r"(?:std|core|io|fmt|str|array|ffi|result)::[\w:]+")

SPAN = re.compile(r"(?<!`)`([^`\n]+)`(?!`)")
NAME = r"(?:r#)?[A-Za-z_][\w-]*(?:<[\w:<>]*>)?(?:::(?:[A-Za-z_]\w*|\*))*"
CITED = re.compile(NAME)
WORD = re.compile(r"[^\W\d][\w-]*")
CODE = re.compile(r"^(?!bug:|breaks:|promise:).*$", re.M)
FILE = re.compile(r"[a-z.][\w.-]*(?:/[\w.-]+)+/?")
# In code between backticks a word, with what is before and after it, and the look of one that names something. Commands have none.
TOKEN = re.compile(r"(?:(?<=[\w)])(\.)|(?<![\w'/\\-]))([A-Za-z_][\w-]*(?:::[A-Za-z_]\w*)*)(::<|\()?")
FILE_NAME = re.compile(r"[\w-]+(?:\.(?:py|sh|antt|rt|so|a|txt))+\b")
SHAPE = re.compile(r"_|::|[a-z]-[a-z]|[a-z][A-Z]|^[A-Z][a-z]")
COMMAND = re.compile(r"\(?(?:cd|rt|python3|sh|cargo|git|cc) ")
# A value with its fields, such as `TooBig { size: 8, len: 4 }`.
VALUE = re.compile(r"\b([A-Z]\w*) \{\s*([^{}]*)\}")
# The first two cells of a row of seven: the others say what other tools do.
OTHERS = re.compile(r"^(\|[^|]*\|[^|]*\|)(?:[^|]*\|){5}$")
# A path from the top of the repository, which may be that of README's `SCROLL`; a file by its name.
PATH = re.compile(
    r"(?<![\w/.-])(?:\$SCROLL/|\.\./)*((?:gate|tools|crates|embed|bench|compare|docs|sessions)/[\w./-]*[\w/])"
    r"|(?<![\w/.-])([a-z][\w-]*\.(?:py|sh|txt|md|c|rs|csv|svg|edits))\b(?!\.)"
)
LINK = re.compile(r"\]\(([^()\s]+)\)")
STRING = re.compile(r'b?"(?:[^"\\\n]|\\.)*"')
# What a file defines: functions and types (of Python none), constants, the shell's variables, definitions and lemmas with their
# parts; and what it imports.
DEFINED = re.compile(
    r"(?m)^ *(?:pub )?(?:fn|struct|enum|trait|const|mod) (\w+)|^([A-Z_]+)\b|\$\{?([A-Z_]+)\b|^(\w+)\(\)"
    r"|^(?:abbrev |unfoldable )?(?:pub )?(?:record )?([^\s:({=-][^\s:({=]*)(?= *[:({])|^  (?:pub )?([^\s:({=]+) :|^use [\w.]+\.\{(.*)\}"
)
# A function and the clauses after it; clauses, and the function after them.
AFTER = re.compile(rf"`({NAME})`(?:\]\([^()\s]+\))?(?: of (?:`[^`]+`|\w+))?,? (`[a-z_]+`(?:(?:, | and )`[a-z_]+`)*)")
# A call at the head of an item, and its clauses in it.
ITEM = re.compile(rf"- `({NAME})`: (.*)")
CLAUSE = re.compile(r"`([a-z_]+)`(?=[:,;]|$)")
BEFORE = re.compile(rf"clauses? (`[a-z_]+`(?:(?:, | and )`[a-z_]+`)*) of (?:the )?`({NAME})`")


def documents() -> List[Path]:
    patterns = ("*.md", "docs/*.md", "crates/*.md", "embed/*.md", "crates/*/*.md", "crates/*/bugs/**/*.edits", "crates/*/must-fail/*.edit")
    return sorted(path for pattern in patterns for path in TOP.glob(pattern))


def read_prose(path: Path) -> List[str]:
    """The lines of a document, with an empty one for each line of its code blocks, or of the code of edits."""
    if path.suffix in (".edits", ".edit"):
        return CODE.sub("", path.read_text(encoding="utf-8")).split("\n")
    return [OTHERS.sub(r"\1", it) for it in markdown.read(path).prose]


def names_in(span: str) -> List[str]:
    """Returns the names that stand between backticks."""
    if CITED.fullmatch(span):
        return [span]
    if FILE.fullmatch(span) or COMMAND.match(span):
        return []
    tokens = [(dot, re.sub(r"^(?:Self|[A-Z])::|-\d+$", "", name), call) for dot, name, call in TOKEN.findall(FILE_NAME.sub("", span))]
    return [name for dot, name, call in tokens if not name.isupper() and (dot or call or SHAPE.search(name))]


def fields_of_sources() -> Dict[str, List[Set[str]]]:
    """Returns for each name that stands before fields the words of these, wherever it does."""
    found: Dict[str, List[Set[str]]] = {}
    for path in TOP.glob("crates/*/src/**/*.rt"):
        for name, fields in VALUE.findall(path.read_text(encoding="utf-8")):
            found.setdefault(name, []).append({*WORD.findall(fields)})
    return found


def has_no_fields(span: str, fields: Dict[str, List[Set[str]]]) -> bool:
    """Whether the code between backticks has a value with fields that nothing in the sources has so."""
    for name, cited in VALUE.findall(span):
        wanted = {*re.findall(r"(?:^|, )([a-z_]\w*)", cited)}
        if wanted and not any(wanted <= it for it in fields.get(name, [])):
            return True
    return False


def commands(document: Path) -> Iterator[Tuple[int, str]]:
    """Returns the lines of a document that may name files: its prose without links, and its blocks of commands."""
    page = markdown.read(document)
    yield from ((number, LINK.sub("", line)) for number, line in enumerate(page.prose, 1))
    yield from ((block.line + at, line) for block in page.blocks if block.language in ("sh", "") for at, line in enumerate(block.code, 1))


def is_gone(path: str, document: Path) -> bool:
    if path in FOREIGN or path.startswith("crates/first/") or re.search(r"\b[A-Z]{2,}\b(?!\.md)", path) or "out" in path.split("/"):
        return False
    return not any((folder / path).exists() for folder in (TOP, document.parent, *TOP.glob("crates/*"), *TOP.glob("crates/*/src")))


def leads_nowhere(link: str, document: Path) -> bool:
    name, _, anchor = link.partition("#")
    target = document.parent / name if name else document
    if not target.exists() or anchor == "":
        return not target.exists()
    if re.fullmatch(r"L\d+", anchor):
        return not 0 < int(anchor[1:]) <= target.read_text(encoding="utf-8").count("\n")
    return anchor not in markdown.read(target).anchors()


def identifiers(path: Path, text: str) -> Iterator[str]:
    """Returns the identifiers of a file of code, without its comments and strings; or what it defines."""
    suffix = Path(path.name.removesuffix(".txt")).suffix
    if suffix in (".py", ".sh", ".rs", ".antt") and "specs" not in path.parts:
        yield from (it for found in DEFINED.findall(text) for group in found for it in group.split(", ") if it)
        return
    of_c = r"(?s)/\*.*?\*/|//[^\n]*"
    comment = {".antt": r"(?m)(?:^|\s)--.*|//.*", ".c": of_c, ".h": of_c}.get(suffix, r"//.*")
    yield from WORD.findall(STRING.sub("", re.sub(comment, "", text)))


def words_of_sources(declared: Declarations) -> Set[str]:
    """Returns the words that may be cited by themselves."""
    words: Set[str] = {*declared.names()}
    for path in TOP.rglob("*"):
        parts = path.relative_to(TOP).parts
        if {".git", "out", "target", "compare", "__pycache__"} & {*parts}:
            continue
        words.update(part for name in parts for part in (name, name.split(".")[0]))
        name = path.name.removesuffix(".txt")
        found: List[str] = []
        if path.suffix == ".edits":
            found = re.findall(r"(?m)^# (\S+)$", path.read_text(encoding="utf-8"))
        elif parts[0] == "sessions" and path.suffix == ".txt":
            found = WORD.findall("\n".join(re.findall(r"(?m)^[#<>] .*", path.read_text(encoding="utf-8"))))
        elif name == "crates.txt" or path.is_file() and name.endswith((".rt", ".rs", ".antt", ".sh", ".py", ".c", ".h")):
            found = list(identifiers(path, path.read_text(encoding="utf-8", errors="replace")))
        words.update(found)
    return words


def is_known(name: str, known: Set[str], declared: Declarations) -> bool:
    if name in known or name in FOREIGN or STD.fullmatch(name):
        return True
    if "::" in name:
        return declared.resolves(name)
    name = name.partition("<")[0]
    if name in known or name in FOREIGN:
        return True
    return (name[0] == "_" and any(it.endswith(name) for it in known)) or (name[-1] == "_" and any(it.startswith(name) for it in known))


def wrong_clauses(line: str, declared: Declarations, is_list: bool) -> List[str]:
    """Returns the clauses that a line cites of a function that hasn't got them. In a list of names a comma is no citation."""
    line = re.sub(r"\(clauses `[^)]*\)", "", line)
    after = [(it, it[0][: it.start(2) - it.start()].rstrip()) for it in AFTER.finditer(line)]
    pairs = [(it[1], it[2]) for it, before in after if not (is_list and before.endswith(","))]
    pairs += [(name, clauses) for clauses, name in BEFORE.findall(line)]
    item = ITEM.fullmatch(line)
    known = declared.clauses(item[1]) - {""} if item else set()
    wrong = [f"`{item[1]}` has no clause `{it}`" for it in CLAUSE.findall(item[2]) if it not in known] if item and known else []
    for name, clauses in pairs:
        if not declared.found(name) or not declared.clauses(name) - {""}:
            continue
        # (a law or another member of the owner may be cited as a clause is)
        owner = name.rpartition("::")[0]
        cited = SPAN.findall(clauses)
        is_one = bool(declared.clauses(name) & {*cited})
        wrong += [
            f"`{name}` has no clause `{it}`"
            for it in cited
            if it not in declared.clauses(name) and (is_one or "::" in name) and not declared.resolves(f"{owner}::{it}")
        ]
    return wrong


def faults(document: Path, known: Set[str], fields: Dict[str, List[Set[str]]], declared: Declarations) -> Tuple[int, List[str]]:
    """How many names and links a document has, and the lines that say which of them are gone."""
    count = 0
    gone = []
    for number, line in enumerate(read_prose(document), 1):
        place = f"{document.relative_to(TOP)}:{number}"
        names = [name for it in SPAN.findall(line) for name in names_in(it)]
        links = [it for it in LINK.findall(line) if "://" not in it]
        paths = [it for it in SPAN.findall(line) if FILE.fullmatch(it)]
        count += len(names) + len(links) + len(paths)
        gone += [f"{place}: `{it}` is not in the sources" for it in names if not is_known(it, known, declared)]
        gone += [f"{place}: `{it}` has no such fields" for it in SPAN.findall(line) if has_no_fields(it, fields)]
        gone += [f"{place}: {it}" for it in wrong_clauses(line, declared, document.suffix == ".md")]
        gone += [f"{place}: `{it}` is not there" for it in paths if is_gone(it, document)]
        gone += [f"{place}: the link to {it} leads nowhere" for it in links if leads_nowhere(it, document)]
    for number, line in commands(document) if document.suffix == ".md" else ():
        place = f"{document.relative_to(TOP)}:{number}"
        for path, name in PATH.findall(line):
            if is_gone(path, document) if path else name not in known:
                gone.append(f"{place}: `{path or name}` is not there")
    return count, gone


def try_all(step: Step) -> None:
    declared = Declarations()
    known, fields = words_of_sources(declared), fields_of_sources()
    names = 0
    for document in documents():
        count, gone = faults(document, known, fields, declared)
        step.count(str(document.relative_to(TOP)), "".join(f"    {it}\n" for it in gone) if gone else None)
        names += count
    step.tell(f"{names} names and links were looked up")
