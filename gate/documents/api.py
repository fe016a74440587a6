"""Makes docs/API.md from the doc comments of the libraries: each public module, trait, type, constant and function, and each
implementation that has a comment of its own, with their comments as they stand, but for the examples, to which links lead; a
function has its signature too, which is a link to its place in the source. A link to an item leads to its heading. The page is a check.
"""

import re
from itertools import groupby
from pathlib import Path
from typing import Dict, Iterator, List, NamedTuple

import markdown
from documents.layers import LIBRARIES
from step import TOP, Step

PAGE = TOP / "docs" / "API.md"
HEAD = """# API

Each public item of the libraries `scroll`, `scroll_formats` and `scroll_layouts`, from its doc comments. Offsets and sizes are in bytes. A call whose name ends in `_with` takes a context; the one without takes the default of the context's type, which
for numbers is the machine's byte order. A signature leads to its contract. The gate runs the examples. [PROVED.md](PROVED.md) links to
the clauses of its promises, and [GUIDE.md](GUIDE.md#the-clauses-of-each-call) names those of the calls.
"""
# The sections: what each is, and its files; those of the other libraries begin with their names.
FORMATS, LAYOUTS = LIBRARIES[1:]
SECTIONS = {
    "Reads and writes": ["pread", "pwrite", "greater", "lesser", "source"],
    "Byte orders and errors": ["endian", "error"],
    "Slices": ["slice"],
    "Contexts and types": ["ctx", "ctx/str_ctx", "ctx/text", "ctx/bytes", "ctx/measure", "ctx/arrays", "ctx/memory", "ctx/c_strings"]
    + ["ctx/std_c_strings", "cstr", "cstr/of_std"],
    "Types of a fixed size": ["ctx/fixed", "ctx/fixed/arrays", "ctx/tuples"],
    "LEB128": ["leb128", "leb128/counted", "leb128/unsigned", "leb128/signed", "leb128/bytewise", "leb128/block", "leb128/by_loads", "loads"],
    "Runs of commands": ["runner"],
    "Laws": ["laws", "laws/numbers", "laws/fixed", "laws/reads", "laws/texts", "laws/leb128", "laws/histories", f"{FORMATS}/laws"],
    "Formats of any size": [f"{FORMATS}/{it}" for it in ("encode", "put", "many", "kept", "table", "zeros", "located", "small_error")],
    "Formats in the logic": [f"{LAYOUTS}/{it}" for it in ("lib", "run", "run/contexts", "fixed", "fixed/numbers", "fixed/arrays", "fixed/records")]
    + [f"{LAYOUTS}/{it}" for it in ("bytes", "padding", "texts", "c_strings", "std_c_strings", "fills", "leb128", "leb128/parts")]
    + [f"{LAYOUTS}/{it}" for it in ("leb128/zigzags", "vlq", "vlq/parts", "numerals", "numerals/parts", "shifts")]
    + [f"{LAYOUTS}/{it}" for it in ("bits", "bits/fields", "bits/words", "bits/three_bytes", "tables", "items", "lists")]
    + [f"{LAYOUTS}/{it}" for it in ("marked", "marked/ends", "marked/until", "marked/values", "closed")]
    + [f"{LAYOUTS}/walk", f"{LAYOUTS}/pointer"]
    + [f"{LAYOUTS}/{it}" for it in ("pairs", "head", "within", "behind", "ordered", "optional", "choice", "variants", "borrowed", "shape", "whole", "append", "each")],
}
ITEM = re.compile(r"(?P<indent>(?:    )?)(?P<open>pub )?(?:final |const |unsafe )*(?P<kind>trait|struct|enum|fn|const|type|impl)\b(?P<rest>.*)")
VARIANT = re.compile(r"    (?:pub )?(?P<name>[A-Za-z_]\w*)[,({:]?.*")
CLAUSE = re.compile(r"\s+(requires|ensures|succeeds) (?:(\w+) )?\{")
LINK = re.compile(r"\[(`[^`]+`)\](?:\([\w:]+\))?")
NUMBER = re.compile(r"\d+")


class Entry(NamedTuple):
    """An item: how deep it stands, its heading, its signature, its comment, its file, the lines of the item and of its comment."""

    depth: int
    title: str
    code: str
    said: List[str]
    file: str
    line: int
    said_at: int


def name_of(kind: str, rest: str) -> str:
    found = re.match(r"\s*(\w+)", re.sub(r"^<[^>]*>", "", rest))
    return found[1] if found else ""


def of_impl(rest: str) -> str:
    """Returns an implementation's trait and type, without the parameters that it declares."""
    text = re.sub(r"^<(?:[^<>]|<[^<>]*>)*>", "", rest.strip()).strip()
    return re.sub(r"\s+", " ", re.split(r"\s+where\b|\s*\{", text)[0]).replace("'static ", "").strip()


def signature(lines: List[str], at: int) -> str:
    """Returns the head of a function on one line, without its contract."""
    head: List[str] = []
    for line in lines[at:]:
        if CLAUSE.match(line) or line.strip() in ("{", "{}"):
            break
        head.append(line.strip())
        if line.rstrip().endswith((";", "{", "{}")):
            break
    text = re.sub(r"\s+", " ", " ".join(head)).rstrip("{};").strip()
    text = re.sub(r",? (?=[)>])|(?<=[(<]) ", "", re.sub(r",\s*([)>])", r"\1", text)).replace(" where Ctx: Default,", "")
    return re.sub(r"^pub | where .*$", "", text)


def path_of(name: str) -> Path:
    """Returns the file of a section's name."""
    library = next((it for it in LIBRARIES if name.startswith(f"{it}/")), LIBRARIES[0])
    return TOP / "crates" / library / "src" / f"{name.removeprefix(f'{library}/')}.rt"


def name_of_file(path: Path) -> str:
    """Returns the name of a file: its library, and its path there."""
    library, _, *parts = path.relative_to(TOP / "crates").with_suffix("").parts
    return "/".join([library, *(it for it in parts if it != "lib")])


def entries(path: Path) -> Iterator[Entry]:
    """Returns what a file says: its module's comment first."""
    lines = path.read_text(encoding="utf-8").split("\n")
    file = f"../{path.relative_to(TOP).as_posix()}"
    module = [line[3:].removeprefix(" ") for line in lines if line.startswith("//!")]
    if module:
        first = next(at for at, line in enumerate(lines, 1) if line.startswith("//!"))
        yield Entry(3, f"`{name_of_file(path).replace('/', '::')}`", "", module, file, first, first)
    said: List[str] = []
    said_at = 0
    owner, kind, is_open = "", "", False
    for at, line in enumerate(lines):
        if line.strip().startswith("///"):
            said_at = said_at if said else at + 1
            said.append(line.strip()[3:].removeprefix(" "))
            continue
        if line.strip().startswith("#["):
            continue
        item = ITEM.fullmatch(line)
        if item and not item["indent"]:
            kind, is_open = item["kind"], bool(item["open"]) or item["kind"] == "impl"
            rest = item["rest"]
            for more in lines[at + 1 :] if kind == "impl" else []:
                if "{" in rest:
                    break
                rest += f" {more.strip()}"
            owner = of_impl(rest.replace("< ", "<").replace(", >", ">")) if kind == "impl" else name_of(kind, rest)
            bound = re.search(rf"\b{owner[-1:]}: (\w+)", rest) if kind == "impl" and re.search(r" for [A-Z]$", owner) else None
            owner += f": {bound[1]}" if bound else ""
            if said and is_open:
                code = signature(lines, at) if kind in ("fn", "type", "const") else ""
                yield Entry(3 if kind != "impl" else 4, f"`{owner}`", code, said, file, at + 1, said_at)
        elif item and said and item["kind"] == "fn" and (item["open"] or kind in ("trait", "impl")):
            name = name_of("fn", item["rest"])
            yield Entry(4, f"`{owner.split(' for ')[-1].split('<')[0]}::{name}`", signature(lines, at), said, file, at + 1, said_at)
        elif said and kind in ("enum", "struct") and is_open and VARIANT.fullmatch(line):
            yield Entry(0, f"`{line.strip().rstrip(',{').strip().removeprefix('pub ')}`", "", said, file, at + 1, said_at)
        said = []


def is_headed(entry: Entry) -> bool:
    """Whether an item has a heading: one with a signature and a single paragraph is one line of the page."""
    return entry.depth > 0 and ("" in entry.said or not entry.code)


def listed() -> Dict[str, List[Entry]]:
    """Returns the items of each section. A call without `_with` is part of the one with it."""
    found = {it: [e for file in files if path_of(file).is_file() for e in entries(path_of(file))] for it, files in SECTIONS.items()}
    titles = {e.title for those in found.values() for e in those}

    def titled(e: Entry) -> Entry:
        short = e.title.removesuffix("_with`")
        return e._replace(title=f"{e.title}, `{short[1:].split('::')[-1]}`") if short != e.title and f"{short}`" in titles else e

    return {it: [titled(e) for e in those if f"{e.title[:-1]}_with`" not in titles] for it, those in found.items()}


def anchors(headed: List[Entry]) -> Dict[str, str]:
    """Returns for the title of each heading, and for each end of its path, the anchor of the first one that has it."""
    found: Dict[str, str] = {}
    for title in (it.title for it in headed):
        for name in title.replace("`", "").split(", "):
            for at in [0, *(it.end() for it in re.finditer("::", name))]:
                found.setdefault(name[at:], markdown.anchor(title))
    return found


def linked(text: str, owner: str, to: Dict[str, str]) -> str:
    """Returns a paragraph, in which a link to an item leads to its heading: the item's own method, where it has one of the name, and for
    a variant that of its enum."""

    def link(match: "re.Match[str]") -> str:
        name = match[1].strip("`()")
        target = next((to[it] for it in (f"{owner}::{name}", name, name.rpartition("::")[0]) if it in to), None)
        return f"[{match[1]}](#{target})" if target else match[1]

    return LINK.sub(link, text)


def paragraphs(entry: Entry, to: Dict[str, str]) -> List[str]:
    """Returns the paragraphs of a comment, each on one line, and its lists; of an example a link, and of a client's its file."""
    owner = entry.title.strip("`").split("::")[0]
    found: List[str] = []
    text = "\n".join(entry.said)
    at = 0
    for piece in re.split(r"(?ms)^(```.*?^```)$|\n\n+", text):
        at = text.find(piece, at) if piece else at
        if (piece or "").startswith("```"):
            if not re.match(r"Example: |.*\[Example\]", "".join(found[-1:])):
                link = f"[Example]({entry.file}#L{entry.said_at + text.count(chr(10), 0, at)})."
                found[-1:] = [" ".join([*found[-1:], link])]
        elif (piece or "").strip():
            # (an item of a list that is continued stands on one line too)
            said = re.sub(r"\n(?![-|]) *", " ", piece.strip("\n"))
            found.append(linked(re.sub(r"^From (`crates/[^`]+`).*:$", r"Example: \1.", said), owner, to))
    return found


def by_numbers(those: List[Entry]) -> List[Entry]:
    """Returns the variants of an enum; three or more that differ in one number alone are one, such as numbers of 8, 16 and 32 bits."""
    groups: Dict[str, List[Entry]] = {}
    for e in those:
        text = " ".join(e.said)
        groups.setdefault(NUMBER.sub("#", text) if len(NUMBER.findall(text)) == 1 else str(e.line), []).append(e)
    found: List[Entry] = []
    for text, group in groups.items():
        if len(group) < 3:
            found += group
            continue
        *most, last = (NUMBER.findall(" ".join(e.said))[0] for e in group)
        said = text.replace("#", f"{', '.join(most)} or {last}")
        found.append(group[0]._replace(title=", ".join(e.title for e in group), said=[said]))
    return found


def page() -> str:
    sections = listed()
    to = anchors([e for those in sections.values() for e in those if is_headed(e)])
    parts = [HEAD.strip("\n")]
    for section, those in sections.items():
        parts.append(f"## {section}")
        for e in (e for is_variant, run in groupby(those, key=lambda e: e.depth == 0) for e in (by_numbers([*run]) if is_variant else run)):
            said, code = paragraphs(e, to), f"[`{e.code}`]({e.file}#L{e.line})" if e.code else ""
            if is_headed(e):
                parts += [f"{'#' * e.depth} {e.title}", *filter(None, [code]), *said]
            else:
                # (a function's name stands in its signature, with its owner)
                name = e.title.strip("`")
                head = re.sub(rf"\b{name.rpartition('::')[2]}\b", name, code, count=1) if code else e.title
                parts.append(f"- {head}: {' '.join(said)}")
    return re.sub(r"(?m)(^- .*)\n\n(?=- )", r"\1\n", "\n\n".join(parts)) + "\n"


def left_out() -> List[str]:
    """Returns the files with items for the page that no section names, and those that a section names and that aren't there."""
    files = {name_of_file(path): path for it in LIBRARIES for path in (TOP / "crates" / it / "src").rglob("*.rt")}
    named = {name_of_file(path_of(it)) for listed in SECTIONS.values() for it in listed}
    new = [it for it in files.keys() - named if it.split("/")[1:2] not in ([], ["tests"]) and list(entries(files[it]))]
    return sorted(new + list(named - files.keys()))


def try_all(step: Step, writes: bool) -> None:
    wanted = page()
    strays = "\n".join(f"    {it}.rt" for it in left_out())
    step.count("a file's items are not on docs/API.md, or a section names a file that isn't there", strays or None)
    if writes:
        PAGE.write_text(wanted, encoding="utf-8")
    is_same = PAGE.is_file() and PAGE.read_text(encoding="utf-8") == wanted
    step.count("docs/API.md is not what the doc comments say", None if is_same else "    python3 gate/documents/compare.py write makes it")
