"""Makes a crate whose tests are the examples of the library's documentation, for gate/documents/readme.py, which runs them.

Each block of Rust that asserts something, in a doc comment of the libraries or in docs/FROM-RUST.md, is one test, unless it is from a
file: a line above it begins with that file's name, and gate/documents/guide.py compares the two. A block may use the crate's public
names, `rt` and `?`.
"""

import re
from typing import Dict, Iterator, List, Tuple

import markdown
from documents.layers import LIBRARIES
from step import TOP

EXPORTED = re.compile(r"^pub use [\w:]+::(?:\{([^}]*)\}|(\w+));", re.M)
# What is exported in another way, or is std's; and the traits that a method is called by, which no example names.
MORE = {
    "CStr": "scroll::cstr::CStr",
    "MeasureWith": "scroll::ctx::MeasureWith",
    "SizeWith": "scroll::ctx::SizeWith",
    "slice": "scroll::slice",
    "Write": "std::io::Write",
}
TRAITS = {"Cread", "Cwrite", "IOread", "IOwrite", "LocateError", "MeasureWith", "Pread", "Pwrite", "SizeWith", "Write"}


def examples_of(library: str) -> Iterator[Tuple[str, List[str]]]:
    """The name and the lines of each example of a library; docs/FROM-RUST.md is the first one's."""
    src = TOP / "crates" / library / "src"
    sources = [it for it in sorted(src.rglob("*.rt")) if "tests" not in it.relative_to(src).parts]
    for path in [*sources, *([TOP / "docs" / "FROM-RUST.md"] if library == LIBRARIES[0] else [])]:
        for block in markdown.read(path).blocks:
            if block.language == "rust" and not block.source and any("assert" in it for it in block.code):
                place = dict.fromkeys((path.relative_to(TOP).parts[1].partition(".")[0], path.stem))
                name = "_".join((*place, str(block.line))).lower().replace("-", "_")
                yield name, [it for it in block.code if not it.startswith("use ")]


def examples() -> List[Tuple[str, List[str]]]:
    """The name and the lines of each example."""
    return [it for library in LIBRARIES for it in examples_of(library)]


def paths(first: str) -> Dict[str, str]:
    """The paths of the names that the libraries export. Of a name that two export, an example of one of them means its own."""
    found: Dict[str, str] = {}
    for library in [*LIBRARIES, first]:
        for file, at in (("ctx.rt", f"{library}::ctx"), ("lib.rt", library)):
            source = TOP / "crates" / library / "src" / file
            listed = EXPORTED.findall(source.read_text(encoding="utf-8")) if source.is_file() else []
            found.update({it.strip(): f"{at}::{it.strip()}" for many, one in listed for it in (many or one).split(",") if it.strip()})
    found.pop("Result", None)
    return {**found, **MORE}


def crate() -> str:
    """The text of the crate's one file: a module for each library that has examples."""
    lines = ["#![tactic(auto)]"]
    for library in LIBRARIES:
        tests, known = list(examples_of(library)), paths(library)
        if not tests:
            continue
        used = {*TRAITS, *re.findall(r"\w+", "\n".join(line for _, block in tests for line in block))}
        lines += ["", f"mod of_{library} {{", *(f"    use {known[it]};" for it in sorted(used & {*known})), "    use std::test::Fail;"]
        for name, block in tests:
            body = [f"        {line}".rstrip() for line in block]
            lines += ["", "    #[test]", f"    fn {name}(rt: HostRuntime) -> Result<(), Fail> {{", *body, "        Ok(())", "    }"]
        lines.append("}")
    return "\n".join([*lines, ""])
