#!/usr/bin/env python3
"""Makes a library for C, Rust and Python of a crate that is a static library:

    python3 embed/library.py CRATE OUT

CRATE is its folder, as crates/scroll_ffi of this repository; its line in crates.txt is NAME staticlib: DEP ..
`rt lib` proves the crate and builds it. OUT then has

    libNAME.a, libNAME.so    the crate, the kit's object files that it needs, and the border: the C functions that callers see
    NAME.h                   their declarations, with the doc comments
    NAME.rs, NAME_raw.py     the same for Rust, and for Python's ctypes

An export is a function `#[unsafe(no_mangle)] pub extern "C"`, without a `requires`. Its parameters are numbers, and `&`, `&mut` and
slices of numbers and of structs with `#[repr(C)]`; a `Global` takes no argument. With a reference among them it returns an i32. The
border tests each reference, and returns -1, NAME_BAD_ARGUMENT, where the call would break what Rust says of it. Other errors are
constants, as `pub const NAME: i32 = -2;`, whose doc comments are their texts.

    python3 embed/library.py --declare CRATE

prints what Rust declares of a crate's exports, whatever they take, and proves and builds nothing.

The command fails where it finds an export that has another form, a name that is exported beside these, or a function that is needed
and is none of malloc, realloc, free and of the C library's on memory. The variable JOBS sets the jobs of the proof.
"""

import os
import re
import subprocess
import sys
import tempfile
from dataclasses import dataclass, field
from pathlib import Path
from typing import Dict, Iterator, List, NamedTuple, Tuple

# A number's type in Rattle and Rust, in C, and in Python's ctypes.
NUMBERS = {
    **{f"{kind}{bits}": (f"{c}{bits}_t", f"c_{c}{bits}") for kind, c in (("u", "uint"), ("i", "int")) for bits in (8, 16, 32, 64)},
    "usize": ("size_t", "c_size_t"),
    "isize": ("ptrdiff_t", "c_ssize_t"),
    "f32": ("float", "c_float"),
    "f64": ("double", "c_double"),
}
NEEDED = {*"malloc realloc free memcpy memmove memset memcmp bcmp _GLOBAL_OFFSET_TABLE_".split()}
DOC = r"((?:^[ ]*///[^\n]*\n)*)"
ATTRIBUTES = r"(?:^#\[[^\n]*\n)*"
STRUCT = re.compile(DOC + ATTRIBUTES + r"^#\[repr\(C\)\]\n" + ATTRIBUTES + r"^pub struct (\w+) \{\n(.*?)^\}", re.M | re.S)
FIELD = re.compile(DOC + r"^[ ]*pub (\w+): ([^\n]+),$", re.M)
CODE = re.compile(DOC + r"^pub const (\w+): i32 = (-\d+);", re.M)
EXPORT = re.compile(
    DOC + ATTRIBUTES + r"^#\[unsafe\(no_mangle\)\]\n" + ATTRIBUTES + r'^pub (?:unsafe )?extern "C" fn (\w+)\(([^)]*)\)(?: -> (\w+))?(?: \{|(.*?)^\{)$',
    re.M | re.S,
)
ARRAY = re.compile(r"\[(\w+); (\d+)\]")


class Refused(Exception):
    """The crate has a form that makes no library."""


class Param(NamedTuple):
    """A parameter: a number, or a reference to one value or to a slice."""

    name: str
    item: str
    is_reference: bool
    is_mutable: bool
    is_slice: bool


@dataclass
class Export:
    doc: str
    name: str
    params: List[Param]
    result: str


@dataclass
class Crate:
    """What a crate exports."""

    name: str
    about: str = ""
    structs: Dict[str, Tuple[str, List[Tuple[str, str, str]]]] = field(default_factory=dict)
    codes: List[Tuple[str, str, int]] = field(default_factory=list)
    exports: List[Export] = field(default_factory=list)


def text_of(doc: str) -> str:
    """Returns the text of a doc comment, as one paragraph."""
    return " ".join(it.strip()[3:].strip() for it in doc.splitlines()).strip()


def snake(name: str) -> str:
    return re.sub(r"(?<!^)(?=[A-Z])", "_", name).lower()


def read_param(function: str, text: str) -> Param:
    name, _, kind = (it.strip() for it in text.partition(":"))
    found = re.fullmatch(r"(&(mut )?)?(\[)?(\w+)\]?", kind)
    if not found or bool(found[3]) != kind.endswith("]") or (found[3] and not found[1]):
        raise Refused(f"{function}: a parameter of the type {kind}")
    return Param(name, found[4], bool(found[1]), bool(found[2]), bool(found[3]))


def read_exports(file: str, text: str) -> Iterator[Tuple[Export, str]]:
    """Returns the exports of a file, each with its clauses."""
    if text.count("#[unsafe(no_mangle)]") != len(EXPORT.findall(text)):
        raise Refused(f"{file}: a function with no_mangle that is no pub extern \"C\" fn in the layout of rt fmt")
    for doc, name, params, result, clauses in EXPORT.findall(text):
        words = [read_param(name, it) for it in params.split(",") if it.strip()]
        yield Export(text_of(doc), name, [it for it in words if it.item != "Global"], result), clauses


def read_crate(folder: Path) -> Crate:
    """Reads the exports off the sources."""
    crate = Crate(folder.name)
    files = sorted((folder / "src").rglob("*.rt"), key=lambda it: (it.name != "lib.rt", it))
    for file in files:
        text = file.read_text(encoding="utf-8")
        if file.name == "lib.rt":
            crate.about = " ".join(it[3:].strip() for it in text.splitlines() if it.startswith("//!"))
        for doc, name, body in STRUCT.findall(text):
            if len(FIELD.findall(body)) != sum(not it.strip().startswith("//") for it in body.splitlines()):
                raise Refused(f"{name}: it has more than public fields")
            crate.structs[name] = (text_of(doc), [(text_of(it[0]), it[1], it[2]) for it in FIELD.findall(body)])
        crate.codes += [(text_of(doc), name, int(value)) for doc, name, value in CODE.findall(text)]
        for export, clauses in read_exports(file.name, text):
            if re.search(r"^\s*requires\b", clauses, re.M):
                raise Refused(f"{export.name}: a requires, which its caller can't prove: test it, and return an error")
            crate.exports.append(export)
    check_crate(crate)
    return crate


def check_crate(crate: Crate) -> None:
    for name, (_, fields) in crate.structs.items():
        for _, part, kind in fields:
            item = ARRAY.fullmatch(kind)[1] if ARRAY.fullmatch(kind) else kind
            if item not in NUMBERS and item not in crate.structs:
                raise Refused(f"{name}: the field {part} of the type {kind}")
    for export in crate.exports:
        for it in export.params:
            if it.item not in NUMBERS and not (it.is_reference and it.item in crate.structs):
                raise Refused(f"{export.name}: the parameter {it.name} of the type {it.item}")
        if export.result not in NUMBERS and export.result:
            raise Refused(f"{export.name}: a result of the type {export.result}")
        if any(it.is_reference for it in export.params) and export.result != "i32":
            raise Refused(f"{export.name}: it takes a reference, and returns no i32 for the error of a bad one")
    if not crate.exports:
        raise Refused(f"{crate.name} exports no function")
    if [it for it in crate.codes if it[2] == -1]:
        raise Refused("-1 is the error of a bad argument")


def sorted_structs(crate: Crate) -> List[str]:
    """Returns the structs, each after those of its fields."""
    order: List[str] = []

    def add(name: str) -> None:
        for _, _, kind in crate.structs[name][1]:
            item = ARRAY.fullmatch(kind)[1] if ARRAY.fullmatch(kind) else kind
            if item in crate.structs and item not in order:
                add(item)
        if name not in order:
            order.append(name)

    for name in crate.structs:
        add(name)
    return order


def wrap(text: str, indent: str = "") -> str:
    """Returns a comment in C."""
    lines = [""]
    for word in text.replace("`", "").split():
        if len(lines[-1]) + len(word) > 100:
            lines.append("")
        lines[-1] += f" {word}"
    return f"{indent}/*{f'{chr(10)}{indent}  '.join(lines)} */\n" if text else ""


def c_type(item: str) -> str:
    return NUMBERS[item][0] if item in NUMBERS else snake(item)


def c_head(export: Export, name: str = "") -> str:
    words = []
    for it in export.params:
        stars = ("" if it.is_mutable else "const ") + c_type(it.item) + " *" if it.is_reference else c_type(it.item) + " "
        words += [f"{stars}{it.name}", *([f"size_t {it.name}_len"] if it.is_slice else [])]
    return f"{c_type(export.result) if export.result else 'void'} {name or export.name}({', '.join(words) or 'void'})"


def header(crate: Crate) -> str:
    """Returns the header for C."""
    upper = crate.name.upper()
    codes = [(f"An argument is no memory that can be used: null, misaligned, too long, or within another one that is written.", f"{upper}_BAD_ARGUMENT", -1)]
    text = f"{wrap(crate.about)}#ifndef {upper}_H\n#define {upper}_H\n\n#include <stddef.h>\n#include <stdint.h>\n\n"
    text += '#ifdef __cplusplus\nextern "C" {\n#endif\n\n'
    for doc, name, value in codes + crate.codes:
        text += f"{wrap(doc)}#define {name} ({value})\n"
    for name in sorted_structs(crate):
        doc, fields = crate.structs[name]
        text += f"\n{wrap(doc)}typedef struct {snake(name)} {{\n"
        for about, part, kind in fields:
            array = ARRAY.fullmatch(kind)
            text += wrap(about, "    ") + f"    {c_type(array[1] if array else kind)} {part}{f'[{array[2]}]' if array else ''};\n"
        text += f"}} {snake(name)};\n"
    for export in crate.exports:
        text += f"\n{wrap(export.doc)}{c_head(export)};\n"
    text += f"\n{wrap('Returns the text of an error, which is never freed.')}const char *{crate.name}_text(int32_t code);\n"
    return text + f"\n#ifdef __cplusplus\n}}\n#endif\n\n#endif /* {upper}_H */\n"


BORDER = """
/* Whether the memory of a slice can't be what a reference in Rust is. A null slice of none can. */
static inline int is_bad(const void *at, size_t count, size_t size, size_t alignment) {
    uintptr_t from = (uintptr_t)at;
    return count > (size_t)PTRDIFF_MAX / size || (from == 0 && count != 0) || (from & (alignment - 1)) != 0;
}

/* Whether two pieces of memory share a byte, of which one is written. (One test: from the start of the one back to where the
 * other would just not reach it.) */
static inline int overlap(const void *a, size_t a_size, const void *b, size_t b_size) {
    return a_size != 0 && b_size != 0 && (uintptr_t)b - (uintptr_t)a + (b_size - 1) < a_size + (b_size - 1);
}
"""


def border_function(crate: Crate, export: Export) -> str:
    """Returns the function that tests the arguments, and calls the proved one."""
    references = [it for it in export.params if it.is_reference]
    counts = {it.name: f"{it.name}_len" if it.is_slice else "1" for it in references}
    tests = [f"is_bad({it.name}, {counts[it.name]}, sizeof *{it.name}, _Alignof({c_type(it.item)}))" for it in references if it.is_slice]
    values = [it for it in references if not it.is_slice]
    if values:
        # (all alignments by one test, and all tests in one condition: so a call takes 4.4 ns and not 6.2)
        odd = " | ".join(f"((uintptr_t){it.name} & (_Alignof({c_type(it.item)}) - 1))" for it in values)
        tests += [*(f"{it.name} == NULL" for it in values), f"({odd}) != 0"]
    for i, a in enumerate(references):
        for b in references[i + 1 :]:
            if a.is_mutable or b.is_mutable:
                sizes = [f"{it.name}, {f'{counts[it.name]} * ' if it.is_slice else ''}sizeof *{it.name}" for it in (a, b)]
                tests.append(f"overlap({sizes[0]}, {sizes[1]})")
    bad = f"        return {crate.name.upper()}_BAD_ARGUMENT;\n"
    body = f"    if (__builtin_expect({f'{chr(10)}            || '.join(tests)}, 0))\n{bad}" if tests else ""
    for it in references:
        if it.is_slice:
            kind = c_type(it.item)
            body += f"    if ({it.name} == NULL)\n        {it.name} = ({kind} *)_Alignof({kind}); /* none, and nothing is read there */\n"
    call = ", ".join(word for it in export.params for word in (it.name, *([f"{it.name}_len"] if it.is_slice else [])))
    give = "return " if export.result else ""
    return f"{c_head(export, f'proved_{export.name}')};\n\n{c_head(export)} {{\n{body}    {give}proved_{export.name}({call});\n}}\n"


def border(crate: Crate) -> str:
    cases = "".join(f'    case {value}: return "{doc.replace("`", "")}";\n' for doc, _, value in crate.codes)
    bad = "    case -1: return \"An argument is no memory that can be used.\";\n"
    text = f"const char *{crate.name}_text(int32_t code) {{\n    switch (code) {{\n{bad}{cases}    default: return \"No error.\";\n    }}\n}}\n"
    return f'#include "{crate.name}.h"\n{BORDER}\n' + "\n".join([*(border_function(crate, it) for it in crate.exports), text])


def rust_head(export: Export) -> str:
    words = []
    for it in export.params:
        words.append(f"{it.name}: {('*mut ' if it.is_mutable else '*const ') if it.is_reference else ''}{it.item}")
        words += [f"{it.name}_len: usize"] if it.is_slice else []
    return f"pub fn {export.name}({', '.join(words)}){f' -> {export.result}' if export.result else ''}"


def declare(folder: Path) -> str:
    """Returns what Rust declares of the exports of a crate."""
    files = sorted((folder / "src").rglob("*.rt"))
    exports = [it for file in files for it, _ in read_exports(file.name, file.read_text(encoding="utf-8"))]
    return 'unsafe extern "C" {\n' + "".join(f"    {rust_head(it)};\n" for it in exports) + "}\n"


def rust(crate: Crate) -> str:
    """Returns the declarations for Rust."""
    text = "".join(f"/// {doc}\npub const {name}: i32 = {value};\n" for doc, name, value in crate.codes)
    for name in sorted_structs(crate):
        doc, fields = crate.structs[name]
        lines = "".join(f"    /// {about}\n    pub {part}: {kind},\n" for about, part, kind in fields)
        text += f"\n/// {doc}\n#[repr(C)]\n#[derive(Clone, Copy, Debug, Default)]\npub struct {name} {{\n{lines}}}\n"
    text += '\nunsafe extern "C" {\n'
    for it in crate.exports:
        text += f"    /// {it.doc}\n    {rust_head(it)};\n"
    return text + f"    /// Returns the text of an error.\n    pub fn {crate.name}_text(code: i32) -> *const std::ffi::c_char;\n}}\n"


def python(crate: Crate) -> str:
    """Returns the declarations for ctypes, below a function that loads the library."""
    text = f'"""The declarations of lib{crate.name}.so for ctypes."""\n\nimport ctypes\nfrom ctypes import *\n\n'
    text += "".join(f"{name} = {value}\n" for _, name, value in crate.codes)

    def kind_of(kind: str) -> str:
        array = ARRAY.fullmatch(kind)
        if array:
            return f"{kind_of(array[1])} * {array[2]}"
        return NUMBERS[kind][1] if kind in NUMBERS else kind

    for name in sorted_structs(crate):
        fields = "".join(f'        ("{part}", {kind_of(kind)}),\n' for _, part, kind in crate.structs[name][1])
        text += f"\n\nclass {name}(Structure):\n    _fields_ = [\n{fields}    ]\n"
    text += '\n\ndef load(path):\n    """Loads the library, and declares its functions."""\n    library = ctypes.CDLL(str(path))\n'
    for it in crate.exports:
        words = []
        for p in it.params:
            words.append("c_void_p" if p.is_slice else f"POINTER({kind_of(p.item)})" if p.is_reference else kind_of(p.item))
            words += ["c_size_t"] if p.is_slice else []
        result = kind_of(it.result) if it.result else "None"
        text += f"    library.{it.name}.argtypes = [{', '.join(words)}]\n    library.{it.name}.restype = {result}\n"
    text += f"    library.{crate.name}_text.argtypes = [c_int32]\n    library.{crate.name}_text.restype = c_char_p\n"
    return text + "    return library\n"


def run(*words: object, **how: object) -> str:
    """Runs a command, and returns what it printed."""
    ran = subprocess.run([str(it) for it in words], text=True, errors="replace", stdout=subprocess.PIPE, stderr=subprocess.STDOUT, **how)
    if ran.returncode:
        said = [it for it in ran.stdout.splitlines() if ": proved" not in it][-20:]
        raise Refused(f"{' '.join(str(it) for it in words)} ended with status {ran.returncode}\n" + "\n".join(said))
    return ran.stdout


def names_of(file: Path, *flags: str) -> "set[str]":
    return {line.split()[-1] for line in run("nm", *flags, file).splitlines() if line and not line.endswith(":")}


def link(crate: Crate, folder: Path, out: Path, room: Path) -> None:
    """Links the crate, the kit's object files and the border, and leaves only the names of the border."""
    kit = Path(run("rt", "doc").strip()).parent / "c" / "liblibc_c.a"
    public = [*(it.name for it in crate.exports), f"{crate.name}_text"]
    (room / "border.c").write_text(border(crate))
    cc = os.environ.get("CC", "cc").split()
    run(*cc, "-std=c11", "-O2", "-fPIC", "-fcf-protection=none", "-Wall", "-Wextra", "-Werror", "-I", out, "-c", "border.c", cwd=room)
    for archive in (folder / "out" / f"lib{crate.name}.a", kit):
        run("ar", "x", archive.resolve(), cwd=room)
    proved = [it for it in room.glob("*.o") if it.name != "border.o"]
    renames = [word for name in public for word in ("--redefine-sym", f"{name}=proved_{name}")]
    for it in proved:
        run("objcopy", *renames, it)
    whole = room / f"lib{crate.name}.o"
    run("ld", "-r", "-o", whole, "border.o", *proved, cwd=room)
    run("objcopy", *(f"--keep-global-symbol={it}" for it in public), whole)
    static, shared = out / f"lib{crate.name}.a", out / f"lib{crate.name}.so"
    static.unlink(missing_ok=True)
    run("ar", "rcs", static, whole)
    run(*cc, "-shared", "-o", shared, whole, f"-Wl,-soname,{shared.name}", "-Wl,-z,defs", "-Wl,-z,noexecstack", "-s")
    for file, flags in ((static, ("-g", "--defined-only")), (shared, ("-D", "--defined-only"))):
        other = names_of(file, *flags) ^ {*public}
        if other:
            raise Refused(f"{file.name} exports other names than {crate.name}.h has: {' '.join(sorted(other))}")
    needed = names_of(static, "-u") - NEEDED
    if needed:
        raise Refused(f"{static.name} needs {' '.join(sorted(needed))}")


def embed(folder: Path, out: Path) -> None:
    """Makes the library of a crate."""
    run("rt", "lib", *(["--jobs", os.environ["JOBS"]] if "JOBS" in os.environ else []), cwd=folder)
    crate = read_crate(folder)
    out.mkdir(parents=True, exist_ok=True)
    for name, text in ((f"{crate.name}.h", header(crate)), (f"{crate.name}.rs", rust(crate)), (f"{crate.name}_raw.py", python(crate))):
        (out / name).write_text(text, encoding="utf-8")
    with tempfile.TemporaryDirectory(prefix="embed-") as room:
        link(crate, folder, out, Path(room))
    for name in (f"lib{crate.name}.a", f"lib{crate.name}.so", f"{crate.name}.h"):
        print(f"library: {out / name}: {(out / name).stat().st_size} bytes")
    print(f"library: {len(crate.exports) + 1} functions: {' '.join(it.name for it in crate.exports)} {crate.name}_text")


def main(words: List[str]) -> int:
    if len(words) != 2:
        print(__doc__)
        return 2
    try:
        if words[0] == "--declare":
            print(declare(Path(words[1])), end="")
        else:
            embed(*(Path(it).resolve() for it in words))
        return 0
    except Refused as why:
        print(f"library: {why}", file=sys.stderr)
        return 1


if __name__ == "__main__":
    sys.exit(main(sys.argv[1:]))
