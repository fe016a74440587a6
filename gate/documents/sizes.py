"""Makes the columns of lines in crates/README.md from the files of the clients, and compares them: each client is a check, and
so is that the page names each crate. README has the table of formats, with how many lines the descriptions in
catalogue/ and the clients have, at least and at most, and those of proof; it also has the version of the kit, which `rt version` prints, and how fast whole jobs are, from the
table in docs/SPEED.md. The product's contracts and comments, and each crate's definitions and proofs, have at most 100 columns;
imports, the strings of tests and examples in comments may have more.
"""

import re
from pathlib import Path
from typing import Iterable, List

import markdown
from documents.layers import PRODUCT, list_clients
from step import TOP, Step, read_crates

PAGE = TOP / "crates" / "README.md"
COLUMNS = 5
README, SPEED = TOP / "README.md", TOP / "docs" / "SPEED.md"
# The formats of README's table by what they are for.
FORMATS = {
    "archives": "ar cpio gzip tar zip",
    "programs": "aranges coff debug_tables elf java macho object_files pe wasm",
    "network": "dhcp dns ethernet ipv4 mqtt packets pcap pcapng tcp tls",
    "pictures": "bmp gif ico jpeg png tga",
    "sound, film": "flac id3 midi mp4 ogg wav",
    "data": "bson fat git_index lnk ntfs pack_index protobuf sqlite",
}
# What is no format, of the clients and of the catalogue.
OTHERS = {"examples", "lib", "shapes", "tests"}
# Where README has the version of the kit, and what is made of rows; the columns of SPEED's jobs; and what a job's name has besides.
KIT = re.compile(r"(?<=\*\*Rattle kit )\d+(?=\*\*)")
MADE = r"(?s)(?<=<!-- {0} -->\n).*?(?=\n<!-- end -->)"
JOB, MORE = 11, re.compile(r" \(per byte\)")
WIDTH = 100
MAY_BE_WIDE = re.compile(r"(?:ghost |pub )?use |//[/!]     |#!?\[")


def count_parts(crate: Path) -> List[str]:
    """Returns the lines that aren't empty of code, without tests and what tools/derive prints, of definitions and of proof."""
    files = {it: it.relative_to(crate).parts for it in crate.glob("src/**/*.rt")}
    code = [it for it, parts in files.items() if "tests" not in parts and it.name not in ("tests.rt", "derived.rt")]
    return [count_lines(code), *(count_lines(antt_files(crate / it)) for it in ("specs", "proofs"))]


def antt_files(folder: Path) -> List[Path]:
    return [it for it in folder.glob("**/*.antt") if it.name != "Lib.antt"]


def try_widths(step: Step) -> None:
    files = [it for crate in PRODUCT for it in (TOP / "crates" / crate).glob("src/**/*.rt")]
    files += [it for part in ("specs", "proofs") for it in (TOP / "crates").glob(f"*/{part}/**/*.antt")]
    for path in files:
        if path.relative_to(TOP).parts[2:4] == ("src", "tests"):
            continue
        for index, line in enumerate(path.read_text(encoding="utf-8").split("\n")):
            if len(line) > WIDTH and not MAY_BE_WIDE.match(line):
                step.count(f"{path.relative_to(TOP)}:{index + 1} has more than {WIDTH} columns", "")
    step.count("lines of at most 100 columns", None)


def count_lines(files: Iterable[Path]) -> str:
    """Returns the lines that aren't empty."""
    return str(sum(bool(line) for it in files for line in it.read_text(encoding="utf-8").split("\n")))


def formats(clients: List[List[str]]) -> str:
    """Returns the table of the formats and what is said of their lines; the clients have the rows of crates/README.md."""
    found = {it.name.removesuffix(".rt.txt"): int(count_lines([it])) for it in (TOP / "catalogue").glob("*.rt.txt")}
    made = {it[0].strip("`"): (int(it[2]), it[4]) for it in clients}
    described, by_hand = ([of[it] for it in of if it not in OTHERS] for of in (found, made))
    proved = ", ".join(f"`{it}` {made[it][1]}" for it in sorted(made) if made[it][1] != "0" and it not in OTHERS)
    lines = [
        f"The [catalogue](crates/README.md): {min(described)} to {max(described)} lines, none of proof; in bold, clients: "
        f"{min(by_hand)[0]} to {max(by_hand)[0]} by hand, of proof {proved}.\n",
        "| for | formats |",
        "|---|---|",
    ]
    for area, names in FORMATS.items():
        cells = [f"`{it}`" if it in found else f"**{it}**" for it in names.split() if it in {*found, *made}]
        lines.append(f"| {area} | {', '.join(cells)} |")
    left = {*found, *made} - OTHERS - {*" ".join(FORMATS.values()).split()}
    return "\n".join([*lines, *(f"| no area for {it} |" for it in sorted(left))])


def jobs() -> str:
    """Returns what is said of the fastest job and of the slowest."""
    found = [(float(it[4]), MORE.sub("", it[0])) for _, it in markdown.read(SPEED).rows() if len(it) == JOB and it[0] != "job"]
    low, high = (f"{ratio:.2f} ({job})" for ratio, job in (min(found), max(found)))
    return f"A whole job takes {low} to {high} times as long as the fastest peer's ([SPEED](docs/SPEED.md))."


def try_readme(step: Step, is_writing: bool) -> None:
    version = re.match(r"rattle-kit-(\d+)", step.run(TOP, "rt", "version").said)
    rows = [cells for _, cells in markdown.read(PAGE).rows() if len(cells) == COLUMNS and cells[0] != "client"]
    made = {
        KIT: version[1] if version else "",
        re.compile(MADE.format("formats")): formats(rows),
        re.compile(MADE.format("jobs")): jobs(),
    }
    text = README.read_text(encoding="utf-8")
    for place, wanted in made.items():
        found = place.findall(text)
        is_there = found == [wanted] or is_writing and len(found) == 1
        step.count(f"README has {found}", None if is_there else f"    it must be {wanted}")
        text = place.sub(lambda _: wanted, text)
    if is_writing:
        README.write_text(text, encoding="utf-8")


def try_all(step: Step, is_writing: bool) -> None:
    text = PAGE.read_text(encoding="utf-8")
    lines = text.split("\n")
    names = []
    for index, cells in markdown.read(PAGE).rows():
        if len(cells) != COLUMNS or cells[0] == "client":
            continue
        name = cells[0].strip("`")
        names.append(name)
        wanted = count_parts(PAGE.parent / name)
        if is_writing:
            cells[2:] = wanted
            lines[index] = f"| {' | '.join(cells)} |"
        step.count(f"crates/README.md:{index + 1}: {name} has {wanted} lines", None if cells[2:] == wanted else "")
    for it in {*list_clients()} ^ {*names}:
        step.count(f"crates/README.md: {it} has a row and is no client, or is one and has no row", "")
    left = [it for it in read_crates() if f"`{it}`" not in text]
    step.count("the crates that crates/README.md names", f"    not {' '.join(left)}" if left else None)
    if is_writing:
        PAGE.write_text("\n".join(lines), encoding="utf-8")
    try_readme(step, is_writing)
    try_widths(step)
    step.tell(f"{len(names)} clients have their lines in crates/README.md")
