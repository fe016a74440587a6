"""Makes the table and the summary from the output of the programs of bench/beside_rust.sh.

    python3 draw.py RAW [TOP]
    python3 draw.py

It prints the table of all rows. With TOP, the top of the repository, it writes bench/results/speed.csv, and the summary by use
between the marks of docs/SPEED.md. Without arguments it makes that summary again from the repository's speed.csv. It needs no
library.
"""

import datetime
import os
import subprocess
import sys

import results
from results import TITLES

BEGIN, END = "<!-- table: begin -->", "<!-- table: end -->"


def said_by(*command):
    """Returns the first line that a command prints."""
    try:
        return subprocess.run(command, capture_output=True, text=True).stdout.splitlines()[0].strip()
    except (OSError, IndexError):
        return command[0] + " (unknown)"


def processor():
    try:
        with open("/proc/cpuinfo") as file:
            return next(line.split(":", 1)[1].strip() for line in file if line.startswith("model name"))
    except (OSError, StopIteration):
        return "an unknown processor"


def machine():
    today = datetime.date.today().isoformat()
    made_by = ", ".join(said_by(*command) for command in (("rustc", "--version"), ("rt", "version"), ("cc", "--version")))
    return f"Taken on {today}, on {os.cpu_count()} processors {processor()}, with {made_by}."


def seen(number):
    return f"{number:.3f}" if number < 1 else f"{number:.2f}"


def table(rows):
    """Returns the table of all rows in Markdown, a part for each set."""
    lines = head(rows, machine())
    for name, title in TITLES.items():
        members = [row for row in rows if row.set == name]
        if not members:
            continue
        lines += ["", f"### {title}", ""]
        lines += ["| row | ours, ns | Rust, ns | ratio | in four layouts | run before | why |", "|---|--:|--:|--:|---|--:|---|"]
        for row in members:
            before = f"{row.before:.2f}" if row.before else ""
            layouts = f"{row.low:.2f} to {row.high:.2f}"
            lines.append(f"| {row.name} | {seen(row.ours_ns)} | {seen(row.rust_ns)} | {row.ratio:.2f} | {layouts} | {before} | {row.reason} |")
    return lines


def put_between_marks(path, lines):
    with open(path) as file:
        before, rest = file.read().split(BEGIN)
        _, after = rest.split(END)
    with open(path, "w") as file:
        file.write(before + BEGIN + "\n" + "\n".join(lines) + "\n" + END + after)


def head(rows, taken):
    """Returns the lines above the summary: on what the times were taken, and how near the run before was."""
    lines = [taken]
    both, near = results.steady(rows)
    if both:
        lines.append(f"In the run before it, {near} of {both} ratios differ from these by less than a tenth.")
    return lines


def taken_of(path):
    """Returns the line of the page on what the times of its summary were taken."""
    with open(path) as file:
        return next(it for it in file.read().split(BEGIN)[1].split("\n") if it.startswith("Taken on "))


def draw(rows, page, taken):
    """Writes the page's summary."""
    put_between_marks(page, [*head(rows, taken), "", *results.summary(rows)])


def main():
    if len(sys.argv) == 1:
        top = os.path.dirname(os.path.dirname(os.path.abspath(__file__)))
        page = os.path.join(top, "docs", "SPEED.md")
        draw(results.read_csv(os.path.join(top, "bench", "results", "speed.csv")), page, taken_of(page))
        return
    raw, top = sys.argv[1], sys.argv[2] if len(sys.argv) > 2 else None
    folder = os.path.join(top, "bench", "results") if top else None
    rows = results.read_raw(raw)
    order = list(TITLES)
    rows.sort(key=lambda row: order.index(row.set))
    results.take_reasons(os.path.join(os.path.dirname(os.path.abspath(__file__)), "reasons.txt"), rows)
    if folder:
        results.take_ratios_before(os.path.join(folder, "speed.csv"), rows)
    lines = table(rows)
    print("\n".join(lines))
    if folder:
        results.write_csv(os.path.join(folder, "speed.csv"), rows)
        draw(rows, os.path.join(top, "docs", "SPEED.md"), machine())
    unexplained = [f"{row.set}, {row.name}: {row.ratio:.2f}" for row in rows if row.reason == "?"]
    if unexplained:
        print("bench: over 1.05, and bench/reasons.txt has no line for it:\n    " + "\n    ".join(unexplained), file=sys.stderr)


if __name__ == "__main__":
    main()
