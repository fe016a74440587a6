"""Makes the table of jobs from the output of the programs of bench/beside_rust.sh jobs.

    python3 jobs.py RAW SAID VERSIONS PROGRAM [--keep]
    python3 jobs.py

RAW has the times, SAID the allocations and the places of the code, VERSIONS the versions of the crates, and PROGRAM is the
program that said so. It prints the table and, without `--keep`, writes it to docs/SPEED.md, the times to
bench/results/jobs.csv, and their chart. Without arguments it draws the chart again from the repository's jobs.csv.
"""

import csv
import re
import subprocess
import sys
from pathlib import Path

import charts
import draw
from results import SHIFTS, mean

TOP = Path(__file__).resolve().parents[1]
BEGIN, END = "<!-- jobs: begin -->", "<!-- jobs: end -->"


def read_times(path):
    """Returns for each job and each form the least time in each layout, in nanoseconds per step."""
    times = {}
    with open(path, newline="") as file:
        for shift, _set, row, _side, form, _count, nanoseconds in csv.reader(file):
            best = times.setdefault(row, {}).setdefault(form, {})
            best[int(shift)] = min(float(nanoseconds), best.get(int(shift), float("inf")))
    return times


def read_costs(path):
    """Returns for each job and each form how often it asked for memory, for how many bytes, and where its code is."""
    with open(path) as file:
        lines = [line.strip().removeprefix("COSTS,") for line in file if line.startswith("COSTS,")]
    return {(row, form): tuple(map(int, counts)) for row, form, *counts in map(split, lines)}


def split(line):
    row, rest = line.split(",", 1)
    return (row, *rest.rsplit(",", 3))


FUNCTION = re.compile(r"([0-9a-f]+) <(.+)>:")
CALL = re.compile(r"\t(?:addr32 )?(?:call|j\w+) .*?\b([0-9a-f]+) <([^>]+)>")
# A place that holds the address of a function.
PLACE = re.compile(r"([0-9a-f]+) R_X86_64_RELATIVE +\*ABS\*\+0x([0-9a-f]+)")
# Functions that end the program are no part of a job.
ENDS = re.compile(r"panic|fail|abort|handle_alloc_error")


def read_code(program):
    """Returns the functions of a program by their addresses: the name, the size in bytes, and the addresses that it calls."""
    places = {int(it[1], 16): int(it[2], 16) for line in printed("objdump", "-R", program) if (it := PLACE.match(line))}
    functions, last = {}, None
    for line in printed("objdump", "-d", "--no-show-raw-insn", program):
        if start := FUNCTION.fullmatch(line):
            at = int(start[1], 16)
            if last is not None:
                functions[last][1] = at - last
            functions[at], last = [start[2], 0, set()], at
        elif call := CALL.search(line):
            to = int(call[1], 16)
            functions[last][2].add(places.get(to, to))
    return functions


def printed(*command):
    return subprocess.run(command, check=True, capture_output=True, text=True).stdout.splitlines()


def code_start(program):
    """The address from which the program counts the places of its code."""
    return next(int(line.split()[0], 16) for line in printed("nm", program) if line.endswith(" code_shift"))


def code_size(at, functions):
    """The bytes of machine code of a function and of all that it calls, but for calls of closures."""
    seen, rest = set(), [at]
    while rest:
        at = rest.pop()
        if at in functions and at not in seen and not ENDS.search(functions[at][0]):
            seen.add(at)
            rest.extend(functions[at][2])
    return sum(functions[at][1] for at in seen)


LARGE = " of 64 MiB"


def rows(times):
    """Returns for each job of the table its times as cells, and its peers, the fastest first."""
    for row, forms in times.items():
        peers = sorted((mean(best.values()), form) for form, best in forms.items() if form != "scroll")
        if not peers or row.endswith(LARGE):
            continue
        (its, peer), ours = peers[0], forms["scroll"]
        ratios = [ours[shift] / forms[peer][shift] for shift in SHIFTS]
        time = mean(ours.values())
        cells = [draw.seen(time), draw.seen(its), f"{time / its:.2f}", f"{min(ratios):.2f} to {max(ratios):.2f}"]
        yield row, [*cells, grown(times.get(row + LARGE), peer)], peers


def table(times, costs, versions, size):
    head = ["job", "ours, ns", "fastest peer", "its ns", "ratio", "in four layouts", "at 64 MiB"]
    head += ["allocations, ours and its", "their bytes", "machine code, bytes", "other peers, ns"]
    lines = [f"| {' | '.join(head)} |", "|---|--:|---|--:|--:|---|--:|---|---|---|---|"]
    for row, (ours, its, *others), peers in rows(times):
        both = [costs[row, form] for form in ("scroll", peers[0][1])]
        cells = [row, ours, name(peers[0][1], versions), its, *others]
        cells += [", ".join(f"{cost[i]:,}" for cost in both) for i in (0, 1)]
        cells.append(", ".join(f"{size(cost[2]):,}" for cost in both))
        cells.append(", ".join(f"{name(form, versions)} {draw.seen(time)}" for time, form in peers[1:]))
        lines.append(f"| {' | '.join(cells)} |")
    return lines


def grown(forms, peer):
    """Our time at 64 MiB, and its ratio to that of the peer."""
    if not forms:
        return ""
    ours, its = (mean(forms[form].values()) for form in ("scroll", peer))
    return f"{draw.seen(ours)} ({ours / its:.2f})"


class Bar:
    """A job beside its fastest peer."""

    def __init__(self, row, forms):
        ours = forms["scroll"]
        peer = min((form for form in forms if form != "scroll"), key=lambda it: mean(forms[it].values()))
        ratios = [ours[shift] / forms[peer][shift] for shift in SHIFTS]
        self.name = row
        self.ratio, self.low, self.high = mean(ours.values()) / mean(forms[peer].values()), min(ratios), max(ratios)


def draw_chart(times):
    rows = [Bar(row, forms) for row, forms in times.items() if len(forms) > 1 and not row.endswith(LARGE)]
    (TOP / "bench" / "results" / "jobs.svg").write_text(charts.jobs(rows))


def read_csv():
    """Returns the times of the repository's jobs.csv."""
    times = {}
    with open(TOP / "bench" / "results" / "jobs.csv", newline="") as file:
        for line in csv.DictReader(file):
            times.setdefault(line["job"], {})[line["form"]] = {shift: float(line[f"ns_{shift}"]) for shift in SHIFTS}
    return times


def name(form, versions):
    """The name of a form with the version of its crate."""
    words = form.split(",")[0].split()
    return form.replace(words[-1], f"`{words[-1]}` {versions[words[-1]]}", 1) if words[-1] in versions else form


def main():
    if len(sys.argv) == 1:
        draw_chart(read_csv())
        return
    raw, said, path, program, *keep = sys.argv[1:]
    times = read_times(raw)
    with open(path) as file:
        versions = dict(line.split() for line in file)
    functions, start = read_code(program), code_start(program)
    lines = [draw.machine(), "", *table(times, read_costs(said), versions, lambda at: code_size(start + at, functions))]
    print("\n".join(lines))
    if keep:
        return
    with open(TOP / "bench" / "results" / "jobs.csv", "w", newline="") as file:
        writer = csv.writer(file, lineterminator="\n")
        writer.writerow(["job", "form", *(f"ns_{shift}" for shift in SHIFTS)])
        for row, forms in times.items():
            for form, best in forms.items():
                writer.writerow([row, form, *(f"{best[shift]:.4f}" for shift in SHIFTS)])
    draw_chart(times)
    page = TOP / "docs" / "SPEED.md"
    before, rest = page.read_text().split(BEGIN)
    page.write_text(before + BEGIN + "\n" + "\n".join(lines) + "\n" + END + rest.split(END)[1])


if __name__ == "__main__":
    main()
