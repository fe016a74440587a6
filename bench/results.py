"""The output of the programs of bench/beside_rust.sh as rows: a row has the times of both sides in four layouts."""

import csv
import fnmatch
import os

SHIFTS = (0, 16, 32, 48)

# Each set's title, in the order of the table and of the chart.
TITLES = {
    "numbers": "Numbers read at a cursor (gread_with)",
    "cread": "Numbers read where there is room (cread_with)",
    "floats": "Floats",
    "writes": "Numbers written at a cursor (gwrite_with)",
    "texts": "Texts (&str)",
    "c_strings": "C strings (CStr)",
    "slices": "Byte slices and arrays",
    "leb_reads": "LEB128 read (gread)",
    "leb_writes": "LEB128 written (gwrite)",
    "own": "Functions of one's own that aren't inlined",
    "errors": "Error handling, and refused reads",
    "offsets": "Numbers at the offsets of a table (pread_with, pwrite_with)",
    "streams": "Numbers from readers and into writers (ioread_with, iowrite_with)",
    "owned": "C strings that own their memory (CString)",
    "calls": "Numbers read into a vector, and appended to one (read_many, append)",
    "files": "An object file with DWARF",
}


# The rows of the summary in docs/SPEED.md: a use, and the sets of its rows with the names of these. The first use that fits a row
# has it.
USES = (
    ("a header of five fields", "numbers:header of five *", "writes:header of five *"),
    ("a table of numbers, little-endian", "numbers:* LE", "cread:* LE", "writes:* LE"),
    ("a table of numbers, big-endian", "numbers:* BE", "cread:* BE", "writes:* BE"),
    ("floats that are compared or added up", "floats:*"),
    ("strings with other letters than ASCII", "texts:*ASCII*", "texts:Chinese *"),
    ("strings in ASCII", "texts:*"),
    ("C strings, borrowed or owned", "c_strings:*", "owned:*"),
    ("byte slices and arrays", "slices:*"),
    ("LEB128 as files have it", "leb_*:* real mix", "files:.debug*"),
    ("LEB128 of one length", "leb_*:*"),
    ("tables of abbreviations and of sections, in a loop", "files:*"),
    ("functions of one's own that aren't inlined", "own:*"),
    ("error handling, and refused reads", "errors:*"),
    ("offsets in a table", "offsets:*"),
    ("readers and writers", "streams:*"),
    ("numbers read into a vector, and appended to one", "calls:*"),
)


def mean(numbers):
    numbers = list(numbers)
    return sum(numbers) / len(numbers)


class Row:
    """One row: for each side the best time of its forms in each layout, in nanoseconds per step."""

    def __init__(self, name_of_set, name, times):
        self.set, self.name = name_of_set, name
        self.ours = [min(times["ours"][form][shift] for form in times["ours"]) for shift in SHIFTS]
        self.rust = [min(times["rust"][form][shift] for form in times["rust"]) for shift in SHIFTS]
        self.rust_form = min(times["rust"], key=lambda form: mean(times["rust"][form].values()))
        self.ours_ns, self.rust_ns = mean(self.ours), mean(self.rust)
        self.ratio = self.ours_ns / self.rust_ns
        ratios = [a / b for a, b in zip(self.ours, self.rust)]
        self.low, self.high = min(ratios), max(ratios)
        self.before = None
        self.reason = ""


def read_raw(path):
    """Returns the rows of a file with lines `shift,set,row,side,form,count,nanoseconds`; the least time of each loop counts."""
    times = {}
    with open(path, newline="") as file:
        for shift, name_of_set, name, side, form, _count, nanoseconds in csv.reader(file):
            forms = times.setdefault((name_of_set, name), {"ours": {}, "rust": {}})[side]
            best = forms.setdefault(form, {})
            best[int(shift)] = min(float(nanoseconds), best.get(int(shift), float("inf")))
    return [Row(name_of_set, name, forms) for (name_of_set, name), forms in times.items()]


def read_csv(path):
    """Returns the rows of speed.csv."""
    rows = []
    with open(path, newline="") as file:
        for line in csv.DictReader(file):
            times = {side: {"best": {shift: float(line[f"{side}_{shift}"]) for shift in SHIFTS}} for side in ("ours", "rust")}
            row = Row(line["set"], line["row"], times)
            row.before = float(line["ratio_before"]) if line["ratio_before"] else None
            rows.append(row)
    return rows


def use_of(row):
    """Returns the use in the summary that a row belongs to; None if it belongs to none."""
    for use, *patterns in USES:
        for name_of_set, pattern in (it.split(":", 1) for it in patterns):
            if fnmatch.fnmatchcase(row.set, name_of_set) and fnmatch.fnmatchcase(row.name, pattern):
                return use
    return None


def summary(rows):
    """Returns the summary in Markdown: for each use its rows, the middle one of their ratios, and the least and the greatest."""
    lines = ["| use | rows | time beside Rust's | least | greatest |", "|---|--:|--:|--:|--:|"]
    for use, *_ in USES:
        ratios = sorted(row.ratio for row in rows if use_of(row) == use)
        if ratios:
            lines.append(f"| {use} | {len(ratios)} | {ratios[len(ratios) // 2]:.2f} | {ratios[0]:.2f} | {ratios[-1]:.2f} |")
    return lines


COLUMNS = (
    ["set", "row", "rust_form"]
    + [f"ours_{shift}" for shift in SHIFTS]
    + [f"rust_{shift}" for shift in SHIFTS]
    + ["ours_ns", "rust_ns", "ratio", "ratio_low", "ratio_high", "ratio_before"]
)


def write_csv(path, rows):
    with open(path, "w", newline="") as file:
        writer = csv.writer(file, lineterminator="\n")
        writer.writerow(COLUMNS)
        for row in rows:
            numbers = row.ours + row.rust + [row.ours_ns, row.rust_ns]
            ratios = [row.ratio, row.low, row.high] + ([row.before] if row.before else [])
            line = [row.set, row.name, row.rust_form] + [f"{x:.4f}" for x in numbers] + [f"{x:.3f}" for x in ratios]
            writer.writerow(line + [""] * (len(COLUMNS) - len(line)))


def take_ratios_before(path, rows):
    """Takes each row's ratio in the previous run, if its table exists."""
    if not os.path.exists(path):
        return
    with open(path, newline="") as file:
        before = {(line["set"], line["row"]): float(line["ratio"]) for line in csv.DictReader(file)}
    for row in rows:
        row.before = before.get((row.set, row.name))


def steady(rows):
    """Returns how many rows have a previous ratio, and how many of these differ from it by less than a tenth."""
    both = [row for row in rows if row.before]
    return len(both), sum(abs(row.ratio / row.before - 1) < 0.1 for row in both)


def take_reasons(path, rows):
    """Gives each row that is over 1.00 the mark of its reason: the first line `MARK SET ROW..` that fits it.

    A row of at most 1.05 that no line fits is marked `=`: as fast, as far as such a measurement shows.
    """
    reasons = []
    with open(path) as file:
        for line in file:
            line = line.split("#")[0].strip()
            if line:
                reasons.append(line.split(None, 2))
    for row in rows:
        if row.ratio < 1.005:
            continue
        for mark, name_of_set, pattern in reasons:
            if row.set == name_of_set and fnmatch.fnmatchcase(row.name.replace("[", "(").replace("]", ")"), pattern):
                row.reason = mark
                break
        else:
            row.reason = "=" if row.ratio <= 1.05 else "?"
