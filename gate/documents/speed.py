"""Compares the summary and the times of jobs in docs/SPEED.md with those in bench/results/.

That each row of speed.csv has a use in the summary is a check; so is the summary, and so is each job.
"""

import sys

import markdown
from step import TOP, Step

sys.path.append(str(TOP / "bench"))
import jobs  # noqa: E402
import results  # noqa: E402


def try_all(step: Step) -> None:
    rows = results.read_csv(TOP / "bench" / "results" / "speed.csv")
    strays = "\n".join(f"    {it.set}, {it.name}" for it in rows if not results.use_of(it))
    step.count("a row of speed.csv has no use in bench/results.py", strays or None)
    page = TOP / "docs" / "SPEED.md"
    is_there = "\n{}\n".format("\n".join(results.summary(rows))) in page.read_text(encoding="utf-8")
    step.count("docs/SPEED.md has another summary than speed.csv", None if is_there else "    python3 bench/draw.py makes it")
    on_page = {cells[0]: [cells[1], *cells[3:7]] for _, cells in markdown.read(page).rows() if len(cells) == 11 and cells[0] != "job"}
    wanted = {row: cells for row, cells, _ in jobs.rows(jobs.read_csv())}
    for row in sorted(on_page.keys() | wanted.keys()):
        fault = None if on_page.get(row) == wanted.get(row) else f"    {on_page.get(row)} on the page, {wanted.get(row)} by jobs.csv"
        step.count(f"docs/SPEED.md: {row}", fault)
