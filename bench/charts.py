"""The chart of whole jobs, as SVG of 800 pixels on a white panel."""

import math
from xml.sax.saxutils import escape

WIDTH = 800
FONT = "font-family='-apple-system, Segoe UI, Helvetica, Arial, sans-serif'"
INK, SOFT, GRID = "#1f2328", "#59636e", "#d8dee4"
FASTER, EQUAL, SLOWER = "#0b7a75", "#7d8590", "#c2410c"
COLUMN, LABEL, PLOT = 386, 184, 150
LINE, HEAD = 13, 26
LEAST, MOST = 0.08, 13
TICKS = (0.1, 0.2, 0.5, 1, 2, 5, 10)


def text(x, y, words, size=10, fill=INK, anchor="start", weight="normal"):
    return f"<text x='{x:.1f}' y='{y:.1f}' font-size='{size}' fill='{fill}' text-anchor='{anchor}' font-weight='{weight}'>{escape(words)}</text>"


def line(x1, y1, x2, y2, stroke, width=1.0, dash=""):
    dash = f" stroke-dasharray='{dash}'" if dash else ""
    return f"<line x1='{x1:.1f}' y1='{y1:.1f}' x2='{x2:.1f}' y2='{y2:.1f}' stroke='{stroke}' stroke-width='{width}'{dash}/>"


def panel(height, title, parts):
    """Returns a white panel, which is readable on a dark page too."""
    return (
        f"<svg xmlns='http://www.w3.org/2000/svg' viewBox='0 0 {WIDTH} {height:.0f}' width='{WIDTH}' height='{height:.0f}' role='img' {FONT}>\n"
        f"<title>{escape(title)}</title>\n"
        f"<rect x='0.5' y='0.5' width='{WIDTH - 1}' height='{height - 1:.0f}' rx='8' fill='#ffffff' stroke='{GRID}'/>\n"
        + "\n".join(parts)
        + "\n</svg>\n"
    )


def colour(ratio):
    return FASTER if ratio < 0.95 else SLOWER if ratio > 1.05 else EQUAL


def place(ratio):
    """Returns the position of a ratio in a plot, by its logarithm."""
    ratio = min(max(ratio, LEAST), MOST)
    return PLOT * math.log(ratio / LEAST) / math.log(MOST / LEAST)


def draw_row(x, y, row):
    """Draws a row: its label, the ratios of its layouts as a thin line, their mean as a dot, and its number."""
    left, middle = x + LABEL, y - 3.5
    fill = colour(row.ratio)
    return [
        text(left - 6, y, row.name, 10, INK, "end"),
        line(left + place(1), middle, left + place(row.ratio), middle, fill, 1.6),
        line(left + place(row.low), middle, left + place(row.high), middle, fill, 4.5).replace("/>", " stroke-opacity='0.3'/>"),
        f"<circle cx='{left + place(row.ratio):.1f}' cy='{middle:.1f}' r='3.1' fill='{fill}'/>",
        text(x + COLUMN - 8, y, f"{row.ratio:.2f}", 10, fill, "end", "bold"),
    ]


def draw_set(x, y, title, rows):
    left = x + LABEL
    bottom = y + HEAD + LINE * len(rows) - 6
    parts = [text(x + COLUMN - 8, y + 12, title, 11, INK, "end", "bold")]
    for tick in TICKS:
        stroke, width = (INK, 1.1) if tick == 1 else (GRID, 0.8)
        parts.append(line(left + place(tick), y + HEAD - 8, left + place(tick), bottom, stroke, width))
    for k, row in enumerate(rows):
        parts += draw_row(x, y + HEAD + LINE * k + 3, row)
    return parts, bottom + 8


def draw_axis(x, y):
    parts = [text(x + LABEL + place(tick), y, f"{tick:g}", 9, SOFT, "middle") for tick in TICKS]
    return parts


def jobs(rows):
    """Returns the chart of whole jobs, each beside the fastest peer."""
    parts = [
        text(16, 26, "Whole jobs: time of the proved library, divided by that of the fastest peer", 15, INK, weight="bold"),
        text(16, 43, "Left of the line at 1 the proved library is faster. The band is the range of four layouts of the code.", 10.5, SOFT),
    ]
    half = (len(rows) + 1) // 2
    deepest = 0
    for x, members in ((10, rows[:half]), (10 + COLUMN + 6, rows[half:])):
        drawn, y = draw_set(x, 62, "", members)
        parts += draw_axis(x, 66) + drawn
        deepest = max(deepest, y)
    return panel(deepest + 6, "Whole jobs beside the fastest peer", parts)
