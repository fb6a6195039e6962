"""Draws the time of the check in C and in Arb beside that of the proved check, against n, from the table that bench/table.py prints.

  python3 bench/plot.py FILE    FILE has the table, as bench/README.md has it; the picture (SVG) goes to standard output

A point is 1 over the table's ratio. bench/run writes bench/speed.svg by it, and the gate compares that with the table of bench/README.md (docs/pictures/run.py)."""

import math
import os
import sys
from pathlib import Path

sys.path.insert(0, str(Path(__file__).resolve().parent.parent / "docs" / "pictures"))
from svg import FAINT, RULE, Fault, Page  # noqa: E402

WHAT = "check, office"
# Whose time, its name in the picture and its colour.
CURVES = {
    "Arb's arb_mat_solve_preapprox": ("Arb", "#8a4fa0"),
    "naive in C": ("naive C", "#b3402a"),
    "quick in C": ("quick C", "#d08a3c"),
    "sparse in C": ("sparse C", "#6a9a5b"),
}
PROVED = ("proved", "#2f5f9e")
MARKS = (0.5, 1, 2, 5, 10, 20, 50)
WIDTH, HEIGHT, LEFT, RIGHT, TOP, BOTTOM = 640, 380, 56, 520, 60, 320


def cells_of(line):
    return [cell.strip() for cell in line.strip().strip("|").split("|")]


def ratios_of(text):
    """The sizes, and for each curve the time as a multiple of the proved check's, by size."""
    rows = [cells_of(line) for line in text.splitlines() if line.startswith("|")]
    heads = [row for row in rows if row[0] == "Time of"]
    if len(heads) != 1:
        raise Fault("there is not one table whose head begins with 'Time of'")
    try:
        sizes = [int(cell.removeprefix("n = ")) for cell in heads[0][2:]]
        found = {row[1]: [1 / float(cell) for cell in row[2:]] for row in rows if row[0] == WHAT and row[1] in CURVES and row[2] != "not installed"}
    except (ValueError, ZeroDivisionError) as error:
        raise Fault(f"a number of the table cannot be read: {error}") from None
    if not found or any(len(times) != len(sizes) for times in found.values()):
        raise Fault(f"the table has no whole row of '{WHAT}' beside C or Arb")
    return sizes, found


def draw(text):
    sizes, found = ratios_of(text)
    low, high = (math.log(MARKS[0]), math.log(MARKS[-1]))

    def x_of(size):
        return LEFT + 30 + (RIGHT - LEFT - 60) * math.log(size / sizes[0]) / math.log(sizes[-1] / sizes[0])

    def y_of(times):
        return BOTTOM - (BOTTOM - TOP) * (math.log(times) - low) / (high - low)

    page = Page("Time of a check, as a multiple of the proved check's", WIDTH, HEIGHT)
    for mark in MARKS:
        page.line(LEFT, y_of(mark), RIGHT, y_of(mark))
        page.words(LEFT - 8, y_of(mark) + 4, str(mark), size=11, anchor="end")
    for size in sizes:
        page.line(x_of(size), TOP, x_of(size), BOTTOM, RULE)
        page.words(x_of(size), BOTTOM + 18, f"n = {size}", anchor="middle")
    curves = [(CURVES[to], times) for to, times in found.items()] + [(PROVED, [1] * len(sizes))]
    for (name, colour), times in curves:
        points = [(x_of(size), y_of(value)) for size, value in zip(sizes, times)]
        if not all(TOP <= y <= BOTTOM for _, y in points):
            raise Fault(f"{name} is outside {MARKS[0]} to {MARKS[-1]} times the proved check")
        page.add("polyline", points=" ".join(f"{x:.1f},{y:.1f}" for x, y in points), fill="none", stroke=colour, stroke_width=2)
        for x, y in points:
            page.add("circle", cx=x, cy=y, r=3.5, fill=colour)
        last = f"{times[-1]:.0f}" if times[-1] >= 10 else f"{times[-1]:.1f}".removesuffix(".0")
        page.words(points[-1][0] + 40, points[-1][1] + 4, f"{name}, {last}", fill=colour, weight="600")
    page.words(16, HEIGHT - 14, "Office nets; both scales are logarithmic. Higher is slower. bench/README.md has the table.", size=11, fill=FAINT)
    return page.text()


def put(text):
    data = text.encode()
    while data:
        data = data[os.write(1, data) :]


def main():
    if len(sys.argv) != 2:
        print("bench: usage: python3 bench/plot.py FILE", file=sys.stderr)
        return 2
    try:
        put(draw(Path(sys.argv[1]).read_text(encoding="utf-8")))
    except (OSError, Fault, UnicodeDecodeError) as error:
        print(f"bench: no picture: {error}", file=sys.stderr)
        return 2
    return 0


if __name__ == "__main__":
    sys.exit(main())
