"""examples/region and docs/LARGE-NETS.md: the page's commands with what they print, and a net of 90 marks in three parts beside exact solutions: the joint
one in Paper 8's sense, how far the tolerances can move it, and the whole net adjusted at once."""

import subprocess
import tempfile
from fractions import Fraction
from functools import lru_cache
from pathlib import Path

from package.commands import ROOT, acted, inverse_of, open_folder, product
from package.dependent_nets import limits_of

REGION = ROOT / "examples" / "region"
PAGE = ROOT / "docs" / "LARGE-NETS.md"
SUBURBS = ("east", "north")
N = 30


@lru_cache(maxsize=None)
def lines_of(name):
    """The lines of a field book: ends as (net, mark), the net being None for the fixed mark; difference, weight, reading limit."""

    def end(word):
        return ("main", int(word[5:])) if word.startswith("main:") else (name, int(word)) if word != "0" else (None, 0)

    cut = [line.split() for line in (REGION / f"{name}.txt").read_text().split("\n") if line and not line.startswith("#")]
    return [(end(start), end(to), *map(int, rest)) for _, start, to, *rest in cut]


def equations(books, marks):
    """Matrix, right sides and tolerances of these marks from the lines of some books: plain sums, line by line, over all marks of the region. An end that is no
    mark of the list has a column of its own after these."""
    known = [mark for mark in REGION_MARKS if mark not in marks]
    place = {mark: at for at, mark in enumerate([*marks, *known])}
    rows = [[0] * len(place) for _ in marks]
    right, tolerance = [0] * len(marks), [0] * len(marks)
    for start, to, difference, weight, limit in (line for name in books for line in lines_of(name)):
        for one, other, sign in ((to, start, 1), (start, to, -1)):
            if one in marks:
                row = place[one]
                rows[row][row] += weight
                if other[0]:
                    rows[row][place[other]] -= weight
                right[row] += sign * weight * difference
                tolerance[row] += weight * limit
    return [row[: len(marks)] for row in rows], [row[len(marks) :] for row in rows], right, tolerance


def marks_of(*names):
    return [(name, mark) for name in names for mark in range(1, N + 1)]


REGION_MARKS = marks_of("main", *SUBURBS)


def inverse(matrix):
    """In fractions."""
    q, H = inverse_of(tuple(map(tuple, matrix)))
    return [[Fraction(h, q) for h in row] for row in H]


def farthest(matrix, tolerance):
    """How far right sides within tolerances can move what a matrix makes of them."""
    return [sum(abs(h) * d for h, d in zip(row, tolerance)) for row in matrix]


@lru_cache(maxsize=None)
def joint():
    """Of every mark its exact height, the main net adjusted by itself and then each suburb above it, and how far the tolerances of both can move it."""
    A1, _, b1, d1 = equations(["main"], marks_of("main"))
    H1 = inverse(A1)
    u1 = product(H1, b1)
    found = dict(zip(marks_of("main"), zip(u1, farthest(H1, d1))))
    for name in SUBURBS:
        A2, beside, b2, d2 = equations([name], marks_of(name))
        C = [row[:N] for row in beside]
        H2 = inverse(A2)
        u2 = product(H2, [b - c for b, c in zip(b2, product(C, u1))])
        through = [product(list(zip(*H1)), row) for row in ([-value for value in product(list(zip(*C)), row)] for row in H2)]
        moved = [own + main for own, main in zip(farthest(H2, d2), farthest(through, d1))]
        found.update(zip(marks_of(name), zip(u2, moved)))
    return found


@lru_cache(maxsize=None)
def at_once():
    """Of every mark its exact height where all lines of the region are adjusted as one net."""
    matrix, _, right, _ = equations(["main", *SUBURBS], REGION_MARKS)
    return dict(zip(REGION_MARKS, solution(matrix, right)))


def solution(matrix, right):
    """A·x = b by elimination in fractions; the matrix has no zero on its diagonal, as those of connected nets."""
    rows = [[Fraction(a) for a in row] + [Fraction(b)] for row, b in zip(matrix, right)]
    for k, pivot in enumerate(rows):
        for row in rows[k + 1 :]:
            if row[k]:
                factor = row[k] / pivot[k]
                row[k:] = [a - factor * p for a, p in zip(row[k:], pivot[k:])]
    x = [Fraction(0)] * len(rows)
    for k in reversed(range(len(rows))):
        x[k] = (rows[k][-1] - sum(a * value for a, value in zip(rows[k][k + 1 : -1], x[k + 1 :]) if a)) / rows[k][k]
    return x


def printed(loaded):
    """Of every mark its entry and the limit; the main net's are the same with either suburb."""
    main = acted(loaded, "propose", acted(loaded, "build", (REGION / "main.txt").read_bytes()))
    found = {}
    for name in SUBURBS:
        text = acted(loaded, "dependent", main, (REGION / f"{name}.txt").read_bytes())
        both = limits_of(text)
        if len(both) != 2 or not text.startswith(acted(loaded, "check", main)):
            return {}
        for one, part in zip(both, ("main", name)):
            found.update((mark, (*entry, Fraction(X, 2**10))) for mark, entry, X in zip(marks_of(part), one.entries, one.guess))
    return found


def region_lies_within_its_limits(package):
    """All 90 marks: the exact joint solution moves within each limit, whatever right side within the tolerances is the true one; no limit is far above that;
    and the guess is the exact solution but for a few steps."""
    found = printed(package)
    room = [limit - abs(height - V) - moved for mark, (V, limit, _) in found.items() for height, moved in [joint()[mark]]]
    near = all(abs(joint()[mark][0] - guess) <= Fraction(4, 2**10) for mark, (_, _, guess) in found.items())
    return set(found) == set(REGION_MARKS) and len(found) == 90 and min(room) >= 0 and max(room) <= Fraction(12, 10) and near


SHOWN = [("main", 6), ("main", 22), ("main", 30), ("east", 1), ("east", 16), ("east", 30), ("north", 6), ("north", 12), ("north", 25)]


def table(loaded):
    """The rows of the page's table."""
    found = printed(loaded)
    for mark in SHOWN:
        (V, limit, _), (height, moved) = found[mark], joint()[mark]
        yield f"| {mark[0]} {mark[1]} | {V} | {limit} | {float(height):.2f} | {float(moved):.2f} | {float(at_once()[mark]):.2f} |"


def page_says_what_is_so(package):
    """Its table, its numbers, its field lines, and that all heights adjusted at once lie within the limits too."""
    page = PAGE.read_text(encoding="utf-8")
    rows = [line for line in page.split("\n") if line.startswith("| ") and not line.startswith("| mark")]
    moves = {mark: abs(at_once()[mark] - joint()[mark][0]) for mark in REGION_MARKS}
    most = lambda *names: max((moves[mark], mark) for mark in marks_of(*names))
    (main, main_mark), (other, other_mark) = most("main"), most(*SUBURBS)
    words = f"at most {float(main):.2f} (mark {main_mark[1]} of the main net) and the others by at most {float(other):.2f} "
    words += f"(mark {other_mark[1]} of the {other_mark[0]})"
    within = all(abs(at_once()[mark] - V) <= limit for mark, (V, limit, _) in printed(package).items())
    lines = [line.strip() for line in page.split("\n") if line.startswith("    200")]
    shown = len(lines) == 2 and set(lines) <= set((REGION / "east.txt").read_text().split("\n"))
    return rows == list(table(package)) and words in page and within and shown


def commands_in(page):
    """The page's commands, each with what it prints."""
    found = []
    for line in page.split("\n"):
        if line.startswith("    $ "):
            found.append((line[6:], []))
        elif line.startswith("    ") and found:
            found[-1][1].append(line[4:] + "\n")
        elif line.strip():
            found += [("", [])] if found and found[-1][0] else []
    return [(command, "".join(lines)) for command, lines in found if command]


def page_prints_what_it_says(package):
    """Its commands, one after the other, in a folder that has the examples."""
    with tempfile.TemporaryDirectory(dir=open_folder()) as folder:
        (Path(folder) / "target").mkdir()
        (Path(folder) / "examples").symlink_to(ROOT / "examples")
        reported = commands_in(PAGE.read_text(encoding="utf-8"))
        settings = {"cwd": folder, "env": package.environment(), "stdout": subprocess.PIPE, "stderr": subprocess.STDOUT, "text": True}
        said = [subprocess.run(["bash", "-c", command], **settings).stdout for command, _ in reported]
        return len(reported) == 7 and said == [lines for _, lines in reported]
