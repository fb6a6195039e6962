"""The command draw: a picture beside the field lines and the listing, what lies where, and what is refused."""

import random
import re
import xml.etree.ElementTree as Tree

from package.commands import ROOT, Program, acted, command, entries_in, problems
from package.sheets import files, names_text

REGION = ROOT / "examples" / "region"
NAMES = (REGION / "names.txt").read_bytes()
SVG = "{http://www.w3.org/2000/svg}"


class Drawn:
    """A picture's elements by their kind."""

    def __init__(self, picture):
        self.root = Tree.fromstring(picture)
        self.of = lambda tag, kind: [one for one in self.root.iter(SVG + tag) if kind in one.get("class", "").split()]
        self.place = lambda one: (float(one.get("cx")), float(one.get("cy")))

    def title(self, one):
        return one.find(SVG + "title").text


def pictures_show_the_net(package):
    """A mark each at a place of its own, a line for each joined pair with its weight, both from the field lines, and rings in proportion to the limits."""
    for file, marks, unit, lines in files(package):
        entries = entries_in(Program().listing(file))
        for named in (None, names_text(unit, marks)):
            drawn = Drawn(acted(package, "draw", *filter(None, (file, named))))
            label = lambda mark: f"{mark} {(marks[mark] if named else '' if mark else 'fixed mark')}".strip()
            pairs = {}
            for line in {line.key: line for line, _ in lines}.values():
                pair = tuple(sorted((line.start, line.to)))
                pairs[pair] = pairs.get(pair, 0) + line.weight
            weights = sorted(f"weight {weight}, {label(i)} to {label(j)}" for (i, j), weight in pairs.items())
            dots = drawn.of("circle", "dot")[: len(entries)]
            rings = {drawn.place(one): float(one.get("r")) for one in drawn.of("circle", "ring")}
            largest = max(limit for _, limit in entries)
            radius = lambda limit: 30 * limit / largest if largest else 0
            scaled = all(abs(rings.get(drawn.place(dot), 0.0) - radius(limit)) < 0.06 for dot, (_, limit) in zip(dots, entries))
            if sorted(map(drawn.title, drawn.of("line", "line"))) != weights or list(map(drawn.title, dots)) != list(map(label, range(1, len(marks)))):
                return False
            places = {drawn.place(dot) for dot in dots}
            ends = {(float(one.get(f"x{k}")), float(one.get(f"y{k}"))) for one in drawn.of("line", "line") for k in (1, 2)}
            words = [one.text for one in drawn.of("text", "label")]
            if not scaled or len(places) != len(entries) or not places <= ends or len(drawn.of("polygon", "dot")) != 1:
                return False
            legend = f"a limit of {largest} {unit if named else 'units'}, the largest" in Tree.tostring(drawn.root, "unicode", "text")
            if drawn.of("line", "refused") or legend != (largest > 0) or any(f"{V} ± {limit}" not in words for V, limit in entries):
                return False
    return True


def shapes():
    """Nets of 3 to 32 marks as pairs of marks: chains, rings, stars, grids and meshes."""
    for n in (3, 12, 32):
        rng = random.Random(n)
        yield n, [(i, i + 1) for i in range(n)] + [(0, n)]
        yield n, [(0, i) for i in range(1, n + 1)]
        yield n, [(i, j) for i in range(n + 1) for j in (i + 1, i + 6) if j <= n and (j != i + 1 or j % 6)]
        yield n, sorted({tuple(sorted(rng.sample(range(n + 1), 2))) for _ in range(n)} | {(max(0, i - rng.randint(1, 4)), i) for i in range(1, n + 1)})


def nothing_lies_over_another(package):
    """No label or weight over another or over a mark, with long names too; every label is there, and lies beside its mark; and no line passes through a mark
    that is not its own, but in the fullest net."""
    draw = __import__("kodarfi.draw", fromlist=["arranged"])
    for n, pairs in shapes():
        rng = random.Random(n)
        label = lambda mark: [f"{mark} Große Röder, Nordpf", "links der Straße", "12345 ± 67"][mark % 2 :]
        marks = [draw.Mark(label(mark), "", rng.randint(1, 60), False) for mark in range(n + 1)]
        drawing = draw.arranged(draw.Picture("", marks, [(pair, str(rng.randint(1, 64))) for pair in pairs], "mm", ""))
        boxes = [*drawing.placed.labels, *(box for box in drawing.placed.weights if box)]
        clash = any(apart(one, other) is False for at, one in enumerate(boxes) for other in boxes[:at])
        over = any(box.left < x < box.right and box.top < y < box.bottom for box in boxes for x, y in drawing.points)
        placed = list(zip(marks, drawing.placed.labels, drawing.points))
        narrow = any(box.right - box.left < 6.5 * max(map(len, mark.label)) or box.bottom - box.top < 14 * len(mark.label) for mark, box, _ in placed)
        far = any(not (box.left - 45 < x < box.right + 45 and box.top - 45 < y < box.bottom + 45) for _, box, (x, y) in placed)
        near = any(passes(drawing.points[mark], drawing.points[i], drawing.points[j]) for mark in range(n + 1) for i, j in pairs if mark not in (i, j))
        if drawing.placed.clashes or clash or over or narrow or far or drawing.placed.weights.count(None) > len(pairs) // 8 or (near and len(pairs) < 60):
            return False
    return True


def passes(mark, start, end):
    """Whether a line between two marks passes within 8 of a third."""
    (x, y), (a, b), (c, d) = mark, start, end
    at = max(0, min(1, ((x - a) * (c - a) + (y - b) * (d - b)) / ((c - a) ** 2 + (d - b) ** 2)))
    return (x - a - at * (c - a)) ** 2 + (y - b - at * (d - b)) ** 2 < 64


def apart(one, other):
    return one.right <= other.left or other.right <= one.left or one.bottom <= other.top or other.bottom <= one.top


def a_refused_row_is_red(package):
    """The picture of a file that is refused with 5, 6 or 7 has the row's mark and lines in red and says why; its status is 1. Any equations can be drawn."""
    met = set()
    for file, problem in problems():
        listing = Program().listing(file)
        answer = pictured(package, file)
        drawn = Drawn(answer[0])
        refused = re.match(rb"\(refused (\d) \((\d+)(?: (\d+))?\)\)", listing)
        met.add(int(refused.group(1)) if refused else 0)
        red = [drawn.title(one) for one in drawn.of("circle", "refused")]
        row = int(refused.group(3) or refused.group(2)) if refused else 0
        at_row = {title for title in map(drawn.title, drawn.of("line", "line")) if row and re.search(rf", {row} to | to {row}$", title)}
        if red != ([str(row)] if row else []) or set(map(drawn.title, drawn.of("line", "refused"))) != at_row or (answer[1] is None) != (refused is None):
            return False
        words = " ".join(one.text for one in drawn.of("text", "refused"))
        if refused and (drawn.of("circle", "ring") or f"refused with {refused.group(1).decode()}, " not in words):
            return False
    poor = ROOT / "examples" / "refused" / "6-poor-guess.txt"
    status, out, err = command(package, "draw", poor)
    broken = command(package, "draw", ROOT / "examples" / "refused" / "15-no-end.txt")
    reported = status == 1 and out.startswith(b"<svg ") and err.count(b"\n") == 1 and f"draw: {poor}: refused with 6, row ".encode() in err
    return met >= {0, 5, 6} and reported and broken[:2] == (1, b"(refused 15 (0))\n") and broken[2].count(b"\n") == 1


def pictured(package, file):
    """The picture, and what is refused."""
    commands = __import__("kodarfi.commands", fromlist=["COMMANDS"])
    try:
        return commands.COMMANDS["draw"].act(commands.Given([file])), None
    except commands.Pictured as one:
        return one.picture, one.refused


def pictures_are_always_the_same(package):
    """In every process, whatever order Python keeps sets in; for light and dark screens and for paper."""
    region = acted(package, "propose", acted(package, "build", (REGION / "main.txt").read_bytes()))
    here = acted(package, "draw", region, NAMES)
    settings = [{"input": region, "env": package.environment(PYTHONHASHSEED=seed)} for seed in ("1", "2")]
    again = [command(package, "draw", "-", REGION / "names.txt", **options) for options in settings]
    return again == [(0, here, b"")] * 2 and all(word in here for word in (b"prefers-color-scheme: dark", b"@media print"))
