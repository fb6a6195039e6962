"""A picture of a net: marks, lines with their weights, each mark's limit as a ring in scale, and a refused row in red. kodarfi.svg writes it."""

import textwrap
from typing import List, NamedTuple, Optional, Tuple, Union

from .calls import entry
from .labels import Placed, around, place, width_of
from .layout import Pair, Point, positions
from .names import Names
from .nets import Limits, Proposal, Refused, Rows

DOT, LARGEST_RING = 3.5, 30.0
TEXT, SMALL, LEADING = 13.0, 11.0, 15.0
LETTERS, LINES_OF_NAME = 22, 2
# A line's length in the picture: as short as leaves room for all marks' labels; a little longer where that makes room for weights.
SHORTEST, LONGEST_FOR_WEIGHTS, LONGEST, GROWTH = 80.0, 220.0, 700.0, 1.15


class Mark(NamedTuple):
    """A mark's label, line by line, its whole name, its limit where there is one, and whether its row is refused."""

    label: List[str]
    name: str
    limit: Optional[int]
    is_refused: bool


class Picture(NamedTuple):
    """What is drawn: a heading, the marks from 0, the joined pairs with their weights, the unit's name, and the words of a refusal."""

    heading: str
    marks: List[Mark]
    joined: List[Tuple[Pair, str]]
    unit: str
    refused: str


def joined_pairs(matrix: Rows) -> List[Tuple[Pair, str]]:
    """The pairs of marks that the equations join, with their weights, 0 being the fixed mark: minus the number that joins two marks, and what is left of a
    row's sum for the fixed one. Where a matrix is not symmetric a pair has both numbers."""
    n = len(matrix)
    found = [((0, i + 1), str(sum(row))) for i, row in enumerate(matrix) if sum(row)]
    for i in range(n):
        for j in range(i + 1, n):
            weights = list(dict.fromkeys((-matrix[i][j], -matrix[j][i])))
            if any(weights):
                found.append(((i + 1, j + 1), " / ".join(map(str, weights))))
    return found


def _label(mark: int, name: str) -> List[str]:
    lines = textwrap.wrap(f"{mark} {name}".strip(), LETTERS)
    return lines if len(lines) <= LINES_OF_NAME else [*lines[: LINES_OF_NAME - 1], lines[LINES_OF_NAME - 1][: LETTERS - 1] + "…"]


def picture(proposal: Proposal, named: Optional[Names], judged: Union[Limits, Refused]) -> Picture:
    """The picture of a proposal that has these limits, or is refused with 3, 5, 6 or 7."""
    n = proposal.net.n
    unit = named.unit if named else "units"
    names = named.marks if named else ["fixed mark"] + [""] * n
    marks = [Mark(_label(0, names[0]), f"0 {names[0]}", None, False)]
    red = judged.places[judged.number == 7] if isinstance(judged, Refused) else 0
    for mark in range(1, n + 1):
        label, limit = _label(mark, names[mark]), None
        if isinstance(judged, Limits):
            V, limit = entry(proposal.guess[mark - 1], judged.solution[mark - 1], proposal.s)
            label = [*label, f"{V} ± {limit}"]
        marks.append(Mark(label, f"{mark} {names[mark]}".strip(), limit, mark == red))
    heading = f"A net of {n} {'mark' if n == 1 else 'marks'} above the fixed mark{' ' + names[0] if named else ''}"
    return Picture(heading, marks, joined_pairs(proposal.net.filled_out().matrix), unit, str(judged) if isinstance(judged, Refused) else "")


class Drawing(NamedTuple):
    """A picture with its places: of marks, of their rings' radii, and of labels and weights."""

    picture: Picture
    points: List[Point]
    radii: List[float]
    placed: Placed


def _radii(marks: List[Mark]) -> List[float]:
    largest = max((mark.limit or 0 for mark in marks), default=0)
    return [LARGEST_RING * (mark.limit or 0) / largest if largest else 0.0 for mark in marks]


def arranged(one: Picture) -> Drawing:
    """The picture at the smallest of a few sizes that have room for what it says."""
    pairs = [pair for pair, _ in one.joined]
    unscaled = positions(len(one.marks), pairs)
    radii = _radii(one.marks)
    sizes = [(max(width_of(line, TEXT) for line in mark.label), LEADING * len(mark.label)) for mark in one.marks]
    weights = [(width_of(weight, SMALL) + 4, SMALL + 3) for _, weight in one.joined]
    length = SHORTEST
    while True:
        points = [(length * x, length * y) for x, y in unscaled]
        rings = [around(point, *[2 * max(radius, DOT) + 4] * 2) for point, radius in zip(points, radii)]
        placed = place(rings, sizes, [(points[i], points[j]) for i, j in pairs], weights)
        has_room = not placed.clashes and (None not in placed.weights or length > LONGEST_FOR_WEIGHTS)
        if has_room or length > LONGEST:
            return Drawing(one, points, radii, placed)
        length *= GROWTH
