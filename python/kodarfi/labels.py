"""Where labels are drawn, so that none lies over another: each takes the best of a few places beside its mark or on its line."""

import unicodedata
from typing import Iterable, List, NamedTuple, Optional, Tuple

from .layout import Point

# Where a mark's label may lie: across and down, from the mark.
BESIDE = ((0, 1), (1, 0), (-1, 0), (0, -1), (1, 1), (-1, 1), (1, -1), (-1, -1))
# Where on its line a weight may stand, from one end to the other.
ALONG = (0.5, 0.42, 0.58, 0.34, 0.66, 0.27, 0.73)
CLASH, CROSSED = 100.0, 1.0


class Box(NamedTuple):
    left: float
    top: float
    right: float
    bottom: float

    def meets(self, other: "Box") -> bool:
        return self.left < other.right and other.left < self.right and self.top < other.bottom and other.top < self.bottom

    def wider(self, by: float) -> "Box":
        return Box(self.left - by, self.top - by, self.right + by, self.bottom + by)


Segment = Tuple[Point, Point]


def around(middle: Point, width: float, height: float) -> Box:
    return Box(middle[0] - width / 2, middle[1] - height / 2, middle[0] + width / 2, middle[1] + height / 2)


def width_of(text: str, size: float) -> float:
    """About as wide as a text is in a usual font, rather too wide."""
    wide = len([letter for letter in text if unicodedata.east_asian_width(letter) in "WF" or letter in "MWmw@%"])
    return size * (0.62 * (len(text) - wide) + 1.0 * wide)


def crosses(segment: Segment, box: Box) -> bool:
    """Whether a line passes through a box."""
    (x, y), (to_x, to_y) = segment
    if (x < box.left and to_x < box.left) or (x > box.right and to_x > box.right) or (y < box.top and to_y < box.top) or (y > box.bottom and to_y > box.bottom):
        return False
    enter, leave = 0.0, 1.0
    for step, low, high in ((to_x - x, box.left - x, box.right - x), (to_y - y, box.top - y, box.bottom - y)):
        if step == 0:
            if low > 0 or high < 0:
                return False
        else:
            ends = sorted((low / step, high / step))
            enter, leave = max(enter, ends[0]), min(leave, ends[1])
    return enter < leave


def _cost(box: Box, taken: List[Box], lines: List[Segment]) -> float:
    """Lines count only where nothing else is in the way."""
    clashes = len([one for one in taken if one.meets(box)])
    return CLASH * clashes if clashes else CROSSED * len([one for one in lines if crosses(one, box)])


def _best(boxes: Iterable[Box], taken: List[Box], lines: List[Segment]) -> Tuple[float, Box]:
    """The box with the least cost, the first of such."""
    costs = [(_cost(box, taken, lines), at, box) for at, box in enumerate(boxes)]
    cost, _, box = min(costs)
    return cost, box


class Placed(NamedTuple):
    """A box for each mark's label, one for each weight, None where there is no room, and how many labels of marks clash."""

    labels: List[Box]
    weights: List[Optional[Box]]
    clashes: int


def _beside(ring: Box, size: Point) -> List[Box]:
    """Boxes around a ring; those at its corners lie a little nearer, since it is round."""
    (width, height), radius = size, (ring.right - ring.left) / 2
    x, y = ring.left + radius, ring.top + radius
    near = lambda right, below: radius * (0.75 if right and below else 1.0) + 2
    return [around((x + right * (near(right, below) + width / 2), y + below * (near(right, below) + height / 2)), width, height) for right, below in BESIDE]


def place(rings: List[Box], sizes: List[Point], lines: List[Segment], weights: List[Point]) -> Placed:
    """Labels of the given sizes beside their marks, whose rings are boxes; then weights of the given sizes, one on each line."""
    labels, on_lines = [], []
    clashes = len([1 for i, one in enumerate(rings) for other in rings[:i] if one.meets(other)])
    for at, (ring, size) in enumerate(zip(rings, sizes)):
        cost, box = _best(_beside(ring, size), rings[:at] + rings[at + 1 :] + labels, lines)
        clashes += cost >= CLASH
        labels.append(box)
    taken = rings + labels
    for at, (((x, y), (to_x, to_y)), (width, height)) in enumerate(zip(lines, weights)):
        others = lines[:at] + lines[at + 1 :]
        cost, box = _best([around((x + t * (to_x - x), y + t * (to_y - y)), width, height) for t in ALONG], taken, others)
        on_lines.append(box if cost < CLASH else None)
        taken += [box] if cost < CLASH else []
    return Placed(labels, on_lines, clashes)
