"""What the calls take and give: nets, proposals, limits, and refusals."""

from dataclasses import dataclass, field
from operator import index
from typing import List, NamedTuple, Optional, Sequence, Tuple

from .words import WORDS

Rows = List[List[int]]


def _whole(name: str, numbers: Sequence[int], count: Optional[int] = None) -> List[int]:
    """A list of whole numbers; a float among them is a TypeError, another count than expected a ValueError."""
    listed = [index(number) for number in numbers]
    if count is not None and len(listed) != count:
        raise ValueError(f"{name} has {len(listed)} numbers, not {count}")
    return listed


def _rows(name: str, rows: Sequence[Sequence[int]], lengths: Sequence[int]) -> Rows:
    listed = [_whole(f"row {i} of {name}", row) for i, row in enumerate(rows, 1)]
    if [len(row) for row in listed] != list(lengths):
        raise ValueError(f"{name} has rows of {[len(row) for row in listed]} numbers, not {list(lengths)}")
    return listed


@dataclass(frozen=True)
class Net:
    """The equations of a net, A * x = b: n rows of n numbers, n right sides, and how far each right side may lie from the true one (0 where it is left
    out), all in whole units.

    A symmetric matrix may be given by its lower half, in rows of 1, 2, .. n numbers: for check_half, which takes no other, and from build_half."""

    matrix: Rows
    right: List[int]
    tolerance: List[int] = field(default_factory=list)

    def __post_init__(self) -> None:
        n = len(self.right)
        half = [len(row) for row in self.matrix] == list(range(1, n + 1))
        object.__setattr__(self, "matrix", _rows("matrix", self.matrix, range(1, n + 1) if half else [n] * n))
        object.__setattr__(self, "right", _whole("right", self.right))
        object.__setattr__(self, "tolerance", _whole("tolerance", self.tolerance, n) if self.tolerance else [0] * n)

    @property
    def n(self) -> int:
        """How many equations, and marks whose height is sought."""
        return len(self.right)

    def filled_out(self) -> "Net":
        """The net with its square matrix, where the lower half was given."""
        n, rows = self.n, self.matrix
        if [len(row) for row in rows] == [n] * n:
            return self
        return Net([[rows[max(i, j)][min(i, j)] for j in range(n)] for i in range(n)], self.right, self.tolerance)


@dataclass(frozen=True)
class Proposal:
    """A solver's proposal for a net: 2^s solution steps and 2^t inverse steps make one unit; the heights in solution steps, the inverse of the matrix in
    inverse steps, and a weight for each row, 1 where they are left out."""

    net: Net
    s: int
    t: int
    guess: List[int]
    inverse: Rows
    weights: List[int] = field(default_factory=list)

    def __post_init__(self) -> None:
        n = self.net.n
        object.__setattr__(self, "s", index(self.s))
        object.__setattr__(self, "t", index(self.t))
        object.__setattr__(self, "guess", _whole("guess", self.guess, n))
        object.__setattr__(self, "inverse", _rows("inverse", self.inverse, [n] * n))
        object.__setattr__(self, "weights", _whole("weights", self.weights, n) if self.weights else [1] * n)


@dataclass(frozen=True)
class Limits:
    """How far the exact heights can lie from the guess, in solution steps, and the exact inverse from the proposed one, in inverse steps."""

    solution: List[int]
    inverse: Rows


class FieldLine(NamedTuple):
    """A field line: its key, the marks that it leads from and to (0 is the fixed mark), the difference of height in whole units, its weight, and how far
    the reading may lie from the true difference, in whole units."""

    key: int
    start: int
    to: int
    difference: int
    weight: int
    limit: int = 0


class Entry(NamedTuple):
    """What goes into a register: a height in whole units, and how far the exact one can lie from it."""

    value: int
    limit: int


class Found(NamedTuple):
    """Weights that were found, and how many lists of weights were tried."""

    weights: List[int]
    tried: int


class Common(NamedTuple):
    """What two proposals together say: of each height the lower and the upper end, in steps of 2^s to a unit."""

    s: int
    intervals: List[Tuple[int, int]]


class Factor(NamedTuple):
    """How far limits can lie above true errors, at most: numerator / denominator, not reduced."""

    numerator: int
    denominator: int


class Refused(Exception):
    """What is refused: the papers' number and where.

    number   the papers' number
    places   two numbers: a row; column and row; a count; 0 where none is named
    line     the line of a file or of a list of field lines, from 1; 0 where none is named
    net      of two nets or proposals the one that it is of, 1 or 2; 0 where there is one, or where it is of neither
    what, expected, to_do   the plain words: what is wrong, what was expected, and what whoever wrote it may do
    note     more of what is wrong, where there is more to say"""

    def __init__(self, number: int, places: Sequence[int] = (0, 0), line: int = 0, net: int = 0, note: str = "") -> None:
        super().__init__(number, tuple(places), line, net, note)
        self.number, self.places, self.line, self.net, self.note = number, (places[0], places[1]), line, net, note
        self.what, self.expected, self.to_do = WORDS[number] if number in WORDS else ("", "", "")

    def where(self) -> str:
        """The place in words, empty where none is named."""
        words = [f"the {('first', 'second')[self.net - 1]} of the two"] if self.net else []
        words += [f"line {self.line}"] if self.line else []
        if self.number in (5, 6):
            words.append(f"row {self.places[0]}")
        if self.number == 7:
            words.append(f"column {self.places[0]}, row {self.places[1]}")
        if self.number == 13:
            words.append(f"{self.places[0]} missing")
        return ", ".join(words)

    def __str__(self) -> str:
        """One line: number, place and what is wrong."""
        return f"refused with {', '.join(filter(None, (str(self.number), self.where())))}: {'; '.join(filter(None, (self.what, self.note)))}"

    def text(self) -> str:
        """Three lines: what and where, what was expected, what to do."""
        return f"{self}\n  expected: {self.expected}\n  for whoever wrote it: {self.to_do}"

    def form(self) -> str:
        """The line that a listing has: (refused NUMBER (..))."""
        places = self.places if self.number == 7 else self.places[:1] if self.number == 13 else (self.line or self.places[0],)
        return f"(refused {self.number} ({' '.join(map(str, places))}))"


class Listing(NamedTuple):
    """A file's listing, byte for byte what ./register prints, and what is refused, None where the file is accepted."""

    text: bytes
    refused: Optional[Refused]
