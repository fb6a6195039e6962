"""Document 02, Paper 3: equations from the field lines, as the normal equations of a least-squares fit, in whole numbers; the matrix as a square or, since
Paper 10, as its lower half."""

from typing import NamedTuple

from calls.check.oracle import COLUMN, MATRIX
from calls.half.oracle import HALF, lower_half
from common.format import is_within
from common.net import flat
from common.rules import Refusal

MOST = 256
KEY, DIFFERENCE, WEIGHT = (1, 65535), (-65536, 65536), (1, 64)


class FieldLine(NamedTuple):
    key: int
    start: int
    to: int
    difference: int
    weight: int

    def contents(self):
        return self[1:]


class Lengths(NamedTuple):
    """The lengths that a call is given."""

    matrix: int = MATRIX
    right: int = COLUMN


FULL = Lengths()

# How a matrix is laid out, with the lengths that its lists have at least.
SQUARE, LOWER = "square", "lower"
LEAST = {SQUARE: FULL, LOWER: FULL._replace(matrix=HALF)}


class Build(NamedTuple):
    """What a build is handed."""

    n: int
    lines: tuple
    lengths: Lengths = FULL
    layout: str = SQUARE


class Equations(NamedTuple):
    """The numbers of the matrix that are written, n × n or n(n + 1)/2, row after row, and the n right sides."""

    matrix: list
    right: list


class Builder:
    def build(self, call):
        """The equations, or the refusal: "8 comes first, then 3 for n. [..] A list above 256 is 3, before any line." """
        number = self.refused_first(call)
        if number:
            return Refusal(number)
        kept = {}
        for line in call.lines:
            number = self.refused(call.n, kept, line)
            if number:
                return Refusal(number)
            self.keep(kept, line)
        equations = self.equations(call.n, list(kept.values()))
        return equations._replace(matrix=self.laid_out(call.layout, call.n, equations.matrix))

    def refused_first(self, call):
        """What is said before any line; 0 where nothing is."""
        if any(length < least for length, least in zip(call.lengths, self.least(call.layout))):
            return 8
        return 3 if not is_within("problem", [call.n]) or len(call.lines) > MOST else 0

    def refused_line(self, call):
        """The number, from 1, of the first line that is refused; 0 where none is, or where the call is refused before any line."""
        kept = {}
        for number, line in enumerate(() if self.refused_first(call) else call.lines, 1):
            if self.refused(call.n, kept, line):
                return number
            self.keep(kept, line)
        return 0

    def least(self, layout):
        """02, Paper 10: "8 for a list under 528", where the half is built."""
        return LEAST[layout]

    def laid_out(self, layout, n, matrix):
        """02, Paper 10: "The builder of Paper 3 gains the same form."."""
        return lower_half(n, matrix) if layout == LOWER else matrix

    def refused(self, n, kept, line):
        """ "For each line: 3 for ranges, then new 16, from equals to, then new 17, a key met before with other contents." """
        if not self.is_in_range(n, line):
            return 3
        if self.is_loop(line):
            return 16
        return 17 if line.key in kept and not self.is_same(kept[line.key], line) else 0

    def is_in_range(self, n, line):
        inside = lambda number, ends: ends[0] <= number <= ends[1]
        return inside(line.key, KEY) and all(0 <= mark <= n for mark in (line.start, line.to)) and inside(line.difference, DIFFERENCE) and inside(line.weight, WEIGHT)

    def is_loop(self, line):
        return line.start == line.to

    def is_same(self, line, other):
        """Of two lines with one key."""
        return line.contents() == other.contents()

    def keep(self, kept, line):
        """ "a key met again with equal contents counts once" """
        kept.setdefault(line.key, line)

    def design(self, n, line):
        """How much the heights count in the difference of a line, by mark: the fixed mark's is 0 and has no place."""
        return {mark: sign for mark, sign in ((line.to, 1), (line.start, -1)) if 1 <= mark <= n}

    def equations(self, n, lines):
        """For rows J of the design, weights W and differences d: JᵀWJ and JᵀWd."""
        matrix, right = [[0] * n for _ in range(n)], [0] * n
        for line in lines:
            row = self.design(n, line)
            for i, a in row.items():
                right[i - 1] += a * line.weight * line.difference
                for j, b in row.items():
                    matrix[i - 1][j - 1] += a * line.weight * b
        return Equations(flat(matrix), right)
