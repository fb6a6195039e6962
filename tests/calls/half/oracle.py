"""Document 02, Paper 10: half the matrix, filled out, and the check of it."""

from itertools import islice

from calls.check.oracle import FULL, check
from common.format import is_within
from common.rules import Refusal

# "in a list of at least 528"
HALF = 528
LEAST = FULL._replace(matrix=HALF)


class HalfEntry:
    """A second entry: its problems have the half in place of the matrix."""

    def check(self, problem, lengths=LEAST):
        """02: "its outcome for every input equals that of the square entry on the filled-out matrix [..] (8 for a list under 528.)" """
        if self.is_short(lengths):
            return Refusal(8)
        if not is_within("problem", [problem.n]):
            return Refusal(3)
        return self.square(problem._replace(matrix=self.filled_out(problem.n, problem.matrix)))

    def is_short(self, lengths):
        return any(length < least for length, least in zip(lengths, LEAST))

    def square(self, problem):
        return check(problem)

    def rows(self, n, half):
        """02: "rows of 1, 2, .. n numbers"."""
        rest = iter(half)
        return [list(islice(rest, length)) for length in range(1, n + 1)]

    def filled_out(self, n, half):
        """The n × n numbers, row after row: each above the diagonal is the one below it, across the diagonal."""
        rows = self.rows(n, half)
        return [rows[max(i, j)][min(i, j)] for i in range(n) for j in range(n)]


def lower_half(n, matrix):
    """The numbers of a square list on the diagonal and below it, row after row."""
    return [number for i in range(n) for number in matrix[i * n : i * n + i + 1]]
