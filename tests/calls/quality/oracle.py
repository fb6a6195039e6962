"""The factor of a proposal's limits: how far a limit can lie above a true error, in whole numbers."""

from typing import NamedTuple

from calls.check.oracle import Problem, Reckoning
from calls.weights.oracle import FULL, Lengths
from common.format import is_within
from common.rules import Refusal


class Inquiry(NamedTuple):
    """What a call is handed: the matrices row after row in lists of at least n × n numbers, at least n weights, and what it is given as lengths of its lists."""

    n: int
    t: int
    matrix: list
    inverse: list
    weights: list
    lengths: Lengths = FULL


class Factor(NamedTuple):
    """T·w + load and the margin of the lowest row where their quotient is largest."""

    numerator: int
    denominator: int


class Quality:
    reckoning = Reckoning

    def rate(self, inquiry):
        """The factor, or the refusal: 8, 3, 5."""
        if self.is_short(inquiry):
            return Refusal(8)
        if not self.is_in_range(inquiry):
            return Refusal(3)
        rows = self.rows(inquiry)
        failing = self.reckoning().failing_margin([margin for _, margin in rows])
        return Refusal(5, failing) if failing is not None else self.chosen(rows)

    def is_short(self, inquiry):
        return any(length < least for length, least in zip(inquiry.lengths, FULL))

    def is_in_range(self, inquiry):
        n, t, matrix, inverse, weights, _ = inquiry
        if not (is_within("problem", [n]) and is_within("scale", [t])):
            return False
        return is_within("row", matrix[: n * n]) and is_within("inverse", inverse[: n * n]) and is_within("weight", weights[:n])

    def rows(self, inquiry):
        """T·w_m + load_m and margin_m of every row m."""
        n = inquiry.n
        problem = Problem(n, 0, inquiry.t, inquiry.matrix, [0] * n, [0] * n, [0] * n, inquiry.inverse, inquiry.weights)
        system = self.reckoning().system(problem)
        return [Factor(2 * system.T * w - margin, margin) for w, margin in zip(system.w, self.reckoning().margins(system))]

    def chosen(self, rows):
        """The lowest row where the quotient is largest, by products."""
        best = rows[0]
        for row in rows[1:]:
            if best.numerator * row.denominator < row.numerator * best.denominator:
                best = row
        return best
