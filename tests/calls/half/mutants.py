"""Mutants of the check by half the matrix, by name. Each breaks one rule of 02's Paper 10."""

from functools import partial

from calls.check.oracle import Bounds, check
from calls.half.oracle import LEAST, HalfEntry, lower_half
from common.format import is_within
from common.rules import Refusal
from common.suite import mutant


entry = partial(mutant, HalfEntry)


def placed(place):
    """An entry that reads row i, column j of the lower half, both from 0, at this place of the list, and 0 where the list has none."""
    at = lambda half, k: half[k] if k < len(half) else 0
    return entry(rows=lambda self, n, half: [[at(half, place(n, i, j)) for j in range(i + 1)] for i in range(n)])


def filled(rule):
    """An entry that fills out with rule(rows, i, j)."""
    return entry(filled_out=lambda self, n, half: [rule(self.rows(n, half), i, j) for i in range(n) for j in range(n)])


def least(half):
    return entry(is_short=lambda self, lengths: any(length < enough for length, enough in zip(lengths, LEAST._replace(matrix=half))))


def answered(rule):
    """An entry whose answer is rule(problem, lengths, what is right)."""
    return entry(check=lambda self, problem, lengths=LEAST: rule(problem, lengths, HalfEntry().check(problem, lengths)))


def upper(n, i, j):
    """The place of row j, column i, i at least j, in rows of n, n − 1, .. 1 numbers."""
    return j * n - j * (j - 1) // 2 + i - j


def reads(count):
    """3 where one of the first count(n) numbers of the list is out of its range."""

    def rule(problem, lengths, right):
        is_open = not isinstance(right, Refusal) or right.number in (5, 6, 7)
        return Refusal(3) if is_open and not is_within("row", problem.matrix[: count(problem.n)]) else right

    return answered(rule)


def n_last(problem, lengths, right):
    """A list of 0 equations or above 32 is looked at: 5 for row 1."""
    return Refusal(5, (1,)) if right == Refusal(3) and not is_within("problem", [problem.n]) else right


def symmetric_inverse(self, problem):
    n = problem.n
    return check(problem._replace(inverse=self.filled_out(n, lower_half(n, problem.inverse))))


def symmetric_bounds(problem, lengths, right):
    """The limits of the inverse by their lower half."""
    if not isinstance(right, Bounds):
        return right
    rows = right.inverse
    return right._replace(inverse=[[rows[max(i, j)][min(i, j)] for j in range(problem.n)] for i in range(problem.n)])


MUTANTS = {
    "the upper half read": placed(upper),
    "stride 32": placed(lambda n, i, j: 32 * i + j),
    "stride n": placed(lambda n, i, j: n * i + j),
    "rows that begin one place later": placed(lambda n, i, j: i * (i + 1) // 2 + i + j),
    "the diagonal twice": filled(lambda rows, i, j: rows[max(i, j)][min(i, j)] * (2 if i == j else 1)),
    "only the lower triangle filled": filled(lambda rows, i, j: rows[i][j] if j <= i else 0),
    "the other half with another sign": filled(lambda rows, i, j: rows[i][j] if j <= i else -rows[j][i]),
    "row i for column i": filled(lambda rows, i, j: rows[i][min(i, j)]),
    "a half of 527 taken": least(527),
    "a half of 528 refused": least(529),
    "8 under 1,024": least(1024),
    "the other lists' lengths unseen": entry(is_short=lambda self, lengths: lengths.matrix < LEAST.matrix),
    "a number past n(n + 1)/2 read": reads(lambda n: n * (n + 1) // 2 + 1),
    "n × n numbers read": reads(lambda n: n * n),
    "all 528 numbers read": reads(lambda n: 528),
    "the half's ranges not tested": entry(square=lambda self, problem: check(problem._replace(matrix=[min(max(a, -(2**20)), 2**20) for a in problem.matrix]))),
    "n before the lengths": answered(lambda problem, lengths, right: right if is_within("problem", [problem.n]) else Refusal(3)),
    "n out of range looked at": answered(n_last),
    "the inverse by its lower half": entry(square=symmetric_inverse),
    "the inverse's limits by their lower half": answered(symmetric_bounds),
}
