"""Document 01, "The reckoning", with the slacks of document 02, Paper 5, and the row sums of its Paper 9: margins, residuals and the bounds of a column (01:
limits), in whole numbers, which are exact in Python whatever their size; and the check on lists: "Order for a check: 8, .. 3, 5, 6, 7. A check on lists tests
all ranges itself." """

from math import inf
from operator import mul
from typing import NamedTuple

from common.format import is_within
from common.rules import IN_FORCE, Refusal

MATRIX, COLUMN = 1024, 32
LARGEST_RESIDUAL = 2**25

# The lists handed in, in the order of the call, by the kind of their numbers.
KINDS = ("row", "right", "tolerance", "guess", "inverse", "weight")


class Problem(NamedTuple):
    """n, s, t and the six lists, the matrices row after row in lists of at least n × n numbers."""

    n: int
    s: int
    t: int
    matrix: list
    right: list
    tolerance: list
    guess: list
    inverse: list
    weights: list


class Bounds(NamedTuple):
    """The limits of the guess, and those of the inverse as rows."""

    solution: list
    inverse: list


class System(NamedTuple):
    """A problem with S, T and the lists cut to their n × n or n numbers."""

    n: int
    S: int
    T: int
    A: list
    b: list
    d: list
    X: list
    G: list
    w: list


def dot(left, right):
    return sum(map(mul, left, right))


def rounded_up(p, q):
    """p / q rounded up to a whole number: a quotient of whole numbers is rounded down."""
    return -(-p // q)


def times(matrix, vector):
    return [dot(row, vector) for row in matrix]


def transposed(matrix):
    return [list(column) for column in zip(*matrix)]


class Reckoning:
    # "Order for a check: .. 5, 6, 7."
    ORDER = (5, 6, 7)

    def __init__(self, rules=IN_FORCE):
        self.rules = rules

    def check(self, problem):
        """The bounds of an accepted problem, or the refusal of another."""
        system = self.system(problem)
        margins = self.margins(system)
        residuals, slacks = self.guess_residual(system), self.slacks(system)
        columns = [self.inverse_residual(system, j) for j in range(system.n)]
        failing = {
            5: self.failing_margin(margins),
            6: self.failing_row(residuals, slacks, self.guess_sums(system)),
            7: self.failing_column(system, columns),
        }
        for number in self.ORDER:
            if failing[number] is not None:
                return Refusal(number, failing[number])
        solution = self.bounds(system, residuals, slacks, margins)
        return Bounds(solution, transposed(self.bounds_of_columns(system, columns, margins)))

    def system(self, problem):
        n = problem.n
        return System(
            n,
            2**problem.s,
            2**problem.t,
            self.rows(problem.matrix, n),
            problem.right[:n],
            problem.tolerance[:n],
            problem.guess[:n],
            self.rows(problem.inverse, n),
            problem.weights[:n],
        )

    def rows(self, numbers, n):
        """01: The first n × n are used, row after row."""
        return [numbers[i * n : i * n + n] for i in range(n)]

    def defect(self, system):
        """D = T·I − G·A."""
        columns = transposed(system.A)
        return [
            [system.T * (m == j) - dot(row, column) for j, column in enumerate(columns)]
            for m, row in enumerate(system.G)
        ]

    def margins(self, system):
        """g_m = T·w_m − (sum over j of |D_mj|·w_j)."""
        return [
            system.T * system.w[m] - dot(map(abs, row), system.w)
            for m, row in enumerate(self.defect(system))
        ]

    def is_margin_good(self, margin):
        """01: Every margin must be above 0."""
        return margin > 0

    def failing_margin(self, margins):
        """5 "gives the lowest such row"."""
        for m, margin in enumerate(margins):
            if not self.is_margin_good(margin):
                return (m + 1,)
        return None

    def guess_residual(self, system):
        """r = S·b − A·X."""
        return [system.S * b - ax for b, ax in zip(system.b, times(system.A, system.X))]

    def slacks(self, system):
        """02, Paper 5: "The residual of row m now comes with a slack S·d_m"."""
        return [system.S * d for d in system.d]

    def column_slacks(self, system):
        """02, Paper 5: "Inverse columns have no slack."."""
        return [0] * system.n

    def inverse_residual(self, system, j):
        """01: the same with column j of G as guess, T for S, and unit column j as right side."""
        column = [row[j] for row in system.G]
        return [system.T * (k == j) - ag for k, ag in enumerate(times(system.A, column))]

    def row_sums(self, system):
        """02, Paper 9: "the sum of |a| along that row"; before it nothing was asked of a row by itself."""
        return [sum(map(abs, row)) for row in system.A] if self.rules.residuals_within_row_sums else [inf] * system.n

    def guess_sums(self, system):
        """What the residuals of the guess are held to, row by row; 02, Paper 9: "for the guess and for inverse columns"."""
        return self.row_sums(system)

    def column_sums(self, system):
        """The same of the inverse's columns."""
        return self.row_sums(system)

    def is_small(self, residual, slack):
        """01: each size at most 2^25. 02, Paper 5: "6 is now given where size of residual plus slack is above 2^25"."""
        return abs(residual) + slack <= LARGEST_RESIDUAL

    def is_within_row(self, residual, slack, row_sum):
        """02, Paper 9: "the residual of row m, without slack, may be at most the sum of |a| along that row"."""
        return abs(residual) <= row_sum

    def is_residual_good(self, residual, slack, row_sum):
        """02, Paper 9: "The 2^25 test with slack also stays."."""
        return self.is_small(residual, slack) and self.is_within_row(residual, slack, row_sum)

    def failing_row(self, residuals, slacks, row_sums):
        """6 "gives the lowest row"."""
        for k, seen in enumerate(zip(residuals, slacks, row_sums)):
            if not self.is_residual_good(*seen):
                return (k + 1,)
        return None

    def failing_column(self, system, columns):
        """7 "gives the lowest column, then its lowest row"."""
        slacks, sums = self.column_slacks(system), self.column_sums(system)
        for j, residuals in enumerate(columns):
            row = self.failing_row(residuals, slacks, sums)
            if row is not None:
                return (j + 1, *row)
        return None

    def sizes(self, system, residuals, slacks):
        """01: |p_m| for p = G·r. 02, Paper 5: "In the limits |p_m| becomes |p_m| plus the sum over j of |G_mj|·S·d_j."."""
        return [abs(p) + slack for p, slack in zip(times(system.G, residuals), self.carried(system, slacks))]

    def carried(self, system, slacks):
        """The sum over j of |G_mj| times the slack of row j, for each m."""
        return [dot(map(abs, row), slacks) for row in system.G] if any(slacks) else slacks

    def bounds(self, system, residuals, slacks, margins):
        """The limits of one column, from its residuals and slacks."""
        return self.bounds_of_sizes(system, self.sizes(system, residuals, slacks), margins)

    def bounds_of_sizes(self, system, sizes, margins):
        """01: the largest over all rows m of w_i·|p_m| / g_m, each rounded up to a whole number. Equal weights have equal limits, computed once."""
        largest = {w: max(map(rounded_up, [w * p for p in sizes], margins)) for w in set(system.w)}
        return [largest[w] for w in system.w]

    def bounds_of_columns(self, system, columns, margins):
        """For column j of the inverse the same."""
        return [self.bounds(system, residuals, self.column_slacks(system), margins) for residuals in columns]


class Lengths(NamedTuple):
    """The lengths that a call is given: of the six lists, then of both lists of limits."""

    matrix: int = MATRIX
    right: int = COLUMN
    tolerance: int = COLUMN
    guess: int = COLUMN
    inverse: int = MATRIX
    weights: int = COLUMN
    solution: int = COLUMN
    bounds: int = MATRIX


FULL = Lengths()


def check(problem, lengths=FULL):
    """The bounds of an accepted call, or the refusal of another."""
    if any(length < least for length, least in zip(lengths, FULL)):
        return Refusal(8)
    return Reckoning().check(problem) if is_in_range(problem) else Refusal(3)


def is_in_range(problem):
    """01: "A number outside its range": n, s, t and every number in use."""
    n, s, t, *lists = problem
    if not (is_within("problem", [n]) and is_within("scale", [s, t])):
        return False
    return all(is_within(kind, numbers[: n * n if kind in ("row", "inverse") else n]) for kind, numbers in zip(KINDS, lists))
