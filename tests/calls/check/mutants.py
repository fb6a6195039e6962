"""Mutants of the reckoning, by name. COMPUTED break one rule of document 01 each, and the files must detect them (calls/listing); MUTANTS go wrong where the
shape of matrix and inverse matters: whether both are symmetric, which numbers are 0, and whether a column's limits are 0, 1 or above; ON_LISTS test the lengths
and ranges of a call otherwise."""

from fractions import Fraction
from math import ceil, floor

from calls.check.oracle import FULL, LARGEST_RESIDUAL, Reckoning, check, is_in_range, transposed
from calls.entry.mutants import half_up
from common.format import is_within
from common.rules import Refusal


def reckoning(**parts):
    return type("Mutant", (Reckoning,), parts)


def bound_by(rule):
    """Reckoning whose bound of row i is rule(w, i, sizes, margins)."""
    return reckoning(bounds_of_sizes=lambda self, system, sizes, margins: [rule(system.w, i, sizes, margins) for i in range(system.n)])


def largest(rounding):
    """The largest over all rows, rounded otherwise."""
    return bound_by(lambda w, i, sizes, margins: max(rounding(Fraction(w[i] * p, g)) for p, g in zip(sizes, margins)))


def margins_by(rule):
    """Reckoning whose margin of row m is rule(T, w, m, row of D)."""
    return reckoning(
        margins=lambda self, system: [rule(system.T, system.w, m, row) for m, row in enumerate(self.defect(system))]
    )


def residuals_by(rule):
    """Reckoning that takes a residual with its slack for small enough where rule(residual, slack) holds; the sum along its row stays beside it."""
    return reckoning(is_small=lambda self, residual, slack: rule(residual, slack))


def changed_system(method, **changes):
    """Reckoning whose `method` sees another system; each change is a function of the system."""
    original = getattr(Reckoning, method)
    see = lambda system: system._replace(**{name: change(system) for name, change in changes.items()})
    return reckoning(**{method: lambda self, system, *rest: original(self, see(system), *rest)})


def row_first(self, system, columns):
    places = [
        (k + 1, j + 1)
        for j, column in enumerate(columns)
        for k, (residual, row_sum) in enumerate(zip(column, self.column_sums(system)))
        if not self.is_residual_good(residual, 0, row_sum)
    ]
    return min(places)[::-1] if places else None


def highest_margin(self, margins):
    rows = [m + 1 for m, margin in enumerate(margins) if margin <= 0]
    return (rows[-1],) if rows else None


COMPUTED = {
    "A·G for G·A": changed_system("defect", A=lambda system: system.G, G=lambda system: system.A),
    "margin 0 good": reckoning(is_margin_good=lambda self, margin: margin >= 0),
    "margin of a sum's absolute value": margins_by(lambda T, w, m, row: T * w[m] - abs(sum(d * x for d, x in zip(row, w)))),
    "margin with its own row's weight": margins_by(lambda T, w, m, row: T * w[m] - sum(abs(d) * w[m] for d in row)),
    "margin without weights": margins_by(lambda T, w, m, row: T - sum(map(abs, row))),
    "highest failing margin": reckoning(failing_margin=highest_margin),
    "divide before weighing": bound_by(lambda w, i, sizes, margins: w[i] * max(ceil(Fraction(p, g)) for p, g in zip(sizes, margins))),
    "limits to nearest": largest(half_up),
    "limits rounded down": largest(floor),
    "limits one too high": largest(lambda x: floor(x) + 1),
    "limit from its own row": bound_by(lambda w, i, sizes, margins: ceil(Fraction(w[i] * sizes[i], margins[i]))),
    "limit with row m's weight": bound_by(lambda w, i, sizes, margins: max(ceil(Fraction(x * p, g)) for x, p, g in zip(w, sizes, margins))),
    "one factor for all rows": bound_by(lambda w, i, sizes, margins: ceil(Fraction(w[i] * max(sizes), min(margins)))),
    "smallest row": bound_by(lambda w, i, sizes, margins: min(ceil(Fraction(w[i] * p, g)) for p, g in zip(sizes, margins))),
    "limits of 2^60": bound_by(lambda w, i, sizes, margins: 2**60),
    "no limits written": bound_by(lambda w, i, sizes, margins: 0),
    "2^25 refused": residuals_by(lambda r, slack: abs(r) + slack < LARGEST_RESIDUAL),
    "2^25 + 1 accepted": residuals_by(lambda r, slack: abs(r) + slack <= LARGEST_RESIDUAL + 1),
    "residual with its sign": residuals_by(lambda r, slack: r + slack <= LARGEST_RESIDUAL),
    "7 by row first": reckoning(failing_column=row_first),
    "7 never": reckoning(failing_column=lambda self, system, columns: None),
    "7 before 6": reckoning(ORDER=(5, 7, 6)),
    "6 before 5": reckoning(ORDER=(6, 5, 7)),
    "S for T in the inverse": changed_system("inverse_residual", T=lambda system: system.S),
    "1 for S in the residual": changed_system("guess_residual", S=lambda system: 1),
    "A transposed in the residual": changed_system("guess_residual", A=lambda system: transposed(system.A)),
    "G transposed in p": changed_system("sizes", G=lambda system: transposed(system.G)),
    "column 1 for all columns": reckoning(
        bounds_of_columns=lambda self, system, columns, margins: [self.bounds(system, columns[0], self.column_slacks(system), margins)] * system.n
    ),
    "inverse limits by columns": reckoning(
        bounds_of_columns=lambda self, *rest: transposed(Reckoning.bounds_of_columns(self, *rest))
    ),
    "stride 32": reckoning(rows=lambda self, numbers, n: [numbers[i * 32 : i * 32 + n] for i in range(n)]),
    "all proposals refused": reckoning(check=lambda self, problem: Refusal(5, (1,))),
}


def is_symmetric(rows):
    return all(number == rows[j][i] for i, row in enumerate(rows) for j, number in enumerate(row))


def always(system):
    return True


def of_matrix(system):
    return is_symmetric(system.A)


def of_inverse(system):
    return is_symmetric(system.G)


def of_both(system):
    return is_symmetric(system.A) and is_symmetric(system.G)


def without(passed_over):
    """Whether both are symmetric, places (i, j) below the diagonal of which passed_over(n, i, j) holds left out."""
    same = lambda rows: all(rows[i][j] == rows[j][i] for i in range(len(rows)) for j in range(i) if not passed_over(len(rows), i, j))
    return lambda system: same(system.A) and same(system.G)


class Mirroring(Reckoning):
    """Reads row m of D as the residuals of column m of the inverse, and the sizes of a column before its diagonal across the columns before it, each where its
    test holds."""

    def reads_defect(self, system):
        return of_both(system)

    def reads_half(self, system):
        return of_both(system)

    def defect(self, system):
        return [self.inverse_residual(system, m) for m in range(system.n)] if self.reads_defect(system) else super().defect(system)

    def bounds_of_columns(self, system, columns, margins):
        if not self.reads_half(system):
            return super().bounds_of_columns(system, columns, margins)
        places = range(system.n)
        sizes = [self.sizes(system, residuals, self.column_slacks(system)) for residuals in columns]
        half = [[sizes[min(j, m)][max(j, m)] for m in places] for j in places]
        return [self.bounds_of_sizes(system, column, margins) for column in half]


def reading_symmetric(defect, half):
    parts = {"reads_defect": lambda self, system: defect(system), "reads_half": lambda self, system: half(system)}
    return type("Mutant", (Mirroring,), parts)


def bounds_by(rule):
    """Reckoning of which the limits of a column are rule(weights, sizes, margins), or where that is None those of document 01."""

    def bounds(self, system, residuals, slacks, margins):
        own = rule(system.w, self.sizes(system, residuals, slacks), margins)
        return Reckoning.bounds(self, system, residuals, slacks, margins) if own is None else own

    return reckoning(bounds=bounds)


def within_caps_where(is_within_caps):
    """Limits of 1, or of 0 where every size is 0, where is_within_caps(weights, sizes, margins)."""
    return bounds_by(lambda w, sizes, margins: [int(any(sizes))] * len(w) if is_within_caps(w, sizes, margins) else None)


def all_below(weight):
    """No magnitude times this weight is above its margin."""
    return lambda w, sizes, margins: all(weight(w) * p <= g for p, g in zip(sizes, margins))


def largest_ratio_by(product):
    """Limits of the row whose ratio is largest by products as they come out."""

    def rule(w, sizes, margins):
        best = 0
        for m in range(1, len(sizes)):
            best = m if product(sizes[best], margins[m]) < product(sizes[m], margins[best]) else best
        return [-(-x * sizes[best] // margins[best]) for x in w]

    return bounds_by(rule)


class LastPassedOver(Reckoning):
    """Leaves the last number of each row of A out of its products with G."""

    def cut(self, system):
        return system._replace(A=[[*row[:-1], 0] for row in system.A])

    def defect(self, system):
        return super().defect(self.cut(system))

    def inverse_residual(self, system, j):
        return super().inverse_residual(self.cut(system), j)


# Other ways to the same numbers.
AGREEING = {
    "read where both are symmetric": reading_symmetric(of_both, of_both),
    "capped by the largest weight": within_caps_where(all_below(max)),
    "products of any size": largest_ratio_by(lambda p, g: p * g),
}

MUTANTS = {
    "symmetry taken for granted": reading_symmetric(always, always),
    "A alone compared": reading_symmetric(of_matrix, of_matrix),
    "G alone compared": reading_symmetric(of_inverse, of_inverse),
    "D read where A is symmetric": reading_symmetric(of_matrix, of_both),
    "D read where G is symmetric": reading_symmetric(of_inverse, of_both),
    "half of p where A is symmetric": reading_symmetric(of_both, of_matrix),
    "half of p where G is symmetric": reading_symmetric(of_both, of_inverse),
    "half of p for every proposal": reading_symmetric(of_both, always),
    "the last row not compared": reading_symmetric(*[without(lambda n, i, j: i == n - 1)] * 2),
    "the first column not compared": reading_symmetric(*[without(lambda n, i, j: j == 0)] * 2),
    "numbers beside the diagonal not compared": reading_symmetric(*[without(lambda n, i, j: j == i - 1)] * 2),
    "the last row alone compared": reading_symmetric(*[without(lambda n, i, j: i < n - 1)] * 2),
    "capped by the smallest weight": within_caps_where(all_below(min)),
    "capped by the first weight": within_caps_where(all_below(lambda w: w[0])),
    "capped where the last row is": within_caps_where(lambda w, sizes, margins: max(w) * sizes[-1] <= margins[-1]),
    "capped where one row is": within_caps_where(lambda w, sizes, margins: any(max(w) * p <= g for p, g in zip(sizes, margins))),
    "1 for a column of zeros": bounds_by(lambda w, sizes, margins: None if any(sizes) else [1] * len(w)),
    "0 where the last size is 0": bounds_by(lambda w, sizes, margins: None if sizes[-1] else [0] * len(w)),
    "the last number of a row passed over": LastPassedOver,
}


def long_enough(name):
    """A call that takes a list of any length by this name."""
    return lambda problem, lengths: check(problem, lengths._replace(**{name: getattr(FULL, name)}))


def in_range(change):
    """A call that sees other numbers when it tests their ranges."""
    return lambda problem, lengths: Reckoning().check(problem) if lengths == FULL and is_in_range(change(problem)) else check(problem, lengths)


def reads_on(problem, lengths):
    """3 where the number after those of the matrix is out of its range."""
    right, at = check(problem, lengths), problem.n**2
    return right if right in (Refusal(8), Refusal(3)) or is_within("row", problem.matrix[at : at + 1]) else Refusal(3)


def places_exchanged(problem, lengths):
    right = check(problem, lengths)
    return Refusal(7, right.values[::-1]) if isinstance(right, Refusal) and right.number == 7 else right


ON_LISTS = {
    "a short list of limits taken": long_enough("solution"),
    "a short list of tolerances taken": long_enough("tolerance"),
    "3 before 8": lambda problem, lengths: check(problem, lengths) if is_in_range(problem) else Refusal(3),
    "weights of any size": in_range(lambda problem: problem._replace(weights=[1] * problem.n)),
    "a tolerance below 0 taken": in_range(lambda problem: problem._replace(tolerance=list(map(abs, problem.tolerance)))),
    "a number past n × n read": reads_on,
    "row before column": places_exchanged,
}
