"""The examples of source document 002, section 4, that fit the ranges after scaling: Examples 1 and 2, whose matrices it prints.

The guesses are iterates of the method of successive displacements, rounded to steps; the weights follow the bounds of its tables.
Six numbers of our copy are misprinted and stand as None: Table 2, the error after 3 steps no. 8 and its bound no. 3 and 4; Table 4, the
error after 2 steps no. 1, 2 and 4."""

from fractions import Fraction
from typing import NamedTuple

from calls.listing.oracle import Program, without
from common.checks import is_accepted, limits_in
from common.exact import inverse_of, nearest, product
from common.net import file_of, lines_of, net_of

# Nine decimals are printed, the last one not always rounded to nearest.
UNIT = Fraction(1, 10**9)


class Example(NamedTuple):
    """Matrix and right side, starting vector in ten-thousandths, and by step count the printed errors and bounds in units of the ninth decimal."""

    name: str
    matrix: tuple
    right: tuple
    start: tuple
    errors: dict
    bounds: dict


EXAMPLE_1 = Example(
    "1",
    (
        (12, -1, -1, 0, -2, -2, -2, -2),
        (-2, 12, 0, 0, 0, -4, -4, 0),
        (-2, 0, 12, -2, -4, 0, 0, -2),
        (0, 0, -2, 14, -2, 0, 0, 0),
        (-2, 0, -2, -1, 13, -1, 0, -1),
        (-2, -2, 0, 0, -1, 12, -1, 0),
        (-2, -2, 0, 0, 0, -1, 12, -1),
        (-4, 0, -2, 0, -2, 0, -2, 12),
    ),
    (1, 1, 0, 0, 0, 0, 6, 2),
    (3996, 4655, 2155, 539, 1530, 2155, 7155, 5022),
    {
        3: (2736691, 2203276, 2229846, 710506, 1296122, 1153026, 1221478, None),
        11: (5720, 4516, 4751, 1519, 2721, 2393, 2550, 3577),
        16: (121, 96, 101, 32, 58, 51, 54, 75),
    },
    {
        3: (9759418, 8644262, None, None, 4525089, 4433653, 4477596, 6008977),
        11: (6650, 5249, 5523, 1766, 3163, 2781, 2965, 4159),
        16: (141, 112, 117, 38, 67, 59, 63, 88),
    },
)

EXAMPLE_2 = Example(
    "2",
    ((12, -3, -3, 1), (-3, 10, -2, -3), (-3, -2, 10, -3), (2, -6, -6, 11)),
    (1, 1, 1, 1),
    (10000, 10000, 10000, 10000),
    {
        2: (None, None, 175309129, None),
        12: (474178, 677978, 601444, 611652),
        27: (96, 137, 122, 123),
        30: (18, 25, 22, 23),
    },
    {
        2: (275000000, 327954545, 273545455, 334426997),
        12: (861331, 1076452, 967820, 1140014),
        27: (174, 217, 196, 230),
        30: (62, 76, 72, 92),
    },
)

EXAMPLES = (EXAMPLE_1, EXAMPLE_2)


def step(example, u):
    """One step of successive displacements."""
    u = list(u)
    for i, row in enumerate(example.matrix):
        rest = sum(a * x for j, (a, x) in enumerate(zip(row, u)) if j != i)
        u[i] = (example.right[i] - rest) / row[i]
    return u


def iterates(example):
    """The iterates by step count, in exact fractions."""
    u = [Fraction(x, 10000) for x in example.start]
    result = {0: u}
    for count in range(1, max(example.errors) + 1):
        u = step(example, u)
        result[count] = u
    return result


def exact_solution(example):
    q, H = inverse_of(example.matrix)
    return [Fraction(N, q) for N in product(H, example.right)]


def table_differences(example):
    """The printed errors that differ by two units of the ninth decimal or more from the computed ones."""
    exact, computed = exact_solution(example), iterates(example)
    return [
        (count, i + 1)
        for count, errors in example.errors.items()
        for i, printed in enumerate(errors)
        if printed is not None and abs(computed[count][i] - exact[i] - printed * UNIT) >= 2 * UNIT
    ]


def exact_inverse(example, T):
    q, H = inverse_of(example.matrix)
    return [[nearest(T * h, q) for h in row] for row in H]


def displacement_inverse(example, T):
    """The inverse of the lower triangle: with it I − (G/T)·A is the matrix M of successive displacements."""
    n = len(example.matrix)
    lower = tuple(tuple(a if j <= i else 0 for j, a in enumerate(row)) for i, row in enumerate(example.matrix))
    q, H = inverse_of(lower)
    return [[nearest(T * H[i][j], q) for j in range(n)] for i in range(n)]


def weights_of(example):
    """Weights of 1, and weights in proportion to the printed bounds of the last row of the table."""
    bounds = example.bounds[max(example.bounds)]
    return {"ones": (1,) * len(bounds), "bounds": tuple(-(-1000 * z // max(bounds)) for z in bounds)}


def guesses_of(example):
    return {count: u for count, u in iterates(example).items() if count == 0 or count in example.errors}


# The step counts whose guesses are no longer taken (02, Paper 9), by example and s: their residual is above the sum along row 1.
POOR = {("1", 20): (0, 3, 11), ("1", 10): (0,), ("2", 20): (0, 2, 12), ("2", 10): (0, 2)}


def first_line(example, count, s, way):
    """What the listing of a net begins with: of the inverses only the exact one, rounded, has residuals within the sums along the rows."""
    if count in POOR.get((example.name, s), ()):
        return "(refused 6 (1))"
    return f"(bounds {len(example.matrix)})" if way is exact_inverse else "(refused 7 (1 1))"


def nets():
    """(name, net, printed errors, first line) for each example, guess, inverse, weights and steps."""
    for example in EXAMPLES:
        for count, u in guesses_of(example).items():
            for s, t in ((20, 20), (20, 12), (10, 16), (0, 20)):
                S, T = 2**s, 2**t
                guess = [nearest(S * x.numerator, x.denominator) for x in u]
                for way in (exact_inverse, displacement_inverse):
                    for label, weights in weights_of(example).items():
                        name = f"002 example {example.name}, guess {count}, steps {s} {t}, {way.__name__}, {label}"
                        net = net_of(s, t, example.matrix, example.right, guess, way(example, T), weights)
                        yield name, net, example.errors.get(count), first_line(example, count, s, way)


def printed_errors_outside(listing, net, errors):
    """Printed errors beyond their limits, a step allowed for the rounding of guess and table."""
    if not is_accepted(listing):
        return [repr(listing)]
    return [
        f"error {i + 1} outside its limit"
        for i, (printed, limit) in enumerate(zip(errors or (), limits_in(listing)))
        if printed is not None and abs(printed) * 2**net.s > (limit + 1) * 10**9
    ]


def tests():
    """The listing of each example begins as it should, and the errors that 002 prints lie within the limits, which don't know of a refusal for a poor guess or
    inverse."""
    before = without("residuals_within_row_sums")
    for example in EXAMPLES:
        yield f"002 example {example.name}", [f"printed error {place}" for place in table_differences(example)]
    for name, net, errors, first_line in nets():
        file = file_of(lines_of(net))
        listing = Program().listing(file)
        begins = [] if listing.startswith(f"{first_line}\n".encode()) else [repr(listing)]
        yield name, begins + printed_errors_outside(before.listing(file), net, errors)
