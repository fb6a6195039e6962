"""Systems at the edge of demand 3's second half: the sizes |A_ij| sum to 2T − 1 or 2T − 2, the proposal rounded to nearest steps."""

from .usual import fitting_right, levelling_matrix, proposal, repeated
from common.exact import size_sum
from common.net import SIZE, frozen


def bidiagonal(rng, n):
    """2 on the diagonal and ±1 above it: the inverse has halves of steps."""
    above = lambda i, j: rng.choice((1, -1)) if j == i + 1 else 0
    return [[2 if i == j else above(i, j) for j in range(n)] for i in range(n)]


def permuted(rng, n):
    """One number a row and a column."""
    order = rng.sample(range(n), n)
    return [[rng.choice((1, -1)) * rng.randint(1, 4) if order[i] == j else 0 for j in range(n)] for i in range(n)]


def thin(rng, n):
    """A heavy diagonal with a few numbers beside it."""
    matrix = [[rng.randint(2, 5) if i == j else 0 for j in range(n)] for i in range(n)]
    for _ in range(n // 2):
        matrix[rng.randrange(n)][rng.randrange(n)] += rng.choice((1, -1))
    return matrix


def grown(rng, matrix, total):
    """The matrix multiplied and one number's size raised until the sizes sum to `total`; None where that cannot be."""
    sum_ = sum(abs(a) for row in matrix for a in row)
    factor, rest = divmod(total, sum_)
    if factor == 0:
        return None
    rows = [[factor * a for a in row] for row in matrix]
    places = [(i, j) for i, row in enumerate(rows) for j, a in enumerate(row) if a]
    while rest:
        i, j = rng.choice(places)
        part = rest if len(places) == 1 or rng.random() < 0.2 else rng.randint(1, rest)
        rows[i][j] += part if rows[i][j] > 0 else -part
        rest -= part
    return frozen(rows) if all(abs(a) <= SIZE for row in rows for a in row) else None


def at_edge(rng, n):
    """A system whose sizes sum to just below 2T, or now and then to somewhat less."""

    def attempt():
        shape = rng.choice((bidiagonal, permuted, thin, None))
        matrix = shape(rng, n) if shape else levelling_matrix(rng, n, 1)
        t = rng.randint(0, 20)
        below = rng.choice((1, 1, 1, 2, 2, rng.randint(1, 2**t)))
        matrix = grown(rng, matrix, 2 * 2**t - below)
        if matrix is None:
            return None
        s = rng.randint(0, 20)
        return proposal(rng, matrix, s, t, fitting_right(rng, matrix, s), [1] * n)

    return repeated(attempt)


def with_halves(rng, n):
    """A bidiagonal matrix as it is, whose inverse has halves of steps; either neighbour will do."""

    def attempt():
        matrix = frozen(bidiagonal(rng, n))
        s, t = rng.randint(0, 6), rng.randint(2, 12)
        net = proposal(rng, matrix, s, t, [rng.randint(-99, 99) for _ in range(n)], [1] * n)
        return net if net and size_sum(net) < 2 * 2**t else None

    return repeated(attempt)
