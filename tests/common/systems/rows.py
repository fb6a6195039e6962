"""Systems whose residuals, of the guess or of a column of the inverse, are at the sums along their rows or one beside them (02, Paper 9)."""

from .blocks import assembled, column_pair, row_block, sign
from .usual import fitting_t, levelling_matrix, proposal, repeated
from common.exact import product
from common.net import SIZE, net_of


def beside(rng):
    """How far from the sum: at it, one below, one above."""
    return rng.choice((0, 0, 0, -1, 1))


def levelled(rng, n):
    """A levelling net in whole steps, the guess a step off in the signs of one row: its residual is the sum along that row, or with s = 0 one beside it."""

    def attempt():
        matrix = levelling_matrix(rng, n, rng.choice((1, 4, 64)))
        s, t, k, side = rng.choice((0, 0, rng.randint(1, 20))), fitting_t(rng, matrix), rng.randrange(n), sign(rng)
        heights = [rng.randint(-999, 999) for _ in range(n)]
        right = product(matrix, heights)
        net = proposal(rng, matrix, s, t, right, [1] * n)
        right[k] += side * beside(rng) if s == 0 else 0
        guess = [2**s * x - side * ((a > 0) - (a < 0)) for x, a in zip(heights, matrix[k])]
        return net and net.with_(guess=guess, right=right)

    return repeated(attempt)


def widest_row(rng, n):
    """±2^20 along the first row, so that the sum along it is n · 2^20, at most 2^25, and a guess with just that residual; with s = 0 one beside it too."""
    s, side = rng.choice((0, 0, rng.randint(1, 20))), sign(rng)
    first, unit = [sign(rng) * SIZE for _ in range(n)], [[int(i == j) for j in range(n)] for i in range(1, n)]
    heights = [rng.randint(-9, 9) for _ in range(n)]
    right = product([first, *unit], heights)
    right[0] += side * beside(rng) if s == 0 else 0
    guess = [2**s * x - side * a // SIZE for x, a in zip(heights, first)]
    inverse = [[first[0] // SIZE, *(-a * first[0] // SIZE for a in first[1:])], *([SIZE * u for u in row] for row in unit)]
    return net_of(s, 20, [first, *unit], right, guess, inverse, [rng.choice((1, 1024)) for _ in range(n)])


def near_row_sums(rng, n):
    """One or two residuals of the guess at the sums along their rows or one beside them."""
    way = rng.randrange(8)
    if way < 3:
        return levelled(rng, n) if way < 2 else widest_row(rng, rng.choice((n, 32)))
    s, t = rng.randint(0, 20), rng.randint(0, 20)
    return assembled(rng, n, [row_block(rng, s, t, beside(rng)) for _ in range(rng.randint(1, 2))], s, t)


def near_column_sums(rng, n):
    """One to three residuals of inverse columns at the sums along their rows or one beside them."""
    s, t = rng.randint(0, 20), rng.randint(3, 20)
    return assembled(rng, n, [column_pair(rng, s, t, beside(rng)) for _ in range(rng.randint(1, max(1, min(n // 2, 3))))], s, t)
