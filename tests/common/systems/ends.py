"""Systems whose numbers, margins or residuals lie at a bound or one beside it."""

from operator import mul

from .blocks import RESIDUAL, assembled, column_pair, inverse_pair, margin_pair, residual_one, row_block, sign, signed, slack_one, steep_pair
from .usual import repeated
from common.net import LARGE, SIZE, net_of, relabelled


def wide_row(rng, s, n):
    """n equations at t = 0 with ±2^20 along the first row of matrix and inverse; guesses at ±2^36 whose products cancel, or do not."""
    c = [sign(rng) * SIZE for _ in range(n - 1)]
    far = LARGE if s >= 6 else 2**s
    cancel = rng.random() < 0.8
    guess = [sign(rng) * far for _ in c]
    for k in range(1, n - 1, 2):
        if cancel:
            guess[k] = -guess[k - 1] * c[k - 1] // c[k]
    if cancel and n % 2 == 0:
        guess[-1] = rng.randint(-9, 9) * 2**s
    first = rng.randint(-9, 9) * 2**s
    sum_ = sum(map(mul, c, guess)) if cancel else 0
    right = [(first + sum_) // 2**s, *(X // 2**s for X in guess)]
    unit = [[int(i == j) for j in range(n)] for i in range(1, n)]
    weights = [1] + [rng.choice((1, 1024)) for _ in c]
    return net_of(s, 0, [[1, *c], *unit], right, [first, *guess], [[1, *(-x for x in c)], *unit], weights)


def at_bounds(rng, n):
    """Numbers at the bounds of every form, with an exact inverse."""
    s, t = rng.choice((0, 6, 20, rng.randint(0, 20))), rng.choice((0, 20, rng.randint(0, 20)))
    blocks = [wide_row(rng, s, rng.randint(2, n))] if t == 0 and n > 1 and rng.random() < 0.7 else []
    return assembled(rng, n, blocks, s, t)


def largest_bounds(rng, n):
    """A row with a small margin under the largest sizes, so that limits come up to 2^56; n at least 2, slacks of 2^25 or just below it.

    The matrix has 1 on its diagonal and −1 below it, the inverse T on and below its diagonal but for its last row, which is off by at most 2; its weight is
    1, and those of the others are such that its margin is small."""
    off = [rng.choice((2, -2)) for _ in range(n - 2)] + [1, 0]
    parts = [abs(one - next_) for one, next_ in zip(off[: n - 2], off[1:])]
    margin, weights = rng.choice((1, 2, 3)), [1024] * (n - 2)
    t = (1024 * sum(parts) + 512).bit_length() - 1
    T = 2**t
    excess = lambda: sum(map(mul, parts, weights)) + 512 + margin - T
    for k in rng.sample(range(n - 2), n - 2):
        weights[k] -= max(0, min(1023, excess() // parts[k])) if parts[k] else 0
    weights += [512 - excess(), 1]
    s, right = rng.randint(5, 20), [rng.randint(-1000, 1000) for _ in range(n)]
    matrix = [[(i == j) - (i == j + 1) for j in range(n)] for i in range(n)]
    inverse = [[T * (j <= i) + off[j] * (i == n - 1) for j in range(n)] for i in range(n)]
    guess, X, residuals = [], 0, [rng.randint(-1, 1) for _ in range(n)]
    for b, residual in zip(right, residuals):
        X += 2**s * b - residual
        guess.append(X)
    net = net_of(s, t, matrix, right, guess, inverse, weights).with_(tolerance=[(RESIDUAL - abs(residual)) >> s for residual in residuals])
    return relabelled(signed(rng, net), rng.sample(range(n), n), rng.sample(range(n), n))


def near_margins(rng, n):
    """One or two margins at −1, 0, 1 or 2."""
    s, t = rng.randint(0, 20), rng.randint(0, 10)
    blocks = [steep_pair(rng, s, t, rng.choice((-1, 0, 1, 1, 2))) for _ in range(min(n // 2, 2))]
    return assembled(rng, n, blocks, s, t)


def near_slacks(rng, n):
    """02, Paper 5: one to three rows in which size of residual and slack are 2^25 together, or one beside it."""

    def attempt():
        s, t = rng.randint(0, 20), rng.randint(0, 20)
        blocks = [slack_one(rng, s, t, rng.choice((0, 0, 0, 1, -1))) for _ in range(rng.randint(1, min(n, 3)))]
        return assembled(rng, n, blocks, s, t) if all(blocks) else None

    return repeated(attempt)


def several(rng, n):
    """Failing margins, residuals and inverse columns together, by 2^25, by slack and by row sums: the order of 5, 6 and 7, and the lowest places."""
    s, t = rng.randint(0, 20), rng.randint(13, 20)
    blocks = [rng.choice((inverse_pair, inverse_pair, column_pair))(rng, s, t, 1) for _ in range(rng.choice((0, 2, 3)))]
    for _ in range(rng.choice((0, 0, 2, 3))):
        way = rng.randrange(3)
        blocks.append(residual_one(rng, s, t, sign(rng) * (RESIDUAL + 1)) if way == 0 else row_block(rng, s, t, 1) if way == 1 else slack_one(rng, s, t, 1))
    blocks += [margin_pair(rng, s, t, rng.choice((0, -1))) for _ in range(rng.choice((0, 0, 1, 2)))]
    return assembled(rng, n, [block for block in blocks if block], s, t)
