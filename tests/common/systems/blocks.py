"""Blocks of one to four equations whose numbers, margins or residuals lie at a bound or one beside it, and systems made of them along the diagonal."""

from .usual import proposal, repeated
from common.exact import nearest
from common.net import LARGE, SIZE, WHOLE, direct_sum, frozen, net_of, relabelled

RESIDUAL = 2**25


def sign(rng):
    return rng.choice((1, -1))


def signed(rng, net):
    """The same system with other signs of its equations and unknowns."""
    row, column = ([sign(rng) for _ in range(net.n)] for _ in range(2))
    both = lambda matrix, left, right: [[a * x * y for a, y in zip(line, right)] for line, x in zip(matrix, left)]
    times = lambda numbers, signs: [x * y for x, y in zip(numbers, signs)]
    return net.with_(
        matrix=both(net.matrix, row, column), right=times(net.right, row), guess=times(net.guess, column), inverse=both(net.inverse, column, row)
    )


def assembled(rng, n, blocks, s, t):
    """The blocks and as many fillers as make n equations, or the blocks alone where they are more, in random order."""
    n = max(n, sum(block.n for block in blocks))
    rest = n - sum(block.n for block in blocks)
    net = direct_sum(blocks + [filler(rng, s, t) for _ in range(rest)])
    return relabelled(net, rng.sample(range(n), n), rng.sample(range(n), n))


def filler(rng, s, t):
    """One equation with an exact inverse, its numbers often at a bound: a = ±2^k and G = ±2^(t − k)."""
    k = rng.choice((0, t, rng.randint(0, t)))
    a = sign(rng) * 2**k
    G = 2**t // a
    right = sign(rng) * rng.choice((WHOLE, rng.randint(0, WHOLE), rng.randint(0, 1000)))
    guess = 2**s * right // a
    if abs(guess) > LARGE:
        guess = sign(rng) * LARGE // abs(a) // 2**s * 2**s
        right = guess * a // 2**s
    return net_of(s, t, [[a]], [right], [guess], [[G]], [rng.choice((1, 1024, rng.randint(1, 1024)))])


def margin_pair(rng, s, t, target):
    """Two equations, the first with the margin `target`, by a poor inverse; None where its numbers leave their ranges."""
    T = 2**t
    a, c, w = sign(rng), rng.randint(-3, 3), rng.randint(1, 1024)
    g = rng.randint(0, min(2 * T, SIZE)) * a
    left = T * w - abs(T - g * a) * w - target
    if left < 0:
        return None
    h = sign(rng) * left - g * c
    right = [rng.randint(-5, 5), rng.randint(-5, 5)]
    guess = [(right[0] - c * right[1]) * 2**s * a, right[1] * 2**s]
    net = net_of(s, t, [[a, c], [0, 1]], right, guess, [[g, h], [0, T]], [w, 1])
    return net if net.is_in_range() else None


def steep_pair(rng, s, t, target):
    """Two equations, the first with the margin `target`, no residual above the sum along its row; t at most 12.

    With A = (1 c / 0 1) and G = (T − δ, e − c·T / 0, T) row 1 of D is δ and c·δ − e, and the residuals of the inverse are δ, −e and 0."""
    T = 2**t

    def attempt():
        c, w = rng.randint(1, SIZE // T), rng.randint(1, 2 ** rng.randint(0, 10))
        delta = (T * w - target) // (w + c)
        e = target - T * w + delta * (w + c)
        if not (0 <= delta <= c + 1 and -c <= e <= 0):
            return None
        right, off = ([rng.randint(-most, most) for _ in range(2)] for most in (5, 1))
        guess = [(right[0] - c * right[1]) * 2**s + off[0], right[1] * 2**s + off[1]]
        net = net_of(s, t, [[1, c], [0, 1]], right, guess, [[T - delta, e - c * T], [0, T]], [w, 1])
        return net if net.is_in_range() else None

    return signed(rng, repeated(attempt))


def residual_one(rng, s, t, target):
    """One equation with the residual `target`: S·b − a·X."""
    a = sign(rng)
    right = rng.randint(-1000, 1000)
    guess = (2**s * right - target) * a
    return net_of(s, t, [[a]], [right], [guess], [[2**t * a]], [rng.randint(1, 1024)])


def slack_one(rng, s, t, beyond):
    """One equation with size of residual and slack 2^25 + beyond together, the slack above 0 and the residual within the sum along its row; None where there is none."""
    S, most = 2**s, min(SIZE, 2 ** (t + 1)) - 1
    rest = (RESIDUAL + beyond) % S + S * rng.randint(0, max(0, most // S - 1))
    tolerance = (RESIDUAL + beyond - rest) // S
    if rest > most or not 1 <= tolerance <= SIZE:
        return None
    a = rng.choice((rest | 1, min(most, (rest | 1) + 2 * rng.randrange(2 ** rng.randint(0, 19)))))
    return with_residuals(rng, s, t, [[sign(rng) * a]], [sign(rng) * rest]).with_(tolerance=[tolerance])


def inverse_pair(rng, s, t, beyond):
    """Two equations whose residual in column 2, row 1 has the size 2^25 + beyond, for beyond −1, 0 or 1; t at least 13."""
    k = rng.randint(max(13, 26 - t), t)
    side = sign(rng)
    delta = side * 2 ** (25 - k)
    c = -side * beyond if beyond else rng.randint(-3, 3)
    u = 1 if beyond else 0
    T, part = 2**t, 2 ** (t - k)
    right = [rng.randint(-5, 5), rng.randint(-5, 5)]
    guess = [2**s * (right[0] - c * right[1]) // 2**k, right[1] * 2**s]
    w = rng.randint(1, 1024)
    return net_of(s, t, [[2**k, c], [0, 1]], right, guess, [[part, delta - c * part], [0, T - u]], [w, w])


def with_residuals(rng, s, t, matrix, residuals):
    """A system on a matrix with odd numbers on its diagonal and 0 below it, whose guess has these residuals; None where it leaves its ranges."""
    S, n = 2**s, len(matrix)
    right, guess = [0] * n, [0] * n
    for i in reversed(range(n)):
        rest = residuals[i] + sum(a * X for a, X in zip(matrix[i], guess))
        guess[i] = -rest * pow(matrix[i][i], -1, S) % S + S * rng.randint(-9, 9)
        right[i] = (rest + matrix[i][i] * guess[i]) // S
    net = proposal(rng, frozen(matrix), s, t, right, [rng.randint(1, 1024)] * n)
    moved = net and net.with_(guess=guess)
    return moved if moved and moved.is_in_range() else None


def row_block(rng, s, t, beyond):
    """One to four equations: the absolute value of one residual is the sum along its row and `beyond` more, and of the others at most the sums along theirs."""

    def attempt():
        n = rng.randint(1, 4) if t > 3 else 1
        largest = max(1, min(2 ** rng.randint(0, 20), 2**t // n**2))
        odd = lambda: sign(rng) * (rng.randrange(largest) | 1)
        matrix = [[odd() if i == j else rng.randint(-largest, largest) if i < j else 0 for j in range(n)] for i in range(n)]
        sums = [sum(map(abs, row)) for row in matrix]
        residuals, k = [rng.randint(-most, most) for most in sums], rng.randrange(n)
        residuals[k] = sign(rng) * (sums[k] + beyond)
        return with_residuals(rng, s, t, matrix, residuals)

    return signed(rng, repeated(attempt))


def column_pair(rng, s, t, beyond):
    """Two equations: the absolute value of the residual in column 2, row 1 is the sum along row 1 and `beyond` more, for beyond −1, 0 or 1; t at least 3.

    With A = (a c / 0 1) and T in place 2, 2 of the inverse that residual is −(a·g + c·T), g being the number in place 1, 2."""
    T = 2**t

    def attempt():
        side, a = sign(rng), rng.randrange(2 ** rng.randint(1, min(t - 1, 12))) | 1
        try:
            c = -side * beyond * pow(T + side, -1, a) % a if beyond else a * rng.randint(0, 2)
        except ValueError:  # T + side and a have a common factor
            return None
        G = [[nearest(T, a), -(c * T + side * (a + c + beyond)) // a], [0, T]]
        right = [rng.randint(-5, 5), rng.randint(-5, 5)]
        guess = [nearest((right[0] - c * right[1]) * 2**s, a), right[1] * 2**s]
        w = rng.randint(1, 1024)
        net = net_of(s, t, [[a, c], [0, 1]], right, guess, G, [w, w])
        return net if net.is_in_range() else None

    return signed(rng, repeated(attempt))
