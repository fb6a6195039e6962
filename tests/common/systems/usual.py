"""Systems that have a proposal near the exact one: levelling nets, full and thin matrices, coarse steps, and a matrix without an inverse."""

from calls.build.oracle import Build, Builder, FieldLine
from common.exact import inverse_of, nearest, product
from common.net import LARGE, SIZE, WHOLE, frozen, net_of


def levelling_lines(rng, n, heaviest):
    """A connected net with marks 1 to n and the fixed mark 0: lines of random weight along a random graph, each two marks and a weight."""
    reach = rng.choice((1, 3, n))
    lines = [(rng.randint(max(0, mark - reach), mark - 1), mark) for mark in range(1, n + 1)]
    lines += [tuple(rng.sample(range(n + 1), 2)) for _ in range(rng.choice((0, n // 2, 2 * n)))]
    return [(low, high, rng.randint(1, heaviest)) for low, high in lines]


def levelling_matrix(rng, n, heaviest):
    """The matrix of such a net, built from its field lines."""
    lines = levelling_lines(rng, n, heaviest)
    built = Builder().build(Build(n, tuple(FieldLine(key, low, high, 0, weight) for key, (low, high, weight) in enumerate(lines, 1))))
    return frozen([built.matrix[i * n : i * n + n] for i in range(n)])


def made_symmetric(matrix):
    """A matrix with each number above the diagonal that below it."""
    places = range(len(matrix))
    return frozen([[matrix[max(i, j)][min(i, j)] for j in places] for i in places])


def general_matrix(rng, n):
    """A matrix without symmetry: full or thin, its numbers of up to 14 binary digits, its diagonal heavy or not."""
    largest = 2 ** rng.randint(1, 14)
    filled = rng.choice((1.0, 0.5, 3 / n))
    matrix = [[rng.randint(-largest, largest) if rng.random() < filled else 0 for _ in range(n)] for _ in range(n)]
    for i in range(n):
        if rng.random() < 0.8:
            matrix[i][i] = rng.choice((1, -1)) * rng.randint(largest, min(SIZE, largest * n))
    return frozen(matrix)


def to_nearest(rng):
    """Rounding to a nearest whole number, at halves to either neighbour."""
    return lambda numerator, denominator: nearest(numerator, denominator, rng.random() < 0.5)


def within_a_step(rng):
    """Rounding to any whole number at most one away."""
    return lambda numerator, denominator: rng.randint(-(-numerator // denominator) - 1, numerator // denominator + 1)


def proposal(rng, matrix, s, t, right, weights, rounding=to_nearest):
    """Guess and inverse rounded to steps, mostly to nearest ones; None where they leave their ranges."""
    exact = inverse_of(matrix)
    if exact is None:
        return None
    q, H = exact
    S, T = 2**s, 2**t
    rounded = rounding(rng)
    guess = [rounded(S * N, q) for N in product(H, right)]
    inverse = [[rounded(T * h, q) for h in row] for row in H]
    net = net_of(s, t, matrix, right, guess, inverse, weights)
    return net if net.is_in_range() else None


def fitting_t(rng, matrix):
    """Inverse steps as fine as the range of G allows, or up to four binary digits coarser."""
    exact = inverse_of(matrix)
    if exact is None:
        return 20
    q, H = exact
    largest = max(abs(h) for row in H for h in row)
    finest = max((t for t in range(21) if 2**t * largest <= (SIZE - 16) * q), default=0)
    return max(0, finest - rng.choice((0, 0, 0, 1, 2, 4)))


def fitting_right(rng, matrix, s):
    """A right side whose solution fits the range of the guess."""
    exact = inverse_of(matrix)
    if exact is None:
        return [rng.randint(-100, 100) for _ in matrix]
    q, H = exact
    growth = max(sum(abs(h) for h in row) for row in H)
    largest = min(WHOLE, (LARGE - 2**30) * q // (2**s * growth))
    largest = max(0, min(largest, 2 ** rng.randint(4, 30)))
    return [rng.randint(-largest, largest) for _ in matrix]


def random_weights(rng, n):
    """Weights of 1, or up to a power of two."""
    highest = rng.choice((1, 1, 4, 32, 1024))
    return [rng.randint(1, highest) for _ in range(n)]


def shaken(rng, net):
    """Now and then the proposal moved by some steps: a poorer guess, or a poorer inverse, which 02's Paper 9 mostly refuses."""
    way = rng.randrange(16)
    guess, inverse = net.guess, net.inverse
    if way == 0:
        far = 2 ** rng.randint(0, 16)
        guess = [X + rng.randint(-far, far) for X in guess]
    if way == 1:
        inverse = [[g + rng.choice((-1, 0, 0, 0, 1)) for g in row] for row in inverse]
    moved = net.with_(guess=guess, inverse=inverse)
    return moved if moved.is_in_range() else net


def proposed(rng, matrix, s, t, right, weights):
    """A proposal rounded to nearest steps or, as often, within a step (02, Paper 9), and now and then shaken; None where it leaves its ranges."""
    net = proposal(rng, matrix, s, t, right, weights, rng.choice((to_nearest, within_a_step)))
    return net and shaken(rng, net)


def made(rng, matrix):
    """A system on a matrix with its proposal; None where it does not fit the ranges."""
    s, t = rng.randint(0, 20), fitting_t(rng, matrix)
    return proposed(rng, matrix, s, t, fitting_right(rng, matrix, s), random_weights(rng, len(matrix)))


def repeated(attempt):
    """The first net of an attempt that gives one."""
    for _ in range(200):
        net = attempt()
        if net is not None:
            return net
    raise RuntimeError("no net fits")


def levelling(rng, n):
    return repeated(lambda: made(rng, levelling_matrix(rng, n, rng.choice((1, 4, 64)))))


def general(rng, n):
    return repeated(lambda: made(rng, general_matrix(rng, n)))


def small(rng, n):
    """Few equations with coarse steps, so that margins lie near 0."""

    def attempt():
        matrix = frozen([[rng.randint(-4, 4) for _ in range(n)] for _ in range(n)])
        s, t = rng.randint(0, 5), rng.randint(0, 4)
        right = [rng.randint(-20, 20) for _ in range(n)]
        return proposed(rng, matrix, s, t, right, [rng.randint(1, 3) for _ in range(n)])

    return repeated(attempt)


def singular(rng, n):
    """A matrix without an inverse, one row the sum of others, under a random proposal."""
    rows = [[rng.randint(-9, 9) for _ in range(n)] for _ in range(n)]
    rows[-1] = [sum(column) for column in zip(*rows[:-1])] if n > 1 else [0]
    t = rng.randint(0, 12)
    inverse = [[rng.randint(-(2**t), 2**t) // 9 for _ in range(n)] for _ in range(n)]
    numbers = lambda: [rng.randint(-50, 50) for _ in range(n)]
    return net_of(rng.randint(0, 20), t, rows, numbers(), numbers(), inverse, [1] * n)
