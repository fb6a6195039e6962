"""Searches for weights by chance: problems whose first good list is an early one, a late one, or none."""

import random

from calls.weights.oracle import FULL, Request
from common.net import flat
from common.systems import usual

SIZE = 2**20


def unimodular(rng, n):
    """A matrix of whole numbers and its inverse, which is one too: rows added to others, and signs."""
    matrix, inverse = ([[int(i == j) for j in range(n)] for i in range(n)] for _ in range(2))
    for _ in range(rng.randrange(2 * n)):
        i, j, sign = rng.randrange(n), rng.randrange(n), rng.choice((1, -1))
        if i == j:
            matrix[i] = [-x for x in matrix[i]]
            for row in inverse:
                row[i] = -row[i]
        else:
            matrix[i] = [x + sign * y for x, y in zip(matrix[i], matrix[j])]
            for row in inverse:
                row[j] -= sign * row[i]
    return matrix, inverse


def with_defect(rng, t, defect):
    """The problem with this D: G·A = T·I − D."""
    n, T = len(defect), 2**t
    for tries in range(4):
        A, B = unimodular(rng, n) if tries < 3 else ([[int(i == j) for j in range(n)] for i in range(n)],) * 2
        H = [[T * (i == j) - defect[i][j] for j in range(n)] for i in range(n)]
        G = [[sum(h * b for h, b in zip(row, column)) for column in zip(*B)] for row in H]
        if all(abs(value) <= SIZE for value in flat(A) + flat(G)):
            return Request(n, t, flat(A), flat(G), 64, FULL)
    return Request(n, t, flat(A), [max(-SIZE, min(SIZE, value)) for value in flat(G)], 64, FULL)


def chain(rng, n):
    """Each row is carried by the next one: about n lists are tried, and the sums grow from row to row."""
    t = rng.randint(2, 19)
    T = 2**t
    carried = lambda: rng.choice((1, -1)) * rng.randint(T // 2, min(4 * T, SIZE // 2))
    defect = [[0] * n for _ in range(n)]
    for i in range(n):
        defect[i][i] = rng.randint(-(T // 8), T // 8)
        if i + 1 < n:
            defect[i][i + 1] = carried()
    order = rng.sample(range(n), n)
    return with_defect(rng, t, [[defect[i][j] for j in order] for i in order])


def balanced(rng, n):
    """Rows whose sums lie about T, so that it takes some lists until the weights even them out, or for ever."""
    t = rng.randint(3, 19)
    T = 2**t
    rows = []
    for _ in range(n):
        parts = [rng.random() ** 3 for _ in range(n)]
        total = T * rng.uniform(0.5, 1.4) * rng.choice((0.6, 0.9, 1))
        rows.append([rng.choice((1, -1)) * int(total * part / sum(parts)) for part in parts])
    return with_defect(rng, t, rows)


def ring(rng, n):
    """Each row is carried by itself and, near T, by the next one round: many lists are tried, or the weights never even out."""
    t = rng.randint(10, 19)
    T = 2**t
    rows = [[0] * n for _ in range(n)]
    for i, row in enumerate(rows):
        row[i] = int(T * rng.uniform(0.5, 0.99))
        row[(i + 1) % n] += int((T - row[i]) * rng.uniform(0.9, 1.1))
    return with_defect(rng, t, rows)


def net(rng, n):
    """A system with a proposal near the exact one: mostly good at once."""
    made = rng.choice((usual.levelling, usual.general, usual.small))(rng, n)
    return Request(made.n, made.t, flat(made.matrix), flat(made.inverse), 64, FULL)


def hopeless(rng, n):
    """An inverse of zeros, or one by chance."""
    t = rng.randint(0, 20)
    numbers = lambda: [rng.randint(-9, 9) for _ in range(n * n)]
    return Request(n, t, numbers(), rng.choice(([0] * (n * n), numbers())), 64, FULL)


FAMILIES = (chain, balanced, balanced, ring, ring, net, hopeless)


def searched(rng):
    size = rng.choice((1, 2, 2, 3, 3, 4, 5, 6, 8, 12)) if rng.randrange(25) else 32
    return rng.choice(FAMILIES)(rng, size)


def late(place):
    """A ring whose first good list is list 64 or 65."""
    return ring(random.Random(LATE[place]), 4)


LATE = {64: 27963, 65: 37360}
