"""Exact solutions and inverses in whole numbers, and document 01's statements about them."""

from functools import lru_cache
from itertools import product as choices
from operator import mul


@lru_cache(maxsize=64)
def inverse_of(matrix):
    """(q, H) with A·H = q·I and H·A = q·I, q at least 1, for a matrix given as a tuple of tuples; None where there is none.

    Elimination without fractions, in place: each division by the last pivot leaves no remainder. A row begins with the column in work, and ends with the columns
    of the inverse that are done; a row exchanged for another is a column of the inverse exchanged."""
    n = len(matrix)
    rows, order = list(matrix), list(range(n))
    last = 1
    for k in range(n):
        found = next((i for i in range(k, n) if rows[i][0]), None)
        if found is None:
            return None
        rows[k], rows[found] = rows[found], rows[k]
        order[k], order[found] = order[found], order[k]
        pivot, *pivot_row = rows[k]
        for i, (factor, *row) in enumerate(rows):
            rows[i] = [(pivot * x - factor * y) // last for x, y in zip(row, pivot_row)] if factor else [pivot * x // last for x in row]
            rows[i].append(-factor)
        rows[k] = [*pivot_row, last]
        last = pivot
    sign = 1 if last > 0 else -1
    places = [order.index(j) for j in range(n)]
    return sign * last, tuple(tuple(sign * row[place] for place in places) for row in rows)


def product(matrix, vector):
    return [sum(map(mul, row, vector)) for row in matrix]


def is_exact_inverse(matrix, q, H):
    """A·H = q·I, one column after another."""
    columns = zip(*H)
    return all(
        product(matrix, column) == [q * (i == j) for i in range(len(matrix))] for j, column in enumerate(columns)
    )


def nearest(numerator, denominator, up=True):
    """A nearest whole number to a fraction; at a half the upper neighbour, or the lower one."""
    doubled = 2 * numerator + denominator
    whole, rest = divmod(doubled, 2 * denominator)
    return whole if rest or up else whole - 1


def solution_within(net, q, N, bounds):
    """01: It lies within limit E_i if |S·N_i − q·X_i| is at most q·E_i."""
    S = 2**net.s
    return all(abs(S * N_i - q * X) <= q * E for N_i, X, E in zip(N, net.guess, bounds))


def within_tolerances(net, right, over):
    """02, Paper 5: "every right side, in fractions, that differs from b by at most d in each place": |β_k − ρ·b_k| is at most ρ·d_k."""
    return over >= 1 and all(abs(beta - over * b) <= over * d for beta, b, d in zip(right, net.right, net.tolerance))


def solution_over(q, H, right, over):
    """(ρ·q, N) with ρ·A·N = ρ·q·β, for the right side β over ρ."""
    return over * q, product(H, right)


def inverse_within(net, q, H, bounds):
    """01: Its number H_ij lies within the limit L of its place if |T·H_ij − q·G_ij| is at most q·L."""
    T = 2**net.t
    return all(
        abs(T * h - q * g) <= q * limit
        for H_row, G_row, limits in zip(H, net.inverse, bounds)
        for h, g, limit in zip(H_row, G_row, limits)
    )


def is_rounded_exact(net):
    """The second half of demand 3: weights 1, the sizes |A_ij| with a sum below 2T, guess and inverse rounded to nearest steps; 02, Paper 5: it "now
    presumes that all d are 0"."""
    if any(w != 1 for w in net.weights) or any(net.tolerance) or size_sum(net) >= 2 * 2**net.t:
        return False
    exact = inverse_of(net.matrix)
    if exact is None:
        return False
    q, H = exact
    S, T = 2**net.s, 2**net.t
    N = product(H, net.right)
    return all(2 * abs(S * N_i - q * X) <= q for N_i, X in zip(N, net.guess)) and all(
        2 * abs(T * h - q * g) <= q for H_row, G_row in zip(H, net.inverse) for h, g in zip(H_row, G_row)
    )


def size_sum(net):
    """The sum of |A_ij| over all i and j."""
    return sum(abs(a) for row in net.matrix for a in row)


def corners(rng, net):
    """Right sides at the corners of the tolerances and inside them, over a denominator."""
    most = [[-d, d] if d else [0] for d in net.tolerance]
    chosen = list(choices(*most)) if net.n <= 4 else [tuple(map(rng.choice, most)) for _ in range(8)]
    for moves in chosen:
        yield [b + move for b, move in zip(net.right, moves)], 1
    yield [7 * b + rng.randint(-7 * d, 7 * d) for b, d in zip(net.right, net.tolerance)], 7
