"""Nets dependent on others, by chance (02, Paper 8): suburbs of a main net, any two systems, and pairs whose slacks, limits or residuals are at the ends."""

from operator import mul
from typing import NamedTuple

from calls.check.oracle import Bounds, check
from common.damage.lists import call_of
from common.exact import inverse_of, nearest, product
from common.generate import made
from common.net import SIZE, WHOLE, Net, frozen, net_of
from common.systems import ends, rows, usual
from common.systems.blocks import sign

RESIDUAL = 2**25


class Pair(NamedTuple):
    """A main net, a net dependent on it, and C as rows."""

    main: Net
    dependent: Net
    coupling: tuple


def solution_of(net):
    """(q, N) of a net with an inverse."""
    q, H = inverse_of(net.matrix)
    return q, product(H, net.right)


def joint_solution(main, matrix, coupling, right):
    """(q, N2) with A2·N2 = q·b2 − C·N1 for the exact N1 of the main net."""
    q1, N1 = solution_of(main)
    q2, H2 = inverse_of(matrix)
    return q1 * q2, product(H2, [q1 * b - cn for b, cn in zip(right, product(coupling, N1))])


def dependent_net(rng, main, matrix, coupling):
    """A dependent net with these numbers, with its proposal rounded to nearest steps or within one; None where it leaves its ranges."""
    exact, S = inverse_of(matrix), 2**main.s
    if exact is None or inverse_of(main.matrix) is None:
        return None
    far = max(map(abs, main.guess)) + S if rng.randrange(2) else 9 * S
    target = [rng.randint(-far, far) for _ in matrix]
    right = [nearest(cx + ax, S) for cx, ax in zip(product(coupling, main.guess), product(matrix, target))]
    if max(map(abs, right)) > WHOLE:
        return None
    q, N = joint_solution(main, matrix, coupling, right)
    rounded, t = rng.choice((usual.to_nearest, usual.within_a_step))(rng), usual.fitting_t(rng, matrix)
    guess = [rounded(S * value, q) for value in N]
    inverse = [[rounded(2**t * h, exact[0]) for h in row] for row in exact[1]]
    net = net_of(main.s, t, matrix, right, guess, inverse, usual.random_weights(rng, len(matrix)))
    return Pair(main, net, frozen(coupling)) if net.is_in_range() else None


def suburb(rng, main, n):
    """Marks of a suburb joined to each other, to the fixed mark and to marks of the main net."""
    matrix = [list(row) for row in usual.levelling_matrix(rng, n, 8)]
    coupling = [[0] * main.n for _ in range(n)]
    for _ in range(rng.choice((1, 2, n, 2 * n))):
        mark, other, weight = rng.randrange(n), rng.randrange(main.n), rng.randint(1, 8)
        matrix[mark][mark] += weight
        coupling[mark][other] -= weight
    return dependent_net(rng, main, frozen(matrix), coupling)


def any_coupling(rng, main, n):
    """Any matrix and any C, full or thin."""
    largest, filled = 2 ** rng.choice((0, 2, 6, rng.randint(0, 20))), rng.choice((1.0, 0.3, 1 / main.n))
    coupling = [[rng.randint(-largest, largest) if rng.random() < filled else 0 for _ in range(main.n)] for _ in range(n)]
    return dependent_net(rng, main, usual.general_matrix(rng, n), coupling)


def apart(rng, main, n):
    """C is all zeros."""
    return dependent_net(rng, main, usual.levelling_matrix(rng, n, 64), [[0] * main.n for _ in range(n)])


WAYS = (suburb, suburb, suburb, any_coupling, any_coupling, apart)


def bounds_of(net):
    """The limits of a net that is accepted; None for another."""
    outcome = check(call_of(net).problem())
    return outcome if isinstance(outcome, Bounds) else None


def plain_main(rng, n):
    """A main net, mostly accepted, mostly with small limits: few of its right sides have tolerances above a unit."""
    net = rng.choice((usual.levelling, usual.levelling, usual.general))(rng, n)
    way = rng.randrange(4)
    return net if way < 2 else net.with_(tolerance=[rng.choice((0, 0, 1, 3)) for _ in net.right]) if way == 2 else made(rng, usual.levelling, n)


def usual_pair(rng, n1, n2):
    return usual.repeated(lambda: rng.choice(WAYS)(rng, plain_main(rng, n1), n2))


def slack_of(pair, E1):
    """|residual| + |C|·E1 of each row, without tolerances."""
    main, net, C = pair
    S = 2**net.s
    residuals = [S * b - cx - ax for b, cx, ax in zip(net.right, product(C, main.guess), product(net.matrix, net.guess))]
    return [abs(r) + sum(abs(c) * E for c, E in zip(row, E1)) for r, row in zip(residuals, C)]


def tolerated(rng, n1, n2):
    """Tolerances of the dependent net: small, or as large as there is room, or one more in a row."""
    pair = usual_pair(rng, n1, n2)
    bounds = bounds_of(pair.main)
    if bounds is None:
        return pair
    room = [(RESIDUAL - slack) >> pair.dependent.s for slack in slack_of(pair, bounds.solution)]
    way, k = rng.randrange(3), rng.randrange(n2)
    within = lambda most: rng.randint(0, max(0, min(most, SIZE, 2 ** rng.randint(0, 20)))) if way == 0 else max(0, min(most, SIZE))
    tolerance = [within(most) for most in room]
    if way == 2 and 0 <= room[k] < SIZE:
        tolerance[k] += 1
    return pair._replace(dependent=pair.dependent.with_(tolerance=tolerance))


def shaken(rng, n1, n2):
    """A poor guess of the dependent net, which Paper 9 does not refuse, or a poor column of its inverse, which it does."""
    pair = usual_pair(rng, n1, n2)
    net = pair.dependent
    if rng.randrange(3):
        far = 2 ** rng.randint(0, 18)
        moved = net.with_(guess=[X + rng.randint(-far, far) for X in net.guess])
    else:
        i, j, far = rng.randrange(n2), rng.randrange(n2), 2 ** rng.randint(1, 6)
        moved = net.with_(inverse=[[g + (far if (k, l) == (i, j) else 0) for l, g in enumerate(row)] for k, row in enumerate(net.inverse)])
    return pair._replace(dependent=moved) if moved.is_in_range() else pair


def wide_main(rng, n):
    """A main net with limits up to 2^56 and heights near 0; n at least 2."""
    net = ends.largest_bounds(rng, n)
    q, N = solution_of(net)
    return net.with_(right=[0] * n, guess=[X - 2**net.s * value // q for X, value in zip(net.guess, N)])


def one_by_one(rng, main, coupling, residual=lambda rng: 0):
    """A dependent net whose matrix is 1 on its diagonal, in whole steps, with these rows of C and these residuals."""
    n, S, t = len(coupling), 2**main.s, rng.randint(0, 20)
    unit = [[int(i == j) for j in range(n)] for i in range(n)]
    right = [rng.randint(-9, 9) for _ in range(n)]
    guess = [S * b - cx - residual(rng) for b, cx in zip(right, product(coupling, main.guess))]
    return Pair(main, net_of(main.s, t, unit, right, guess, [[2**t * u for u in row] for row in unit], [1] * n), frozen(coupling))


def beside_wide(rng, n1, n2):
    """Limits above 2^25 in the main net: C is 0 there, in all rows or in all but one."""
    main = wide_main(rng, max(2, n1))
    coupling = [[0] * main.n for _ in range(n2)]
    if rng.randrange(2):
        coupling[rng.randrange(n2)][rng.randrange(main.n)] = sign(rng) * rng.choice((1, 1, 2, SIZE))
    return one_by_one(rng, main, coupling, lambda rng: rng.randint(-1000, 1000) if rng.randrange(2) else 0)


def wrapping_main(rng):
    """A main net of 32 equations, of which the row with the small margin has the margin 1 and sizes that sum to a multiple of 2^30; None where this one has not."""
    net = ends.largest_bounds(rng, 32)
    m, T = next(k for k, row in enumerate(net.inverse) if any(g % 2 for g in row)), 2**net.t
    sizes = [abs(T * (m == j) - sum(map(mul, net.inverse[m], column))) for j, column in enumerate(zip(*net.matrix))]
    if T * net.weights[m] - sum(map(mul, sizes, net.weights)) != 1:
        return None
    # S·d is 2^25 in as many columns with T + 2 as with T − 2.
    above, below = ([j for j, g in enumerate(net.inverse[m]) if abs(g) - T == off] for off in (2, -2))
    chosen = {j for two in zip(above, below) for j in two}
    return net.with_(s=20, right=[0] * 32, guess=[0] * 32, tolerance=[32 if j in chosen else 0 for j in range(32)])


def wrapping(rng, n1, n2):
    """|C|·E1 that is 0 in 64 bits: 16 limits that are 1,024 times a multiple of 2^30, times 2^20."""

    def attempt():
        main = wrapping_main(rng)
        far = [j for j, w in enumerate(main.weights) if w == 1024][:16] if main else []
        if len(far) < 16:
            return None
        row = [sign(rng) * SIZE if j in far else 0 for j in range(32)]
        return one_by_one(rng, main, [[0] * 32 for _ in range(n2 - 1)] + [row])

    return usual.repeated(attempt)


def at_cap(rng, n1, n2):
    """A limit of the main net at 2^25 or 2^25 + 1, or just below, and C of 1: |residual| + slack is 2^25 or one beside it, where they can be.

    Of one equation with a = 1 and an exact inverse the limit is |residual| + S·d; with T + 1 for T in the inverse it is (T + 1)/(T − 1) times as much."""
    s, is_off = rng.choice((5, 5, rng.randint(5, 20))), rng.randrange(2)
    d = (RESIDUAL >> s) - rng.choice(((4, 4, 3, 0) if s == 5 else (0, 1)) if is_off else (0, 0, 1))
    residual, right, T = rng.randint(-1, 1) if d < RESIDUAL >> s else 0, rng.randint(-9, 9), 2**19
    main = net_of(s, 19, [[1]], [right], [2**s * right - residual], [[T + is_off]], [rng.randint(1, 1024)]).with_(tolerance=[d])
    beyond = RESIDUAL + rng.choice((-1, 0, 0, 1)) - bounds_of(main).solution[0]
    coupling = [[0] for _ in range(n2)]
    coupling[rng.randrange(n2)] = [sign(rng)]
    return one_by_one(rng, main, coupling, lambda rng: sign(rng) * max(0, beyond))


def several_main(rng, n1, n2):
    """Failing margins, residuals and columns in the main net."""
    main = ends.several(rng, n1)
    return one_by_one(rng, main, [[rng.choice((0, 0, 1)) for _ in range(main.n)] for _ in range(n2)])


def several(rng, n1, n2):
    """Failing margins, residuals and columns in the dependent net, and a column at the sums along its rows; C is 0 in all but a row."""

    def attempt():
        net = ends.several(rng, n2) if rng.randrange(3) else rows.near_column_sums(rng, n2)
        matrix = usual.levelling_matrix(rng, n1, 4)
        main = usual.proposal(rng, matrix, net.s, usual.fitting_t(rng, matrix), usual.fitting_right(rng, matrix, net.s), [1] * n1)
        coupling = [[0] * n1 for _ in range(net.n)]
        coupling[rng.randrange(net.n)][rng.randrange(n1)] = rng.choice((0, 0, 1))
        return main and Pair(main, net, frozen(coupling))

    return usual.repeated(attempt)


def any_n(rng):
    return rng.choice((1, 1, 2, 3, rng.randint(1, 8), rng.randint(1, 12), rng.randint(9, 32), 32))


# How many pairs of 32, and of which kind.
FAMILIES = (
    (12, usual_pair),
    (7, tolerated),
    (5, shaken),
    (3, beside_wide),
    (1, wrapping),
    (2, at_cap),
    (1, several_main),
    (1, several),
)
TABLE = tuple(make for share, make in FAMILIES for _ in range(share))


def pair_of(rng, index):
    """The name of a family, and a pair of it."""
    make = TABLE[index * 7 % len(TABLE)]
    return make.__name__, make(rng, any_n(rng), any_n(rng))
