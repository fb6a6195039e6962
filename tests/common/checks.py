"""What must hold of a printed listing whatever the oracle says: document 01's exact solution and inverse, the exact height and the entry, for every right
side within the tolerances (02, Paper 5), in whole numbers over q; residuals within the sums along their rows (Paper 9); and limits that are never far above a
true error (never_far.py)."""

import random
import re
from fractions import Fraction

from common.exact import inverse_of, inverse_within, is_exact_inverse, is_rounded_exact, product, solution_over, solution_within, within_tolerances
from common.net import net_of
from common.never_far import statements as how_good

SOLUTION = re.compile(rb"\(solution \d+ \((-?\d+) (\d+)\)\)")
ENTRY = re.compile(rb"\(entry \d+ \((-?\d+) (\d+)\)\)")
INVERSE = re.compile(rb"\(inverse \d+ \(([\d ]+)\)\)")
PLACES = re.compile(rb"\(refused ([67]) \((\d+)")


def net_from(problem):
    """A loaded problem as a net."""
    n = problem.n
    rows = lambda numbers: [numbers[i * n : i * n + n] for i in range(n)]
    lists = rows(problem.matrix), problem.right[:n], problem.guess[:n], rows(problem.inverse), problem.weights[:n]
    return net_of(problem.s, problem.t, *lists).with_(tolerance=problem.tolerance[:n])


def is_accepted(listing):
    return listing.startswith(b"(bounds ")


def faults(net, listing):
    """What a listing says wrongly of a problem."""
    if not is_accepted(listing):
        refused = ["refused, though rounded to nearest steps"] if is_rounded_exact(net) else []
        return refused + near_faults(net, PLACES.match(listing))
    exact = inverse_of(net.matrix)
    if exact is None:
        return ["accepted, though the matrix has no inverse"]
    q, H = exact
    return [text for text, holds in statements(net, q, H, listing) if not holds]


def near_faults(net, refused):
    """02, Paper 9: "a guess within one step of the exact solution everywhere always meets this": no 6 for a row without tolerance, nor 7 for such a column."""
    exact = inverse_of(net.matrix) if refused else None
    if exact is None:
        return []
    (q, H), place = exact, int(refused.group(2)) - 1
    if refused.group(1) == b"6":
        near = net.tolerance[place] == 0 and solution_within(net, q, product(H, net.right), [1] * net.n)
        return ["refused with 6, though the guess is within a step"] if near else []
    near = all(abs(2**net.t * h[place] - q * g[place]) <= q for h, g in zip(H, net.inverse))
    return ["refused with 7, though the column is within a step"] if near else []


def limits_in(listing):
    """The solution limits of a report."""
    return [int(limit) for _, limit in SOLUTION.findall(listing)]


def inverse_limits_in(listing):
    return [[int(limit) for limit in row.split()] for row in INVERSE.findall(listing)]


def entries_in(listing):
    """Each entry of a report with its limit."""
    return [(int(V), int(limit)) for V, limit in ENTRY.findall(listing)]


def statements(net, q, H, listing):
    """Sentences that say what is wrong, each with whether all is well."""
    E, entries = limits_in(listing), entries_in(listing)
    L = inverse_limits_in(listing)
    yield "the elimination is wrong", net.n > 8 or is_exact_inverse(net.matrix, q, H)
    yield "not n limits and n × n limits", len(E) == net.n and [len(row) for row in L] == [net.n] * net.n
    yield "the exact solution lies outside its limits", solution_within(net, q, product(H, net.right), E)
    yield "the exact inverse lies outside its limits", inverse_within(net, q, H, L)
    yield "a residual is above the sum along its row", residuals_within_rows(net)
    yield "not n entries", len(entries) == net.n
    yield "an entry is not the guess rounded", all(is_rounded(X, 2**net.s, V) for X, (V, _) in zip(net.guess, entries))
    yield "an exact height lies outside the limit of its entry", entries_cover(q, product(H, net.right), entries)
    yield "the limit of an entry is not the least", all(is_least(X, bound, 2**net.s, *entry) for X, bound, entry in zip(net.guess, E, entries))
    rights = list(right_sides(net, H))
    others = [solution_over(q, H, *right) for right in rights]
    yield "a right side is not within the tolerances", all(within_tolerances(net, *right) for right in rights)
    yield "the exact solution of a right side within the tolerances lies outside its limits", all(solution_within(net, *other, E) for other in others)
    yield "the exact height of a right side within the tolerances lies outside the limit of its entry", all(entries_cover(*other, entries) for other in others)
    yield from how_good(net, q, H, E, L)


def residuals_within_rows(net):
    """02, Paper 9: "the residual of row m, without slack, may be at most the sum of |a| along that row, for the guess and for inverse columns"."""
    sums = [sum(map(abs, row)) for row in net.matrix]
    unit = lambda j: [2**net.t * (i == j) for i in range(net.n)]
    pairs = [([2**net.s * b for b in net.right], net.guess)] + [(unit(j), column) for j, column in enumerate(zip(*net.inverse))]
    return all(abs(b - ax) <= most for right, guess in pairs for b, ax, most in zip(right, product(net.matrix, guess), sums))


# So many right sides inside the box of tolerances, and at corners of it by chance.
INSIDE = CORNERS = 3


def right_sides(net, H):
    """Right sides β over ρ within the tolerances, in fractions: for each height the two corners of the box that move it the farthest, corners by
    chance, and right sides inside the box. None where no right side has a tolerance."""
    if not any(net.tolerance):
        return
    rng = random.Random(str(net.right + net.tolerance))
    farthest = [[(h > 0) - (h < 0) for h in row] for row in H] + [[(h < 0) - (h > 0) for h in row] for row in H]
    for signs in farthest + [[rng.choice((1, -1)) for _ in net.right] for _ in range(CORNERS)]:
        yield [b + sign * d for b, sign, d in zip(net.right, signs, net.tolerance)], 1
    for _ in range(INSIDE):
        over = rng.randint(2, 999)
        yield [over * b + rng.randint(-over * d, over * d) for b, d in zip(net.right, net.tolerance)], over


def is_rounded(X, S, V):
    """01: V is X/S rounded to a whole unit, halves away from zero."""
    return 2 * abs(X - S * V) < S or (2 * abs(X - S * V) == S and abs(S * V) > abs(X))


def entries_cover(q, N, entries):
    """02, Paper 2: "The exact height is to be shown within the entry limit of the entry"."""
    return all(abs(N_i - q * V) <= q * limit for N_i, (V, limit) in zip(N, entries))


def is_least(X, bound, S, V, limit):
    """Some fraction within `bound` steps of the guess lies (bound + |X − S·V|)/S from V: the limit covers that and no smaller one does."""
    farthest = max(abs(Fraction(end, S) - V) for end in (X - bound, X + bound))
    return limit - 1 < farthest <= limit
