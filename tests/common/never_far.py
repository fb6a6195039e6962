"""How good limits are, of any accepted listing, in exact fractions: no limit is far above a true error, rounded proposals have limits of 0 or 1, and a limit
of 0 means that the guess, or the column, is exact.

With tolerances there is a right side at a corner of their box that brings such an error: each number is moved by its tolerance, in the direction in which G
takes the row that decides the limits farther."""

from fractions import Fraction
from math import ceil

from calls.check.oracle import Reckoning
from calls.quality.oracle import Inquiry, Quality
from common.damage.lists import call_of
from common.exact import is_rounded_exact, product, size_sum
from common.net import flat

FAR = "a limit is above the factor times every true error"
FAR_COLUMN = "a limit of the inverse is above the factor times every true error of its column"
ROUNDED = "a limit is above 1, though the proposal is rounded to nearest steps and 3·Σ|A| is at most 2T"
ZERO = "a limit is 0, though the guess is not exact, a right side has a tolerance or another limit is not 0"
ZERO_COLUMN = "a limit of the inverse is 0, though its column is not exact or another limit of it is not 0"
EXACT = "a limit is above 0, though the guess is exact and no right side has a tolerance"
EXACT_COLUMN = "a limit of the inverse is above 0, though its column is exact"


def factor_of(net):
    """The least factor of a proposal whose margins are above 0."""
    return Fraction(*Quality().chosen(Quality().rows(Inquiry(net.n, net.t, flat(net.matrix), flat(net.inverse), list(net.weights)))))


def sign(number):
    return -1 if number < 0 else 1


def corner(net):
    """The right side of which the limits are never far above a true error."""
    reckoning = Reckoning()
    system = reckoning.system(call_of(net).problem())
    residuals, margins = reckoning.guess_residual(system), reckoning.margins(system)
    sizes = reckoning.sizes(system, residuals, reckoning.slacks(system))
    row = net.inverse[max(range(net.n), key=lambda m: Fraction(sizes[m], margins[m]))]
    p = sum(g * r for g, r in zip(row, residuals))
    return [b + sign(p) * sign(g) * d for b, g, d in zip(net.right, row, net.tolerance)]


def solution_errors(net, q, H, right):
    """The true errors in solution steps, for the exact solution of this right side."""
    return [abs(Fraction(2**net.s * N, q) - X) for N, X in zip(product(H, right), net.guess)]


def column_errors(net, q, H):
    """The true errors of the inverse in inverse steps, column after column."""
    return [[abs(Fraction(2**net.t * h, q) - g) for h, g in zip(*columns)] for columns in zip(zip(*H), zip(*net.inverse))]


def never_far(net, factor, errors, limits):
    """Each limit is at most the factor times one true error, by the ratio of the weights, rounded up."""
    farthest = max(error / w for error, w in zip(errors, net.weights))
    return all(limit <= ceil(factor * w * farthest) for limit, w in zip(limits, net.weights))


def statements(net, q, H, E, L):
    """Sentences that say what is wrong, each with whether all is well, of an accepted proposal with the limits E, and L row after row."""
    factor, tolerant = factor_of(net), any(net.tolerance)
    errors, columns = solution_errors(net, q, H, net.right), column_errors(net, q, H)
    by_columns = list(zip(*L))
    yield FAR, never_far(net, factor, solution_errors(net, q, H, corner(net)) if tolerant else errors, E)
    yield FAR_COLUMN, all(never_far(net, factor, *column) for column in zip(columns, by_columns))
    is_fine = 3 * size_sum(net) <= 2 * 2**net.t and is_rounded_exact(net)
    yield ROUNDED, not is_fine or max(E + flat(L)) <= 1
    yield ZERO, min(E) > 0 or not (any(errors) or tolerant or any(E))
    yield ZERO_COLUMN, all(min(limits) > 0 or not (any(column) or any(limits)) for column, limits in zip(columns, by_columns))
    yield EXACT, any(errors) or tolerant or not any(E)
    yield EXACT_COLUMN, all(any(column) or not any(limits) for column, limits in zip(columns, by_columns))
