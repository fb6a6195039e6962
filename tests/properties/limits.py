"""Sentences of limits: document 01's demands, and document 02, Papers 2, 5, 10, 11 and 12, with the factor of the header."""

from fractions import Fraction

from common.exact import product
from exact import corners, is_within
from given import outcome, sentence
from nets import changed


@sentence("is_solved")
def exact_solution_is_within_limits(given):
    """Paper 5: "An accepted limit then holds for the exact solution of every right side, in fractions, that differs from b by at most d in each place"."""
    (q, H), proposal = given.exact, given.proposal
    return all(is_within(2**proposal.s, q, product(H, right), proposal.guess, given.checked.solution) for right in corners(proposal.net, H))


@sentence("is_accepted")
def exact_inverse_is_within_limits(given):
    """01: "Its number H_ij lies within the limit L of its place if |T·H_ij − q·G_ij| is at most q·L"; Paper 12: "for every accepted problem .. the matrix has
    an inverse on both sides"."""
    if given.exact is None:
        return False
    (q, H), proposal = given.exact, given.proposal
    return all(is_within(2**proposal.t, q, *rows) for rows in zip(H, proposal.inverse, given.checked.inverse))


def is_rounded(given):
    """Whether a proposal is rounded to nearest steps, in range, with weights 1 and no tolerances."""
    (q, H), proposal = given.exact, given.proposal
    if any(proposal.net.tolerance) or set(proposal.weights) != {1} or not given.is_in_range:
        return False
    halves = [Fraction(1, 2)] * proposal.net.n
    is_near = is_within(2**proposal.s, q, product(H, proposal.net.right), proposal.guess, halves)
    return is_near and all(is_within(2**proposal.t, q, row, G, halves) for row, G in zip(H, proposal.inverse))


@sentence()
def rounded_exact_proposal_is_accepted(given):
    """01: "Rounded to nearest steps": such a proposal, with all tolerances 0, weights 1 and Σ|A_ij| < 2T, is accepted, and with 3·Σ|A_ij| ≤ 2T its limits are
    0 or 1 (docs/FORMAT.md)."""
    twice, sizes = 2 ** (given.proposal.t + 1), sum(abs(a) for row in given.proposal.net.matrix for a in row)
    if given.exact is None or sizes >= twice or not is_rounded(given):
        return None
    return given.is_accepted and (3 * sizes > twice or max(given.checked.solution + [L for row in given.checked.inverse for L in row]) <= 1)


@sentence()
def half_is_the_square_entry(given):
    """Paper 10: "its outcome for every input equals that of the square entry on the filled-out matrix, refusals and written limits included"."""
    matrix = given.proposal.net.matrix
    half = changed(given.proposal, matrix=[row[: i + 1] for i, row in enumerate(matrix)])
    filled = changed(given.proposal, matrix=half.net.filled_out().matrix)
    square = given.checked if filled.net.matrix == matrix else outcome(given.calls.check, filled)
    return outcome(given.calls.check_half, half) == square


@sentence("is_solved")
def exact_height_is_between_the_doubles(given):
    """Paper 11: "Where X and E are guess and limit of an accepted check, the exact height lies between them"."""
    (q, H), proposal = given.exact, given.proposal
    ends = [(Fraction(low) * q, Fraction(high) * q) for low, high in given.calls.intervals(proposal.guess, given.checked.solution, proposal.s)]
    return all(low <= N <= high for right in corners(proposal.net, H) for N, (low, high) in zip(product(H, right), ends))


@sentence("is_solved")
def exact_height_is_within_the_entry(given):
    """Paper 2: "The exact height is to be shown within the entry limit of the entry, as it is of the guess"."""
    (q, H), proposal = given.exact, given.proposal
    values, limits = zip(*[given.calls.entry(X, E, proposal.s) for X, E in zip(proposal.guess, given.checked.solution)])
    return all(is_within(1, q, product(H, right), values, limits) for right in corners(proposal.net, H))


@sentence("is_solved")
def limits_are_never_far_above_an_error(given):
    """The header: "there are heights, exact for a right side within the tolerances, and among them one such that each limit is at most the factor times that
    height's true error, times the ratio of the two weights, rounded up"."""
    (q, H), proposal = given.exact, given.proposal
    net, w = proposal.net, proposal.weights
    up, down = given.calls.quality(proposal)
    rights = [net.right] + [[b + sign * (d if g > 0 else -d) for b, d, g in zip(net.right, net.tolerance, G)] for G in proposal.inverse for sign in (1, -1)]
    errors = lambda right: [abs(2**proposal.s * N - q * X) for N, X in zip(product(H, right), proposal.guess)]
    return any(not_far(given.checked.solution, w, up, down * q, errors(right)) for right in (rights if any(net.tolerance) else rights[:1]))


def not_far(limits, weights, up, down, errors):
    """Whether, for an error, each limit is at most up/down times it, times the ratio of the two weights, rounded up."""
    return any(all(not E or (E - 1) * down * weights[m] < up * error * w for E, w in zip(limits, weights)) for m, error in enumerate(errors))
