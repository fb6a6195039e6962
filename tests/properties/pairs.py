"""Sentences of two nets, the second dependent on the first, and of two proposals for the same net: document 02, Papers 8 and 13."""

from common.exact import product
from exact import corners, is_within
from given import No, outcome, sentence
from kodarfi import Limits
from nets import proposed


@sentence("is_solved")
def common_interval_contains_the_height(given):
    """Paper 13: "It contains the exact height for every right side within the tolerance, and its lower end is never above its upper"."""
    net = given.proposal.net
    second = proposed(given.case.chance("second"), net, given.exact, tolerance=net.tolerance)
    common = outcome(given.calls.common, given.proposal, second)
    if isinstance(common, No):
        return None if common.net == 2 or common == No(21) else False
    q, H = given.exact
    inside = lambda N: all(q * low <= N_i << common.s <= q * high for N_i, (low, high) in zip(N, common.intervals))
    return all(low <= high for low, high in common.intervals) and all(inside(product(H, right)) for right in corners(net, H))


@sentence("hangs")
def dependent_net_without_coupling_is_its_own_check(given):
    """Papers 8 and 9: "then the hung net in the usual order"; with C = 0 its residual and slack are those of its own check, but "The heights of a hung net keep
    Paper 8's test only; its inverse columns take the new condition"."""
    dependent = given.dependent[0]
    checked = outcome(given.calls.check, dependent)
    zero = [[0] * given.proposal.net.n for _ in range(dependent.net.n)]
    both = outcome(given.calls.check_dependent, given.proposal, dependent, zero)
    if isinstance(checked, Limits):
        return both == (given.checked, checked)
    if checked.number != 6:
        return both == checked._replace(net=2)
    S, equations = 2**dependent.s, dependent.net
    sizes = [abs(S * b - ax) + S * d for b, ax, d in zip(equations.right, product(equations.matrix, dependent.guess), equations.tolerance)]
    above = next((row for row, size in enumerate(sizes, 1) if size > 2**25), None)
    return both == No(6, (above, 0), net=2) if above else not isinstance(both, No) or both.number == 7


@sentence("hangs")
def heights_of_both_nets_are_within_limits(given):
    """Paper 8: "Acceptance of both must show that every exact solution of the two nets together lies within both lists of limits, tolerances included"."""
    dependent, coupling, exact = given.dependent
    both = outcome(given.calls.check_dependent, given.proposal, dependent, coupling)
    if isinstance(both, No):
        return None
    (q1, H1), (q2, H2), main = given.exact, exact, given.proposal
    # u1 = N1/q1, and u2 = H2·(q1·b2 − C·N1) / (q1·q2)
    heights = lambda N1, b2: product(H2, [q1 * b - c for b, c in zip(b2, product(coupling, N1))])
    holds = lambda N1: is_within(2**main.s, q1, N1, main.guess, both[0].solution) and all(
        is_within(2**dependent.s, q1 * q2, heights(N1, b2), dependent.guess, both[1].solution) for b2 in corners(dependent.net, H2)
    )
    return all(holds(product(H1, right)) for right in corners(main.net, H1))
