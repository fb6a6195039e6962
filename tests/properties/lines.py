"""Sentences of field lines and of weights that the program finds, and of the way from there to common intervals: document 02, Papers 3, 7, 10, 11 and 13."""

from given import No, outcome, sentence
from kodarfi import Common, Found, Limits, Net
from nets import changed


@sentence("has_lines")
def copy_of_a_line_changes_nothing(given):
    """Paper 3: "in a list that builds, repeating any line anywhere changes nothing while the list stays at most 256 long"."""
    n, lines, rng = given.proposal.net.n, given.case.lines, given.case.chance("copy")
    at = rng.randint(0, len(lines))
    return given.calls.build(n, lines[:at] + [rng.choice(lines)] + lines[at:]) == given.calls.build(n, lines)


@sentence("has_lines")
def order_of_lines_changes_nothing(given):
    """Paper 3: "The builder .. fills matrix and right side from zero. A line adds its weight ..": sums, whatever the order; "a key met again with equal
    contents counts once"."""
    n, lines = given.proposal.net.n, given.case.lines
    other = list(lines)
    given.case.chance("order").shuffle(other)
    return given.calls.build(n, other) == given.calls.build(n, lines)


@sentence("has_lines")
def half_builder_is_the_builder(given):
    """Paper 10: "The builder of Paper 3 gains the same form": row i and column j, j up to i, of the same matrix, and the same right side."""
    n, lines = given.proposal.net.n, given.case.lines
    square = given.calls.build(n, lines)
    return given.calls.build_half(n, lines) == Net([row[: i + 1] for i, row in enumerate(square.matrix)], square.right)


@sentence("is_in_range")
def nets_lead_to_common_intervals(given):
    """Papers 3, 7, 11 and 13 one after the other: field lines, of a net that has them, build its equations; "What it returns always has every margin above 0";
    guess and limits of an accepted check go out as doubles; and with itself it has "each height's common interval", or "new 21, if a solution limit is above
    2^36"."""
    calls, net = given.calls, given.proposal.net
    if given.case.lines and calls.build(net.n, given.case.lines) != Net(net.matrix, net.right):
        return False
    found = outcome(calls.find_weights, net.matrix, given.proposal.inverse, given.proposal.t, 64)
    if not isinstance(found, Found):
        return None if found == No(18) else False
    mine = changed(given.proposal, weights=found.weights)
    limits = outcome(calls.check, mine)
    return goes_out(calls, mine, limits.solution) if isinstance(limits, Limits) else limits.number in (6, 7)


def goes_out(calls, proposal, limits):
    """Whether the limits of a proposal go out as doubles, and as the common intervals of the proposal with itself."""
    ends, S = [(X - E, X + E) for X, E in zip(proposal.guess, limits)], 2**proposal.s
    doubles, common = calls.intervals(proposal.guess, limits, proposal.s), outcome(calls.common, proposal, proposal)
    inside = len(doubles) == len(ends) and all(low * S <= down and up <= high * S for (low, high), (down, up) in zip(doubles, ends))
    return inside and common == (No(21) if max(limits) > 2**36 else Common(proposal.s, ends))


@sentence()
def larger_allowance_finds_the_same_list(given):
    """Paper 7: "a larger allowance never changes a list already found"."""
    proposal, small = given.proposal, given.case.chance("allowance").randint(1, 63)
    find = lambda allowance: outcome(given.calls.find_weights, proposal.net.matrix, proposal.inverse, proposal.t, allowance)
    found = find(small)
    return found == find(64) if isinstance(found, Found) else None
