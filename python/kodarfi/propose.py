"""A solver: heights, inverse and weights for a net by floating point. Not proved, and it need not be: the checker takes nothing on trust from whoever
proposes. A poor proposal gets a refusal, never a wrong limit."""

from typing import Callable, List, Optional

from .calls import check, check_dependent, entry, find_weights
from .nets import Limits, Net, Proposal, Refused, Rows

LARGEST_INVERSE, LARGEST_GUESS, LARGEST_RESIDUAL, LARGEST_WEIGHT = 2**20, 2**36, 2**25, 1024
FINEST_S, FINEST_T = 10, 20


class NoInverse(ValueError):
    """Equations that leave a height open."""


def inverse_of(matrix: Rows) -> List[List[float]]:
    """Gauss and Jordan, with the largest pivot of each column."""
    n = len(matrix)
    rows = [[float(a) for a in row] + [float(i == j) for j in range(n)] for i, row in enumerate(matrix)]
    smallest = 1e-9 * max((abs(a) for row in matrix for a in row), default=0)
    for column in range(n):
        pivot = max(range(column, n), key=lambda i: abs(rows[i][column]))
        if abs(rows[pivot][column]) <= smallest:
            raise NoInverse("the equations leave a height open: some marks are joined to no mark of known height")
        rows[column], rows[pivot] = rows[pivot], rows[column]
        rows[column] = [a / rows[column][column] for a in rows[column]]
        for i in range(n):
            if i != column and rows[i][column]:
                factor = rows[i][column]
                rows[i] = [a - factor * p for a, p in zip(rows[i], rows[column])]
    return [row[n:] for row in rows]


def _finest(finest: int, largest: float, most: float) -> int:
    """The finest scale at which the largest number, in steps, stays within a range."""
    return max((scale for scale in range(finest + 1) if largest * 2**scale <= most), default=0)


def _residual(matrix: Rows, base: List[int], guess: List[int]) -> List[int]:
    return [b - sum(a * X for a, X in zip(row, guess)) for row, b in zip(matrix, base)]


def _guess(matrix: Rows, base: List[int], inverse: List[List[float]]) -> List[int]:
    """The solution of A * X = base in whole steps, once corrected by its exact residual."""
    guess = [round(sum(h * b for h, b in zip(row, base))) for row in inverse]
    residual = _residual(matrix, base, guess)
    return [X + round(sum(h * r for h, r in zip(row, residual))) for X, row in zip(guess, inverse)]


def _sizes(inverse: Rows, residual: List[int], slack: List[int]) -> List[int]:
    """About how far each height can lie from its guess: |p_i| and the sum of |G_ij| times the slack of row j, in parts of a step."""
    return [abs(sum(g * r for g, r in zip(row, residual))) + sum(abs(g) * one for g, one in zip(row, slack)) for row in inverse]


def _in_proportion(numbers: List[int]) -> List[int]:
    """Weights from 1 to 1,024 in proportion to numbers."""
    largest = max(numbers)
    return [max(1, -(-LARGEST_WEIGHT * number // largest)) for number in numbers] if largest else [1] * len(numbers)


def _entry_limits(proposal: Proposal, checked: Callable[[Proposal], Limits]) -> Optional[int]:
    """The entry limits of a proposal, summed, by the library; None where it is refused."""
    try:
        limits = checked(proposal)
    except Refused:
        return None
    return sum(entry(X, E, proposal.s).limit for X, E in zip(proposal.guess, limits.solution))


def _weighted(proposal: Proposal, sizes: List[int], checked: Callable[[Proposal], Limits]) -> Proposal:
    """The proposal with weights of 1 or in proportion to how far each height can lie from its guess, whichever the library gives the smaller entry limits
    in sum; where it refuses both, with weights that the library finds, if it finds any."""
    changed = lambda weights: Proposal(proposal.net, proposal.s, proposal.t, proposal.guess, proposal.inverse, weights)
    both = proposal, changed(_in_proportion(sizes))
    tried = [(limits, at, one) for at, one in enumerate(both) for limits in [_entry_limits(one, checked)] if limits is not None]
    if tried:
        return min(tried)[2]
    try:
        return changed(find_weights(proposal.net.matrix, proposal.inverse, proposal.t).weights)
    except Refused:
        return proposal


def _proposed(net: Net, s: int, inverse: List[List[float]], base: List[int], slack: List[int], checked: Callable[[Proposal], Limits]) -> Proposal:
    """A proposal for A * X = base, in steps, with the finest inverse steps that fit; `checked` gives the limits of one."""
    t = _finest(FINEST_T, max(abs(h) for row in inverse for h in row), LARGEST_INVERSE)
    guess = _guess(net.matrix, base, inverse)
    proposal = Proposal(net, s, t, guess, [[round(h * 2**t) for h in row] for row in inverse])
    return _weighted(proposal, _sizes(proposal.inverse, _residual(net.matrix, base, guess), slack), checked)


def propose(net: Net, finest_s: int = FINEST_S) -> Proposal:
    """A proposal for a net: the finest inverse steps that fit, solution steps as fine as 1/2^finest_s of a unit where tolerances and heights leave room, and
    weights that make the limits small. Raises NoInverse where the equations leave a height open."""
    net = net.filled_out()
    inverse = inverse_of(net.matrix)
    heights = [sum(h * b for h, b in zip(row, net.right)) for row in inverse]
    rounding = max(sum(map(abs, row)) for row in net.matrix)
    fits = _finest(finest_s, max(map(abs, heights)), LARGEST_GUESS)
    s = _finest(fits, max(net.tolerance), LARGEST_RESIDUAL - rounding)
    return _proposed(net, s, inverse, [2**s * b for b in net.right], [2**s * d for d in net.tolerance], check)


def propose_dependent(main: Proposal, limits: Limits, net: Net, coupling: Rows) -> Proposal:
    """A proposal for a net that hangs from an accepted one, in the main net's solution steps: A2 * X2 = S * b2 - C * X1, and the slack of its rows is
    |C| * E1 + S * d2 (Paper 8). `limits` are the main net's. Raises NoInverse as propose does."""
    S = 2**main.s
    base = [S * b - sum(c * X for c, X in zip(row, main.guess)) for b, row in zip(net.right, coupling)]
    slack = [S * d + sum(abs(c) * E for c, E in zip(row, limits.solution)) for d, row in zip(net.tolerance, coupling)]
    return _proposed(net, main.s, inverse_of(net.matrix), base, slack, lambda proposal: check_dependent(main, proposal, coupling)[1])
