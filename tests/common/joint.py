"""What must hold of an accepted net and one dependent on it, whatever the oracle says (02, Paper 8): "every exact solution of the two nets together
lies within both lists of limits, tolerances included". The joint systems are solved exactly, for right sides within the tolerances. Both inverses lie within
theirs."""

from common.exact import inverse_of, inverse_within, product, solution_within, within_tolerances

# A right side is in parts of this.
OVER = 6


def corner(rng, net):
    """A right side at a corner of the box of tolerances, in parts of OVER."""
    return [OVER * (b + rng.choice((-1, 1)) * d) for b, d in zip(net.right, net.tolerance)]


def inside(rng, net):
    """A right side anywhere in the box, its fractions too."""
    return [OVER * b + rng.randint(-OVER * d, OVER * d) for b, d in zip(net.right, net.tolerance)]


def right_sides(rng, pair):
    """The right sides as they are, some at corners, some inside."""
    nets = pair.main, pair.dependent
    yield [[OVER * b for b in net.right] for net in nets]
    for side in (corner, corner, corner, inside):
        yield [side(rng, net) for net in nets]


def joint_solution(pair, right1, right2):
    """(q, N1, N2) with A1·N1 = q·right1 and A2·N2 + C·N1 = q·right2, the right sides in parts of OVER; q then has OVER as a factor."""
    (q1, H1), (q2, H2) = inverse_of(pair.main.matrix), inverse_of(pair.dependent.matrix)
    N1 = [q2 * N for N in product(H1, right1)]
    N2 = product(H2, [q1 * b - cn // q2 for b, cn in zip(right2, product(pair.coupling, N1))])
    return OVER * q1 * q2, N1, N2


def solves(pair, q, N1, N2, right1, right2):
    """The two systems as one."""
    first = [OVER * value for value in product(pair.main.matrix, N1)]
    second = [OVER * (a + c) for a, c in zip(product(pair.dependent.matrix, N2), product(pair.coupling, N1))]
    return first == [q * b for b in right1] and second == [q * b for b in right2]


def faults(rng, pair, bounds):
    """What the limits of an accepted pair say wrongly."""
    if inverse_of(pair.main.matrix) is None or inverse_of(pair.dependent.matrix) is None:
        yield "accepted, though a matrix has no inverse"
        return
    for name, net, limits in (("main", pair.main, bounds.main), ("dependent", pair.dependent, bounds.dependent)):
        if not inverse_within(net, *inverse_of(net.matrix), limits.inverse):
            yield f"the exact inverse of the {name} net lies outside its limits"
    for right1, right2 in right_sides(rng, pair):
        q, N1, N2 = joint_solution(pair, right1, right2)
        if not (within_tolerances(pair.main, right1, OVER) and within_tolerances(pair.dependent, right2, OVER) and solves(pair, q, N1, N2, right1, right2)):
            yield "the joint system is not solved"
        if not solution_within(pair.main, q, N1, bounds.main.solution):
            yield "an exact height of the main net lies outside its limit"
        if not solution_within(pair.dependent, q, N2, bounds.dependent.solution):
            yield "an exact height of the dependent net lies outside its limit"
