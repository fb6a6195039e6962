"""Mutants of the check of a net and one dependent on it, by name. Each breaks one rule of 02's Paper 8 or 9."""

from functools import partial

from calls.check.oracle import FULL, MATRIX, Bounds, Reckoning, check, times
from calls.dependent.oracle import DEPENDENT, MAIN, DependentCheck, DependentReckoning, NetRefusal, PairBounds
from common.rules import Refusal
from common.suite import mutant

CAP = 2**25


whole = partial(mutant, DependentCheck)


def dependent(**parts):
    """A check whose reckoning of the dependent net has these parts."""
    return whole(reckoning=type("Mutant", (DependentReckoning,), parts))


def slacked(term):
    """The slack of a row is the sum over its C and E1 of this term, and the tolerance's."""
    return dependent(slacks=lambda self, system: [sum(map(term, row, self.E1)) + slack for row, slack in zip(self.C, Reckoning.slacks(self, system))])


def sided(rule):
    """The residual of a row is rule(S·b − A·X, C·X1, S)."""
    residuals = lambda self, system: [rule(r, cx, system.S) for r, cx in zip(Reckoning.guess_residual(self, system), times(self.C, self.X1))]
    return dependent(guess_residual=residuals)


def placed(place):
    """Row i, column j of C, both from 0, is read at place(i, j, n1, n2)."""

    def rows(self, nets):
        n1, n2 = nets.main.n, nets.dependent.n
        at = lambda k: nets.coupling[k] if k < MATRIX and abs(nets.coupling[k]) <= 2**20 else 0
        return [[at(place(i, j, n1, n2)) for j in range(n1)] for i in range(n2)]

    return whole(rows=rows)


def answered(rule):
    """A check whose answer is rule(nets, lengths, what is right)."""
    return whole(check=lambda self, nets, lengths=None: rule(nets, lengths, DependentCheck().check(nets, lengths)))


def refused_as(rule):
    """A check that changes a refusal of the dependent net by rule(net, refusal)."""
    return answered(lambda nets, lengths, right: rule(*right) if isinstance(right, NetRefusal) else right)


def capped_limits(nets, lengths, right):
    """The main net's limits at most 2^25 + 1."""
    if isinstance(right, NetRefusal):
        return right
    return right._replace(main=right.main._replace(solution=[min(E, CAP + 1) for E in right.main.solution]))


def lists_first(nets, lengths, right):
    """8 of either net before anything else."""
    main = check(nets.main, lengths.main)
    if main != Refusal(8) and DependentCheck().is_short(lengths):
        return NetRefusal(DEPENDENT, Refusal(8))
    return right


def ranges_first(nets, lengths, right):
    """The dependent net's 8 and 3 before the main net's 5, 6 and 7."""
    if right.__class__ is NetRefusal and right.net == MAIN and right.refusal.number in (5, 6, 7):
        if DependentCheck().is_short(lengths):
            return NetRefusal(DEPENDENT, Refusal(8))
        if not DependentCheck().is_in_range(nets):
            return NetRefusal(DEPENDENT, Refusal(3))
    return right


def alone(nets, lengths, right):
    """The dependent net as a net by itself where C is all zeros, Paper 9's row sums included."""
    if any(any(row) for row in DependentCheck().rows(nets)) if right.__class__ is PairBounds else True:
        return right
    net = check(nets.dependent, lengths.dependent)
    return PairBounds(right.main, net) if isinstance(net, Bounds) else NetRefusal(DEPENDENT, net)


def read_past(nets, lengths, right):
    """The number after those of C in use is tested too."""
    at = nets.main.n * nets.dependent.n
    return NetRefusal(DEPENDENT, Refusal(3)) if right.__class__ is PairBounds and at < MATRIX and abs(nets.coupling[at]) > 2**20 else right


def range_without(*unseen):
    """Ranges without C's, or without that of unequal s."""

    def is_good(self, nets):
        main, net, coupling = nets
        nets = nets._replace(coupling=[0] * MATRIX) if "C" in unseen else nets
        nets = nets._replace(main=main._replace(s=net.s)) if "s" in unseen else nets
        return DependentCheck.is_in_range(self, nets)

    return whole(is_in_range=is_good)


def signed_64(value):
    return (value + 2**63) % 2**64 - 2**63


def not_capped(self, system):
    """Sums of |C|·E1 in 64 bits."""
    return [signed_64(sum(abs(c) * E for c, E in zip(row, self.E1))) + slack for row, slack in zip(self.C, Reckoning.slacks(self, system))]


MUTANTS = {
    "slack of the tolerance alone": dependent(slacks=Reckoning.slacks),
    "slack of C alone": dependent(slacks=lambda self, system: [sum(abs(c) * E for c, E in zip(row, self.E1)) for row in self.C]),
    "no slack": dependent(slacks=lambda self, system: [0] * system.n),
    "C with its sign": slacked(lambda c, E: c * E),
    "|C| without E1": slacked(lambda c, E: abs(c)),
    "E1 where C is not 0": slacked(lambda c, E: E if c else 0),
    "E1 without C": slacked(lambda c, E: E),
    "E1 capped at 2^25": slacked(lambda c, E: abs(c) * min(E, CAP)),
    "the sum of |C|·E1 in 64 bits": dependent(slacks=not_capped),
    "C transposed": placed(lambda i, j, n1, n2: j * n2 + i),
    "C with stride 32": placed(lambda i, j, n1, n2: i * 32 + j),
    "C with stride n2": placed(lambda i, j, n1, n2: i * n2 + j),
    "C·X1 with the other sign": sided(lambda r, cx, S: r + cx),
    "C·X1 left out": sided(lambda r, cx, S: r),
    "C·X1 times S": sided(lambda r, cx, S: r - S * cx),
    "E1 capped in the limits": answered(capped_limits),
    "unequal s passed": range_without("s"),
    "C's range not tested": range_without("C"),
    "a number past C read": answered(read_past),
    "a short C taken": whole(is_short=lambda self, lengths: any(length < least for length, least in zip(lengths.dependent, FULL))),
    "row sums for its heights": dependent(guess_sums=Reckoning.guess_sums),
    "no row sums for its columns": dependent(column_sums=lambda self, system: [float("inf")] * system.n),
    "slack for its columns": dependent(column_slacks=lambda self, system: self.slacks(system)),
    "6 without slack": dependent(is_small=lambda self, residual, slack: abs(residual) <= CAP),
    "6 at 2^25": dependent(is_small=lambda self, residual, slack: abs(residual) + slack < CAP),
    "limits without the slack": dependent(carried=lambda self, system, slacks: [0] * system.n),
    "6 before 5 in the dependent net": dependent(ORDER=(6, 5, 7)),
    "the dependent net alone where C is 0": answered(alone),
    "refusals of net 2 as of net 1": refused_as(lambda net, refusal: NetRefusal(MAIN, refusal)),
    "refusals of net 1 as of net 2": refused_as(lambda net, refusal: NetRefusal(DEPENDENT, refusal)),
    "6 of net 2 without its row": refused_as(lambda net, refusal: NetRefusal(net, Refusal(6) if net == DEPENDENT and refusal.number == 6 else refusal)),
    "the lists of both nets first": answered(lists_first),
    "the ranges of both nets first": answered(ranges_first),
}

# Those whose limits, where they accept, are too small for some joint solution.
UNSOUND = ("slack of the tolerance alone", "slack of C alone", "no slack", "limits without the slack", "C·X1 left out", "C with its sign")
