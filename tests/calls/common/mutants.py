"""Mutants of the common intervals, by name. Each breaks one rule of 02's Paper 13."""

from functools import partial

from calls.check.oracle import COLUMN
from calls.common.oracle import WIDEST, CommonInterval, Said, outcome
from common.rules import Refusal
from common.suite import mutant


common = partial(mutant, CommonInterval)


def ends_by(rule):
    return common(common=lambda self, a, b: rule(a, b))


def ordered(*order):
    return common(ORDER=order)


def same_by(rule):
    return common(is_same=lambda self, a, b: CommonInterval.is_same(self, a, b) and rule(a, b))


def alike(*names):
    """Mutants that compare only these of the lists, as far as they are used."""

    def is_same(self, a, b):
        n = a.n
        counts = {"matrix": n * n, "right": n, "tolerance": n}
        return n == b.n and all(getattr(a, name)[: counts[name]] == getattr(b, name)[: counts[name]] for name in names)

    return common(is_same=is_same)


def by_places(self, a, b):
    """Compares the diagonals of the matrices alone."""
    n = a.n
    return n == b.n and a.matrix[: n * n : n + 1] == b.matrix[: n * n : n + 1] and a.right[:n] == b.right[:n] and a.tolerance[:n] == b.tolerance[:n]


def without_size(self, a, b):
    n = min(a.n, b.n)
    return all(x[:n] == y[:n] for x, y in ((a.matrix, b.matrix), (a.right, b.right), (a.tolerance, b.tolerance)))


def said_by(rule):
    """A mutant that changes what is said, and leaves what is found."""

    def find(self, pair):
        found = CommonInterval.find(self, pair)
        return rule(found) if isinstance(found, Said) else found

    return common(find=find)


def wide_by(rule):
    return common(is_wide=lambda self, pair, proposal: rule(pair, proposal, max(outcome(proposal).solution)))


def finest(pair):
    return max(pair.first.problem.s, pair.second.problem.s)


def in_finest(pair, proposal, limit):
    return limit << (finest(pair) - proposal.problem.s) > WIDEST


MUTANTS = {
    "the coarser step": common(scale=lambda self, pair: min(pair.first.problem.s, pair.second.problem.s)),
    "the first proposal's step": common(scale=lambda self, pair: pair.first.problem.s),
    "the second proposal's step": common(scale=lambda self, pair: pair.second.problem.s),
    "the union": ends_by(lambda a, b: (min(a[0], b[0]), max(a[1], b[1]))),
    "the smaller lower end": ends_by(lambda a, b: (min(a[0], b[0]), min(a[1], b[1]))),
    "the larger upper end": ends_by(lambda a, b: (max(a[0], b[0]), max(a[1], b[1]))),
    "ends of the first alone": ends_by(lambda a, b: a),
    "ends of the second alone": ends_by(lambda a, b: b),
    "a lower end of the first and an upper end of the second": ends_by(lambda a, b: (a[0], b[1])),
    "upper and lower end exchanged": ends_by(lambda a, b: (min(a[1], b[1]), max(a[0], b[0]))),
    "20 before the second check": ordered("short", "first", "different", "second", "wide"),
    "20 before both checks": ordered("short", "different", "first", "second", "wide"),
    "21 before 20": ordered("short", "first", "second", "wide", "different"),
    "the second checked first": ordered("short", "second", "first", "different", "wide"),
    "8 for an interval list last": ordered("first", "second", "different", "wide", "short"),
    "no 20": ordered("short", "first", "second", "wide"),
    "no 21": ordered("short", "first", "second", "different"),
    "no check of the second": common(second=lambda self, pair: None, find=lambda self, pair: unchecked(self, pair)),
    "matrices compared past n × n": same_by(lambda a, b: a.matrix == b.matrix),
    "right sides compared past n": same_by(lambda a, b: a.right == b.right),
    "tolerances compared past n": same_by(lambda a, b: a.tolerance == b.tolerance),
    "the diagonals alone": common(is_same=by_places),
    "the matrices alone": alike("matrix"),
    "no tolerances compared": alike("matrix", "right"),
    "no right sides compared": alike("matrix", "tolerance"),
    "no matrices compared": alike("right", "tolerance"),
    "sizes not compared": common(is_same=without_size),
    "s compared": same_by(lambda a, b: a.s == b.s),
    "t compared": same_by(lambda a, b: a.t == b.t),
    "guesses compared": same_by(lambda a, b: a.guess[: a.n] == b.guess[: a.n]),
    "inverses compared": same_by(lambda a, b: a.inverse[: a.n * a.n] == b.inverse[: a.n * a.n]),
    "weights compared": same_by(lambda a, b: a.weights[: a.n] == b.weights[: a.n]),
    "21 in the finer step": wide_by(in_finest),
    "21 for a limit of 2^36": wide_by(lambda pair, proposal, limit: limit >= WIDEST),
    "21 from 2^36 + 2 on": wide_by(lambda pair, proposal, limit: limit > WIDEST + 1),
    "21 of the first alone": wide_by(lambda pair, proposal, limit: proposal is pair.first and limit > WIDEST),
    "21 of the second alone": wide_by(lambda pair, proposal, limit: proposal is pair.second and limit > WIDEST),
    "21 by the first height alone": wide_by(lambda pair, proposal, limit: outcome(proposal).solution[0] > WIDEST),
    "refusals of no proposal": said_by(lambda said: said._replace(proposal=0)),
    "every refusal of the first": said_by(lambda said: said._replace(proposal=1 if said.proposal else 0)),
    "20 as of the second": said_by(lambda said: said._replace(proposal=2) if said.refusal.number == 20 else said),
    "21 as of the first": said_by(lambda said: said._replace(proposal=1) if said.refusal.number == 21 else said),
    "8 for an interval list as of the first": common(short=lambda self, pair: Said(1, Refusal(8)) if CommonInterval.short(self, pair) else None),
    "a refusal without its places": said_by(lambda said: said._replace(refusal=Refusal(said.refusal.number))),
    "a short lower list taken": common(short=lambda self, pair: Said(0, Refusal(8)) if pair.high < COLUMN else None),
    "a short upper list taken": common(short=lambda self, pair: Said(0, Refusal(8)) if pair.low < COLUMN else None),
}


def unchecked(self, pair):
    """What is said where a refused second proposal is passed over: the first's ends."""
    refused = isinstance(outcome(pair.second), Refusal)
    return CommonInterval.find(self, pair._replace(second=pair.first) if refused else pair)
