"""Document 02, Paper 13: two proposals for the same equations, and each height's common interval, in exact fractions."""

from fractions import Fraction
from functools import lru_cache
from math import ceil, floor
from typing import NamedTuple

from calls.check.oracle import COLUMN, FULL, Lengths, Problem, check
from common.rules import Refusal

WIDEST = 2**36


class Proposal(NamedTuple):
    """A problem whose lists are tuples, and what the call is given as lengths of its six lists; those for the limits are the call's own."""

    problem: Problem
    lengths: Lengths = FULL


class Pair(NamedTuple):
    """Two proposals, and the lengths of the two interval lists."""

    first: Proposal
    second: Proposal
    low: int = COLUMN
    high: int = COLUMN


class Said(NamedTuple):
    """A refusal, and of which proposal it is: 1, 2, or 0 where it is of neither."""

    proposal: int
    refusal: Refusal


class Intervals(NamedTuple):
    """The lower and the upper ends, in the finer of the two steps."""

    low: list
    high: list


@lru_cache(maxsize=256)
def outcome(proposal):
    return check(proposal.problem, proposal.lengths)


class CommonInterval:
    # "8 for an interval list comes first [..]. Then each proposal is checked, in order [..]. New 20 [..]; then new 21"
    ORDER = ("short", "first", "second", "different", "wide")

    def find(self, pair):
        """The intervals, or what is said."""
        for test in self.ORDER:
            said = getattr(self, test)(pair)
            if said is not None:
                return said
        return self.intervals(pair)

    def short(self, pair):
        return Said(0, Refusal(8)) if pair.low < COLUMN or pair.high < COLUMN else None

    def first(self, pair):
        return self.refused(1, pair.first)

    def second(self, pair):
        return self.refused(2, pair.second)

    def refused(self, which, proposal):
        found = outcome(proposal)
        return Said(which, found) if isinstance(found, Refusal) else None

    def different(self, pair):
        return None if self.is_same(pair.first.problem, pair.second.problem) else Said(0, Refusal(20))

    def is_same(self, a, b):
        """ "size, matrix, right side or tolerances", of which only what is used counts."""
        n = a.n
        return n == b.n and all(x[:count] == y[:count] for x, y, count in ((a.matrix, b.matrix, n * n), (a.right, b.right, n), (a.tolerance, b.tolerance, n)))

    def wide(self, pair):
        """ "if a solution limit is above 2^36", each in its own steps."""
        return Said(0, Refusal(21)) if any(self.is_wide(pair, proposal) for proposal in pair[:2]) else None

    def is_wide(self, pair, proposal):
        return max(outcome(proposal).solution) > WIDEST

    def ends(self, proposal):
        """The lower and the upper end of each height, as fractions of a unit."""
        S, guess = 2**proposal.problem.s, proposal.problem.guess
        return [(Fraction(X - E, S), Fraction(X + E, S)) for X, E in zip(guess, outcome(proposal).solution)]

    def intervals(self, pair):
        S = 2 ** self.scale(pair)
        common = [self.common(a, b) for a, b in zip(self.ends(pair.first), self.ends(pair.second))]
        return Intervals([floor(low * S) for low, _ in common], [ceil(high * S) for _, high in common])

    def scale(self, pair):
        """ "in the finer of the two steps"."""
        return max(pair.first.problem.s, pair.second.problem.s)

    def common(self, a, b):
        """ "the larger lower end and the smaller upper end"."""
        return max(a[0], b[0]), min(a[1], b[1])
