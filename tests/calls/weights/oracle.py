"""Document 02, Paper 7: weights found by the program, in whole numbers."""

from typing import NamedTuple

from calls.check.oracle import COLUMN, MATRIX, Problem, Reckoning, times
from common.format import is_within
from common.rules import Refusal

ALLOWANCE = (1, 64)
HIGHEST = 1023


class Lengths(NamedTuple):
    """The lengths that a call is given."""

    matrix: int = MATRIX
    inverse: int = MATRIX
    weights: int = COLUMN


FULL = Lengths()


class Request(NamedTuple):
    """What a search is handed: the matrices row after row in lists of at least n × n numbers, and what it is given as lengths of its lists."""

    n: int
    t: int
    matrix: list
    inverse: list
    allowance: int
    lengths: Lengths = FULL


class Found(NamedTuple):
    """How many lists were tried, and the last of them, which is good."""

    tried: int
    weights: list


class WeightSearch:
    reckoning = Reckoning

    def find(self, request):
        """The first good list with its place from 1, or the refusal: "8 first, then 3, [..] New 18, after 3"."""
        if any(length < least for length, least in zip(request.lengths, FULL)):
            return Refusal(8)
        if not self.is_in_range(request):
            return Refusal(3)
        for place, (weights, margins) in enumerate(self.lists(request), 1):
            if place > request.allowance:
                return Refusal(18)
            if self.is_good(margins):
                return Found(place, weights)

    def is_in_range(self, request):
        """Also the allowance: 1 to 64."""
        n, t, matrix, inverse, allowance, _ = request
        if not (is_within("problem", [n]) and is_within("scale", [t]) and ALLOWANCE[0] <= allowance <= ALLOWANCE[1]):
            return False
        return is_within("row", matrix[: n * n]) and is_within("inverse", inverse[: n * n])

    def lists(self, request):
        """The sequence without end, each list with its margins: "Begin with 1 everywhere [..] and try those"."""
        n = request.n
        problem = Problem(n, 0, request.t, request.matrix, [0] * n, [0] * n, [0] * n, request.inverse, [1] * n)
        system = self.reckoning().system(problem)
        sizes = self.sizes(system)
        weights = self.first(n)
        while True:
            loads = times(sizes, weights)
            yield weights, [system.T * w - load for w, load in zip(weights, loads)]
            weights = self.next(loads)

    def sizes(self, system):
        return [list(map(abs, row)) for row in self.reckoning().defect(system)]

    def first(self, n):
        return [1] * n

    def is_good(self, margins):
        return all(margin > 0 for margin in margins)

    def next(self, loads):
        """02: "shift every u_i right by the fewest bits that bring the largest to 1,023 or below, add 1"."""
        bits = self.bits(max(loads))
        return [(load >> bits) + 1 for load in loads]

    def bits(self, load):
        return next(k for k in range(load.bit_length() + 1) if load >> k <= HIGHEST)


def place_within(request, most):
    """The place of the first good list among so many; 0 where none of them is good."""
    found = WeightSearch()
    lists = zip(range(1, most + 1), found.lists(request))
    return next((place for place, (_, margins) in lists if found.is_good(margins)), 0)
