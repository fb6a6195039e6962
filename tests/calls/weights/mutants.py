"""Mutants of the search for weights, by name. Each breaks one rule of 02's Paper 7."""

from functools import partial

from calls.check.mutants import COMPUTED, reckoning
from calls.check.oracle import Reckoning
from calls.weights.oracle import FULL, Found, WeightSearch
from common.format import is_within
from common.rules import Refusal
from common.suite import mutant

search = partial(mutant, WeightSearch)


def next_by(rule):
    """A search whose next list is rule(load, bits of the largest)."""
    return search(next=lambda self, loads: [rule(load, self.bits(max(loads))) for load in loads])


def bits_to(highest):
    return search(bits=lambda self, load: next(k for k in range(load.bit_length() + 1) if load >> k <= highest))


def found_by(rule):
    """A search whose answer, where it is no 8 or 3, is rule(search, request, what is right)."""

    def find(self, request):
        right = WeightSearch.find(self, request)
        return right if isinstance(right, Refusal) and right.number != 18 else rule(self, request, right)

    return search(find=find)


def list_at(self, request, place):
    """List `place` of the sequence, from 1."""
    return next(weights for k, (weights, _) in enumerate(self.lists(request), 1) if k == place)


def found_of(rule):
    """A search that changes what it found, and leaves 18."""
    return found_by(lambda self, request, right: right if isinstance(right, Refusal) else rule(self, request, right))


def within(more):
    """A search that tries so many lists more than are allowed."""
    return found_by(lambda self, request, right: WeightSearch.find(search(is_in_range=lambda self, request: True), request._replace(allowance=request.allowance + more)))


def ranged(lowest, highest):
    """A search that takes these allowances too, as if they were the nearest that may be."""

    def find(self, request):
        near = min(max(request.allowance, 1), 64)
        return WeightSearch.find(self, request._replace(allowance=near) if lowest <= request.allowance <= highest else request)

    return search(find=find)


def reads_on(self, request, right):
    """3 where the number after those of the inverse is out of its range."""
    at = request.n**2
    return right if is_within("inverse", request.inverse[at : at + 1]) else Refusal(3)


MUTANTS = {
    "a shift of each row by its own count": search(next=lambda self, loads: [(load >> self.bits(load)) + 1 for load in loads]),
    "one bit more than needed": bits_to(511),
    "the largest to 1,024": bits_to(1024),
    "no plus 1": next_by(lambda load, bits: load >> bits),
    "plus 1 before the shift": next_by(lambda load, bits: (load + 1) >> bits),
    "shifted and rounded up": next_by(lambda load, bits: -(-load >> bits) + 1),
    "the count from 0": found_of(lambda self, request, right: Found(right.tried - 1, right.weights)),
    "the last list for the first good": found_of(lambda self, request, right: Found(request.allowance, list_at(self, request, request.allowance))),
    "the list after the good one": found_of(lambda self, request, right: Found(right.tried, list_at(self, request, right.tried + 1))),
    "1 everywhere unseen": search(is_good=lambda self, margins: True),
    "margin 1 alone": search(is_good=lambda self, margins: margins[0] > 0),
    "a margin of 0 good": search(is_good=lambda self, margins: all(margin >= 0 for margin in margins)),
    "any list where none is good": found_by(lambda self, request, right: Found(request.allowance, [1] * request.n) if isinstance(right, Refusal) else right),
    "a count with 18": found_by(lambda self, request, right: Refusal(18, (request.allowance,)) if isinstance(right, Refusal) else right),
    "one list more": within(1),
    "one list less": within(-1),
    "2 everywhere first": search(first=lambda self, n: [2] * n),
    "A·G for G·A": search(reckoning=COMPUTED["A·G for G·A"]),
    "T·I + G·A": search(reckoning=reckoning(defect=lambda self, system: Reckoning.defect(self, system._replace(G=[[-g for g in row] for row in system.G])))),
    "an allowance of 0 taken": ranged(0, 64),
    "an allowance of 65 taken": ranged(1, 65),
    "short weights taken": search(find=lambda self, request: WeightSearch.find(self, request._replace(lengths=request.lengths._replace(weights=FULL.weights)))),
    "a number past n × n read": found_by(reads_on),
    "D with its signs": search(sizes=lambda self, system: Reckoning().defect(system)),
    "refused with 5": found_by(lambda self, request, right: Refusal(5, (1,)) if isinstance(right, Refusal) else right),
}
