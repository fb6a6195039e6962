"""Searches for weights (02, Paper 7): problems by chance, each with several allowances, and damaged ones."""

import random
from typing import NamedTuple

from calls.weights.mutants import MUTANTS
from calls.weights.oracle import FULL, Found, Request, WeightSearch, place_within
from common.damage.lists import SCALES, SIZES, filled, odd_number, other_size, shorter
from common.replayed import Made, read, said, written
from common.rules import Refusal
from common.suite import Suite
from common.systems.searched import late, searched

MOST = 65

# "The first good list is the 1st, 2nd, a later one, the allowance-th and the one after it, and none".
FOUND = ("the 1st", "the 2nd", "a later one")
REQUIRED = dict.fromkeys((*FOUND, "the allowance-th", "the one after the allowance", "none", "refused 3", "refused 8"), 20)
REQUIRED |= {"list 64 of 64": 1, "list 65 of 64": 1}


class Search(NamedTuple):
    """A request, and the place of its first good list among the first 65: 0 where none of them is good, or where 8 or 3 is said."""

    request: Request
    place: int


def allowances(rng, place):
    """One that is enough, those beside the place, and one by chance."""
    chosen = [64, rng.randint(1, 64), *((place, place + 1, place - 1) if place else ())]
    return dict.fromkeys(allowance for allowance in chosen if 1 <= allowance <= 64)


def damaged(rng, request):
    """One thing changed: a length, n, t, the allowance, a number in use, or one past those."""
    n = request.n
    kind = rng.randrange(6)
    if kind == 0:
        return request._replace(lengths=shorter(rng, FULL))
    if kind == 1:
        return request._replace(n=other_size(rng, request.n, SIZES))
    if kind == 2:
        return request._replace(t=other_size(rng, request.t, SCALES))
    if kind == 3:
        return request._replace(allowance=other_size(rng, request.allowance, (0, 65, 128, 2**32 - 1)))
    name = rng.choice(("matrix", "inverse"))
    numbers = list(getattr(request, name))
    numbers[rng.randrange(n * n) if kind == 4 else rng.randrange(min(n * n, FULL.matrix - 1), FULL.matrix)] = odd_number(rng)
    return request._replace(**{name: numbers})


def generate(seed, count):
    for index in range(count):
        rng = random.Random(f"weights {seed}/{index}")
        request = late(64 + index) if index < 2 else searched(rng)
        place = place_within(request, MOST)
        request = request._replace(matrix=filled(request.matrix, FULL.matrix), inverse=filled(request.inverse, FULL.inverse))
        for allowance in allowances(rng, place):
            yield Search(request._replace(allowance=allowance), place)
        for _ in range(2):
            changed = damaged(rng, request)
            answer = WeightSearch().find(changed)
            is_searched = isinstance(answer, Found) or answer.number == 18
            yield Search(changed, place_within(changed, MOST) if is_searched else 0)


def calls(search, answer):
    request, (number, places) = search.request, said(answer)
    tried, weights = ([], []) if isinstance(answer, Refusal) else ([answer.tried], answer.weights)
    stated = request.lengths
    matrices = read(request.matrix, FULL.matrix), stated.matrix, read(request.inverse, FULL.inverse), stated.inverse
    found = written(FULL.weights, weights), stated.weights, written(1, tried, 4), written(2, places)
    yield Made("kodarfi_find_weights", [request.n, request.t, *matrices, request.allowance, *found], number)


def coverage(search, answer):
    allowance, place = search.request.allowance, search.place
    if isinstance(answer, Found):
        yield FOUND[min(answer.tried, 3) - 1]
        if answer.tried == allowance > 1:
            yield "the allowance-th"
    elif answer.number != 18:
        yield f"refused {answer.number}"
    elif place == 0:
        yield "none"
    elif place == allowance + 1:
        yield "the one after the allowance"
    if place in (64, 65) and allowance == 64:
        yield f"list {place} of 64"


SUITE = Suite(
    count=2420, tested_count=800, generate=generate, calls=calls, coverage=coverage, required=REQUIRED,
    answers={"kodarfi_find_weights": (0, 3, 8, 18)},
    answer=lambda search: WeightSearch().find(search.request),
    mutants=((MUTANTS, lambda mutant, search, answer: mutant.find(search.request) != answer),),
)
