"""Calls for the factor of a proposal's limits, by chance: problems whose margins are above 0 and others, with weights of several kinds; and damaged ones."""

import random

from calls.quality.mutants import MUTANTS
from calls.quality.oracle import FULL, Inquiry, Quality
from calls.weights.oracle import WeightSearch
from common.damage.lists import SCALES, SIZES, filled, odd_number, other_size, shorter
from common.replayed import Made, read, said, written
from common.rules import Refusal
from common.suite import Suite
from common.systems.searched import searched, with_defect

FEW = (1, 2, 2, 3, 3, 4, 5, 6, 8, 12)


def asked(request, weights):
    return Inquiry(request.n, request.t, list(request.matrix), list(request.inverse), weights)


def by_search(rng):
    """A problem of the searches, mostly with the weights found, else with 1 everywhere or any weights: margins above 0 and not."""
    request = searched(rng)
    found = WeightSearch().find(request)
    good = [1] * request.n if isinstance(found, Refusal) else found.weights
    return asked(request, rng.choice((good, good, good, [1] * request.n, [rng.randint(1, 1024) for _ in range(request.n)])))


def diagonal(rng):
    """D is a diagonal of few sizes, so that several rows with other weights have the same quotient."""
    n, t = rng.choice(FEW), rng.randint(0, 20)
    sizes = [rng.choice((0, 2**t // 3, 2**t // 2, max(2**t - 1, 0))) for _ in range(2)]
    defect = [[rng.choice((1, -1)) * rng.choice(sizes) if i == j else 0 for j in range(n)] for i in range(n)]
    weights = [rng.randint(1, rng.choice((4, 1024))) for _ in range(n)]
    return asked(with_defect(rng, t, defect), weights)


def near_0(rng):
    """Each load is T·w less a little, or just T·w: margins of 0, 1 and some more, and quotients that lie close together."""
    n, t = rng.choice(FEW), rng.randint(3, 20)
    weights = [rng.randint(1, rng.choice((1, 4, 1024))) for _ in range(n)]
    defect = []
    for m in range(n):
        left = 2**t * weights[m] - rng.choice((1, 1, 1, 2, 3, rng.randint(0, 2**t)))
        row = [0] * n
        for j in sorted(range(n), key=lambda j: -weights[j]):
            size = min(left // weights[j], 2**20 - 1)
            row[j] = rng.choice((1, -1)) * size if j != m else size
            left -= size * weights[j]
        defect.append(row)
    return asked(with_defect(rng, t, defect), weights)


def largest_numbers(rng):
    """One row with a margin of 1 and T·w of 2^30, beside rows with the largest margins."""
    n, t = rng.choice((2, 3, 5)), 20
    row = rng.randrange(n)
    light = (row + 1) % n
    weights = [rng.choice((1, 1024)) if m != row else 1024 for m in range(n)]
    weights[light] = 1
    defect = [[0] * n for _ in range(n)]
    defect[row][row], defect[row][light] = 2**20 - 1, 1023
    return asked(with_defect(rng, t, defect), weights)


FAMILIES = (by_search, by_search, by_search, diagonal, near_0, near_0, largest_numbers)


def damaged(rng, inquiry):
    """One thing changed: a length, n, t, a number in use, or one past those."""
    n, kind = inquiry.n, rng.randrange(6)
    if kind == 0:
        short = inquiry._replace(lengths=shorter(rng, FULL))
        return rng.choice((short, short._replace(t=21)))
    if kind == 1:
        return inquiry._replace(n=other_size(rng, inquiry.n, SIZES))
    if kind == 2:
        return inquiry._replace(t=other_size(rng, inquiry.t, SCALES))
    name = rng.choice(("matrix", "inverse", "weights"))
    numbers, used = list(getattr(inquiry, name)), n if name == "weights" else n * n
    at = rng.randrange(min(used, len(numbers) - 1), len(numbers)) if kind == 3 else rng.randrange(used)
    numbers[at] = rng.choice((0, 1, 2, 1024, 1025, -1)) if name == "weights" and kind > 3 else odd_number(rng)
    return inquiry._replace(**{name: numbers})


def generate(seed, count):
    for index in range(count):
        rng = random.Random(f"quality {seed}/{index}")
        inquiry = rng.choice(FAMILIES)(rng)
        inquiry = inquiry._replace(**{name: filled(getattr(inquiry, name), length) for name, length in FULL._asdict().items()})
        yield inquiry
        yield damaged(rng, inquiry)


def calls(inquiry, answer):
    number, places = said(answer)
    factor = [(), ()] if isinstance(answer, Refusal) else [[part] for part in answer]
    lists = (part for name, stated in inquiry.lengths._asdict().items() for part in (read(getattr(inquiry, name), getattr(FULL, name)), stated))
    yield Made("kodarfi_quality", [inquiry.n, inquiry.t, *lists, *(written(1, part) for part in factor), written(2, places)], number)


REQUIRED = dict.fromkeys(
    (
        *("row 1", "the last row", "a row between", "equal rows", "a factor of 1", "a margin of 1", "a numerator of 2^30 or more"),
        *("5 in row 1", "5 in a later row", "refused 3", "refused 8"),
    ),
    20,
)


def coverage(inquiry, answer):
    if isinstance(answer, Refusal):
        yield f"refused {answer.number}" if answer.number != 5 else "5 in row 1" if answer.values == (1,) else "5 in a later row"
        return
    rows = Quality().rows(inquiry)
    row = rows.index(answer)
    if len(rows) > 2:
        yield "row 1" if row == 0 else "the last row" if row == len(rows) - 1 else "a row between"
    if any((a, c) != answer and a * answer.denominator == answer.numerator * c for a, c in rows):
        yield "equal rows"
    if answer.numerator == answer.denominator:
        yield "a factor of 1"
    if answer.denominator == 1:
        yield "a margin of 1"
    if answer.numerator >= 2**30:
        yield "a numerator of 2^30 or more"


SUITE = Suite(
    count=2400, tested_count=800, generate=generate, calls=calls, coverage=coverage, required=REQUIRED,
    answers={"kodarfi_quality": (0, 3, 5, 8)},
    answer=Quality().rate,
    mutants=((MUTANTS, lambda mutant, inquiry, answer: mutant.rate(inquiry) != answer),),
)
