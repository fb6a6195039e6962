"""Two proposals by chance (02, Paper 13): for the same equations with other steps, roundings and weights, for equations that differ in one place, and with
limits about 2^36; in the order made and in the other, and damaged."""

import random
from fractions import Fraction
from typing import NamedTuple

from calls.check.oracle import COLUMN, FULL, Problem
from calls.common.mutants import MUTANTS
from calls.common.oracle import CommonInterval, Intervals, Pair, Proposal, outcome
from common.damage.lists import call_of, damaged
from common.exact import corners, inverse_of, product
from common.net import SIZE, direct_sum, net_of
from common.replayed import UNREAD, Made, said, written
from common.rules import Refusal
from common.suite import Suite
from common.systems import tolerant, usual

FEW = (1, 2, 2, 3, 3, 4, 5, 6, 9)


def base(rng):
    make = rng.choice((usual.levelling, usual.levelling, usual.general, usual.small))
    return make(rng, min(rng.choice(FEW), 4) if make is usual.small else rng.choice(FEW))


def again(rng, net, s=None):
    """Another proposal for the same equations; the same where none fits."""
    for _ in range(40):
        steps = rng.choice((net.s, rng.randint(0, 20), min(20, net.s + rng.randrange(4)))) if s is None else s
        rounding = rng.choice((usual.to_nearest, usual.within_a_step))
        t = max(0, usual.fitting_t(rng, net.matrix) - rng.randrange(3))
        other = usual.proposal(rng, net.matrix, steps, t, net.right, usual.random_weights(rng, net.n), rounding)
        if other is not None:
            return other.with_(tolerance=net.tolerance)
    return net


def with_tolerances(rng, first, second):
    """Both with tolerances that leave room in either's steps, in some rows; or without."""
    share = rng.choice((0, 0.3, 1))
    within = lambda most: rng.randint(0, min(most, SIZE, 2 ** rng.randint(0, 20))) if most > 0 and rng.random() < share else 0
    tolerance = [within(min(rooms)) for rooms in zip(tolerant.room(first), tolerant.room(second))]
    return first.with_(tolerance=tolerance), second.with_(tolerance=tolerance)


def same(rng):
    first = base(rng)
    return with_tolerances(rng, first, again(rng, first))


def twice(rng):
    first, _ = with_tolerances(rng, *(2 * (base(rng),)))
    return first, first


def moved(rng, rows, at):
    """One number of a list or matrix changed by one."""
    changed = list(rows)
    changed[at] += rng.choice((-1, 1))
    return changed


def differing(rng):
    """Equations that differ in one number of the matrix, of the right side or of the tolerances, or in how many they are."""
    first, second = same(rng)
    n, i, j = first.n, rng.randrange(first.n), rng.randrange(first.n)
    way = rng.randrange(5)
    if way == 0 and n < 32:
        more = net_of(second.s, second.t, [[2**rng.randrange(3)]], [rng.randint(-9, 9)], [0], [[0]], [1])
        more = usual.proposal(rng, more.matrix, second.s, second.t, more.right, (1,))
        return (first, second) if more is None else rng.choice(((first, direct_sum([second, more])), (direct_sum([second, more]), first)))
    if way == 1:
        return first, second.with_(tolerance=[max(0, d) for d in moved(rng, second.tolerance, i)])
    if way == 2:
        return first, again(rng, second.with_(right=moved(rng, second.right, i)), second.s)
    matrix = [list(row) for row in second.matrix]
    matrix[i][j] += rng.choice((-1, 1))
    return first, again(rng, second.with_(matrix=matrix), second.s)


def broad(rng):
    """Limits of 2^36 and a little beside it, by tolerances: of both, or where the steps are finer of the one alone; now and then with other tolerances."""
    near = lambda s: net_of(s, 0, [[1, SIZE], [0, 1]], [0, 0], [0, 0], [[1, -SIZE], [0, 1]], [1, 1])
    tolerance = rng.choice(((0, 65536), (1, 65536), (1, 65536), (2, 65536), (SIZE - 1, 65535), (SIZE, 65535), (3, 32768), (0, 32768)))
    scales = rng.choice(((0, 0), (0, 0), (0, 0), (0, 1), (1, 0), (1, 1)))
    other = (tolerance[0] + 1, tolerance[1]) if rng.random() < 0.2 and tolerance[0] < SIZE else tolerance
    return near(scales[0]).with_(tolerance=tolerance), near(scales[1]).with_(tolerance=other)


def narrow_beside(rng):
    """No tolerance: a limit of 2^36 or a little above of the second height in steps of 1, and the exact heights in finer ones; in either order."""
    weight = rng.choice((64, 128, 256, 512, 1024))
    b = -(2**26 // weight) - rng.choice((0, 0, 1))
    matrix, inverse = [[1, 1024], [1023, 1047553]], [[1047553, -1024], [-1023, 1]]
    s = rng.randint(0, 4)
    rough = net_of(0, 0, matrix, [0, b], [0, 0], inverse, [1, weight])
    exact = net_of(s, 0, matrix, [0, b], [2**s * N for N in (-1024 * b, b)], inverse, [1, 1])
    return rng.choice(((rough, exact), (exact, rough)))


# How many of a hundred, and what they are.
SHARES = ((48, same), (8, twice), (20, differing), (16, broad), (8, narrow_beside))
TABLE = tuple(make for share, make in SHARES for _ in range(share))
assert len(TABLE) == 100


class Handed(NamedTuple):
    """Two calls of a check with what fills their lists, the lengths of the interval lists, and the nets where they are as made."""

    calls: tuple
    fills: tuple
    low: int = COLUMN
    high: int = COLUMN
    nets: tuple = ()

    def pair(self):
        return Pair(*map(proposal_of, self.calls, self.fills), self.low, self.high)

    def exchanged(self):
        return self._replace(calls=self.calls[::-1], fills=self.fills[::-1], nets=self.nets[::-1])


def proposal_of(call, fill):
    lists = ((*numbers, *(fill,) * (length - len(numbers))) for numbers, length in zip(call.lists, FULL))
    problem = Problem(call.n, call.s, call.t, *lists)
    return Proposal(problem, call.lengths._replace(solution=FULL.solution, bounds=FULL.bounds))


def spoilt(rng, handed):
    """One or both calls damaged, or an interval list given as shorter."""
    way = rng.randrange(4)
    if way == 3:
        short = rng.choice((31, 31, 16, 0))
        handed = handed._replace(**{rng.choice(("low", "high")): short})
        way = rng.choice((0, 3))
    calls = tuple(damaged(rng, call) if way in (place, 2) else call for place, call in enumerate(handed.calls))
    return handed._replace(calls=calls, nets=())


def generate(seed, count):
    for index in range(count):
        rng = random.Random(f"common {seed}/{index}")
        nets = TABLE[index * 37 % len(TABLE)](rng)
        fills = rng.choice(((UNREAD, UNREAD), (UNREAD, UNREAD + 1), (0, 1), (7, 7)))
        handed = Handed(tuple(map(call_of, nets)), fills, nets=nets)
        yield handed
        yield handed.exchanged()
        yield spoilt(rng, handed)


def answer(handed):
    """The pair as the oracle takes it, and what it finds or says."""
    pair = handed.pair()
    return pair, CommonInterval().find(pair)


def calls(handed, answer):
    found = answer[1]
    proposal, refusal, low, high = (0, None, *found) if isinstance(found, Intervals) else (*found, (), ())
    number, places = said(refusal)
    first, second = (call.arguments(fill) for call, fill in zip(handed.calls, handed.fills))
    ends = written(COLUMN, low), handed.low, written(COLUMN, high), handed.high
    yield Made("kodarfi_common", [*first, *second, *ends, written(1, [proposal], 4), written(2, places)], number)


REQUIRED = dict.fromkeys(
    (
        *("found", "in other steps", "lower and upper end of either", "with tolerances", "with itself", "a limit of 2^36 beside a finer step"),
        *("of the first", "of the second", "both refused", "8 of neither", "20", "20 and a wide limit"),
        *("21 of the first's limit", "21 of the second's limit", "a limit of 2^36", "a limit of 2^36 + 1"),
    ),
    20,
)


def coverage(handed, answer):
    pair, found = answer
    either = [outcome(proposal) for proposal in pair[:2]]
    refused = [isinstance(part, Refusal) for part in either]
    if isinstance(found, Intervals):
        yield "found"
        yield from found_coverage(pair)
    elif found.refusal.number == 8 and found.proposal == 0:
        yield "8 of neither"
    elif found.proposal:
        yield ("of the first", "of the second")[found.proposal - 1]
        if all(refused):
            yield "both refused"
    else:
        wide = [max(part.solution) > 2**36 for part in either]
        if found.refusal.number == 20:
            yield "20"
            if any(wide):
                yield "20 and a wide limit"
        else:
            yield from (name for name, is_wide in zip(("21 of the first's limit", "21 of the second's limit"), wide) if is_wide)
    if not any(refused):
        largest = max(max(part.solution) for part in either)
        yield from (name for name, limit in (("a limit of 2^36", 2**36), ("a limit of 2^36 + 1", 2**36 + 1)) if largest == limit)


def found_coverage(pair):
    first, second = pair.first.problem, pair.second.problem
    if first.s != second.s:
        yield "in other steps"
    if any(first.tolerance[: first.n]):
        yield "with tolerances"
    if first == second:
        yield "with itself"
    ends = [CommonInterval().ends(proposal) for proposal in pair[:2]]
    if any(a[0] > b[0] and a[1] > b[1] for a, b in zip(*ends)) or any(a[0] < b[0] and a[1] < b[1] for a, b in zip(*ends)):
        yield "lower and upper end of either"
    if any(max(outcome(part).solution) << (CommonInterval().scale(pair) - part.problem.s) > 2**36 for part in pair[:2]):
        yield "a limit of 2^36 beside a finer step"


def faults(index, handed, answer):
    """What the paper says of intervals that are found, whatever else: they hold every exact height, no lower end is above its upper, and the order of the
    proposals is free."""
    pair, found = answer
    if not handed.nets or not isinstance(found, Intervals):
        return
    net, S = handed.nets[0], 2 ** max(call.s for call in handed.calls)
    q, H = inverse_of(net.matrix)
    for right, over in corners(random.Random(index), net):
        heights = [Fraction(N, q * over) for N in product(H, right)]
        if not all(low <= S * height <= high for low, height, high in zip(found.low, heights, found.high)):
            yield "an exact height outside"
    if not all(low <= high for low, high in zip(*found)):
        yield "a lower end above its upper"
    is_as_made = index % 3 == 0  # the next case is the same in the other order
    if is_as_made and CommonInterval().find(pair._replace(first=pair.second, second=pair.first)) != found:
        yield "in the other order other intervals"


SUITE = Suite(
    count=2800, tested_count=700, generate=generate, answer=answer, calls=calls, coverage=coverage, required=REQUIRED, faults=faults,
    answers={"kodarfi_common": (0, 3, 5, 6, 7, 8, 20, 21)},
    mutants=((MUTANTS, lambda mutant, handed, answer: mutant.find(answer[0]) != answer[1]),),
)
