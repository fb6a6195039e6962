"""Calls of the check by half the matrix (02, Paper 10): symmetric systems, others sent by their lower half, and nearly symmetric ones; and damaged calls."""

import random
from typing import NamedTuple

from calls.check.cases import ANSWERS, heavy_matrix, made_call
from calls.check.mutants import is_symmetric
from calls.check.oracle import Bounds, check
from calls.half.mutants import MUTANTS
from calls.half.oracle import HALF, LEAST, HalfEntry, lower_half
from common.damage.lists import Call, call_of, damaged, odd_number, renumbered, resized, reweighed, shifted, shorter, tolerated
from common.format import is_within
from common.generate import made
from common.net import SIZE, flat, frozen
from common.rules import Refusal
from common.suite import Suite
from common.systems import edge, ends, rows, usual

# The half's place among the lists of a call.
MATRIX = 0
# A damaged system has at most so many equations, and so has one for mutants: reckoning takes its time.
MOST_DAMAGED = 10


def symmetric(rng, n):
    return usual.repeated(lambda: usual.made(rng, usual.made_symmetric(usual.general_matrix(rng, n))))


def coarse(rng, n):
    """Few equations with coarse steps, so that margins lie near 0."""

    def attempt():
        matrix = usual.made_symmetric([[rng.randint(-4, 4) for _ in range(n)] for _ in range(n)])
        right = [rng.randint(-20, 20) for _ in range(n)]
        return usual.proposed(rng, matrix, rng.randint(0, 5), rng.randint(0, 6), right, [rng.randint(1, 3) for _ in range(n)])

    return usual.repeated(attempt)


def one_off(rng, rows, far):
    """Two rows or more with one number beside the diagonal moved by at most `far`."""
    i, j = rng.sample(range(len(rows)), 2)
    moved = rows[i][j] + rng.choice((-1, 1)) * rng.randint(1, far)
    return frozen([[moved if (k, l) == (i, j) else number for l, number in enumerate(row)] for k, row in enumerate(rows)])


def off_in_matrix(rng, n):
    """The proposal of a matrix that is symmetric but for one number, above the diagonal or below it; small heights, so that the half of it may pass."""

    def attempt():
        is_heavy = rng.randrange(3) > 0
        matrix = one_off(rng, heavy_matrix(rng, n, 2 ** rng.randint(11, 16)) if is_heavy else usual.levelling_matrix(rng, n, 64), rng.choice((1, 1, 4)))
        s = rng.randint(0, 6 if is_heavy else 20)
        right = [number >> 10 for number in usual.fitting_right(rng, matrix, s)]
        return usual.proposed(rng, matrix, s, usual.fitting_t(rng, matrix), right, [rng.randint(1, 2) for _ in range(n)])

    return usual.repeated(attempt)


def off_in_inverse(rng, n):
    """A symmetric system whose inverse is symmetric but for one number."""
    net = usual.levelling(rng, n)
    moved = net.with_(inverse=one_off(rng, usual.made_symmetric(net.inverse), rng.choice((1, 1, 1, 8, 256))))
    return moved if moved.is_in_range() else net


def any_n(rng):
    return rng.choice((1, 2, 3, 31, 32, rng.randint(1, 32), rng.randint(4, 12)))


def several(rng):
    return max(2, any_n(rng))


def few(rng):
    return rng.randint(1, 6)


# How many systems of 24, which, and how many equations they have.
FAMILIES = (
    (6, usual.levelling, any_n),
    (3, symmetric, any_n),
    (3, coarse, few),
    (4, off_in_matrix, several),
    (3, off_in_inverse, several),
    (1, usual.general, few),
    (1, usual.small, few),
    (1, edge.at_edge, few),
    (1, ends.at_bounds, few),
    (1, rows.near_row_sums, few),
)
TABLE = tuple((make, size) for share, make, size in FAMILIES for _ in range(share))


def halved(net):
    """The call of a system by its lower half."""
    call = call_of(net)
    return call._replace(lengths=LEAST, lists=(lower_half(net.n, call.lists[MATRIX]), *call.lists[1:]))


def system(rng, index):
    """The name of a family, and a system of it."""
    make, size = TABLE[index * 7 % len(TABLE)]
    return make.__name__, made(rng, make, size(rng))


def shortened(rng, call):
    """One list too short, as often as not the half, or a half longer than it must be; n out of range with it, now and then."""
    if rng.randrange(2):
        return call._replace(lengths=LEAST._replace(matrix=rng.choice((HALF - 1, HALF - 1, HALF - 1, HALF // 2, 0, HALF + 1, 1024))))
    return call._replace(n=rng.choice((call.n, call.n, 0, 33)), lengths=shorter(rng, LEAST, 1))


def beyond(rng, call):
    """A number of the half out of its range, the last of those in use among them."""
    used = len(call.lists[MATRIX])
    return call.with_number(MATRIX, rng.choice((0, used - 1, rng.randrange(used))), rng.choice((-1, 1)) * rng.choice((SIZE + 1, 2**40)))


def past(rng, call):
    """Numbers past n(n + 1)/2, the first of them out of range, up to those of n + 1 equations."""
    if call.count == 32:
        return call
    longer = lambda numbers, length: [*numbers, *(odd_number(rng) for _ in range(length - len(numbers)))]
    count = call.count + 1
    lengths = (count * (count + 1) // 2, count, count, count, count * count, count)
    half = [*call.lists[MATRIX], rng.choice((-1, 1)) * (SIZE + 1)]
    return call._replace(count=count, lists=tuple(map(longer, (half, *call.lists[1:]), lengths)))


DAMAGES = (shortened, shortened, resized, beyond, past, renumbered, shifted, tolerated, reweighed)


class Sent(NamedTuple):
    """A call, the name of its family, and the system that it was made of, None where the call is damaged."""

    call: Call
    family: str
    net: object


def generate(seed, count):
    """Every system by its lower half, and the smaller ones damaged after it."""
    for index in range(count):
        rng = random.Random(f"halves {seed}/{index}")
        family, net = system(rng, index)
        call = halved(net)
        yield Sent(call, family, net)
        if net.n <= MOST_DAMAGED:
            yield from (Sent(damaged(rng, call, DAMAGES, (1, 1, 2)), family, None) for _ in range(4))


REQUIRED = dict.fromkeys(
    (
        *("accepted", "refused 3", "refused 5", "refused 6", "refused 7", "refused 8"),
        *("n = 1 accepted", "n = 2 accepted", "n = 32 accepted", "n of 0 or above 32", "a half of 527", "a half of 528", "a half above 528"),
        *("a matrix that is not symmetric", "A one number off, accepted", "A one number off, refused", "G one number off, accepted", "G one number off, refused"),
        *("out of range in the half", "out of range just past the half, accepted"),
    ),
    20,
)


def net_coverage(sent, is_accepted):
    """What the system of a call that is not damaged meets."""
    outcome = "accepted" if is_accepted else "refused"
    if not is_symmetric(sent.net.matrix):
        yield "a matrix that is not symmetric"
    if sent.family == "off_in_matrix":
        yield f"A one number off, {outcome}"
    if sent.family == "off_in_inverse":
        yield f"G one number off, {outcome}"


def coverage(sent, answer):
    call, is_accepted = sent.call, isinstance(answer, Bounds)
    yield "accepted" if is_accepted else f"refused {answer.number}"
    if is_accepted and call.n in (1, 2, 32):
        yield f"n = {call.n} accepted"
    if sent.net:
        yield from net_coverage(sent, is_accepted)
    length = call.lengths.matrix
    yield f"a half of {length}" if length <= HALF else "a half above 528"
    if not 1 <= call.n <= 32:
        yield "n of 0 or above 32"
        return
    half, used = call.problem().matrix, call.n * (call.n + 1) // 2
    if not is_within("row", half[:used]) and answer == Refusal(3):
        yield "out of range in the half"
    if is_accepted and len(call.lists[0]) > used and not is_within("row", half[used : used + 1]):
        yield "out of range just past the half, accepted"


def faults(index, sent, answer):
    """A filled-out matrix is what 02's places give, and a symmetric system is answered as by its square."""
    call, net = sent.call, sent.net
    if net is None:
        return
    half, places = call.lists[MATRIX], range(1, net.n + 1)
    filled, square = HalfEntry().filled_out(net.n, half), flat(net.matrix)
    if not all(filled[(i - 1) * net.n + j - 1] == filled[(j - 1) * net.n + i - 1] == half[i * (i - 1) // 2 + j - 1] for i in places for j in range(1, i + 1)):
        yield "other places than 02's"
    if (filled == square) != is_symmetric(net.matrix):
        yield "a half that is filled out to a matrix that is not symmetric, or another than the symmetric one"
    if is_symmetric(net.matrix) and (lower_half(net.n, square) != half or check(call.problem()._replace(matrix=square)) != answer):
        yield "not what the square entry answers"


SUITE = Suite(
    count=1820, tested_count=600, generate=generate, coverage=coverage, required=REQUIRED, faults=faults,
    calls=lambda sent, answer: [made_call("kodarfi_check_half", sent.call, answer)],
    answers={"kodarfi_check_half": ANSWERS},
    answer=lambda sent: HalfEntry().check(sent.call.problem(), sent.call.lengths),
    mutants=((MUTANTS, lambda mutant, sent, answer: sent.call.n <= MOST_DAMAGED and mutant.check(sent.call.problem(), sent.call.lengths) != answer),),
)
