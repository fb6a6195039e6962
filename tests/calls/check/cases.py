"""Calls of the check on lists: document 01's cases, systems of every family, damaged ones, and systems by the shape of matrix and inverse, which the check
reads in different ways: symmetric, nearly symmetric with one number off, sparse, dense, and such that the columns of the inverse have limits of 0, of 1 and
above 1.

What is measured of a net is written as a count k, n s t, and eight lengths; then the numbers of the lists, k × k of the matrix, k of the right side, k
tolerances, k of the guess, k × k of the inverse and k weights; then the answer, 0, with its two places, n solution limits and n × n inverse limits."""

import random
from itertools import islice
from typing import NamedTuple

from calls.check.mutants import AGREEING, MUTANTS, ON_LISTS
from calls.check.oracle import Bounds, check
from common import cases_01
from common.damage.lists import Call, call_of, damaged
from common.exact import nearest
from common.generate import WHOLE, made as made_of
from common.net import direct_sum, flat, frozen, net_of, relabelled
from common.replayed import Made, said, written
from common.suite import Suite
from common.systems import edge, usual
from common.systems.blocks import sign
from common.systems.timed import halves_up

# What a check answers.
ANSWERS = (0, 3, 5, 6, 7, 8)
# A damaged system whose limits may be computed, and one of which mutants compute them too, has at most so many equations: it takes its time.
MOST_DAMAGED = 10
DAMAGES = 6
# So many systems of shapes, each shape in its turn, and in the self-test so many others.
OF_SHAPES = 270
OTHERS = 500

# Rounding to nearest steps, so that equal numbers stay equal, and within a step.
ROUNDINGS = (halves_up, usual.within_a_step)


def some_weights(rng, n):
    highest = rng.choice((1, 1, 2, 3, 1024))
    return [rng.randint(1, highest) for _ in range(n)]


def proposed(rng, matrix, t, rounding):
    """A proposal for a matrix, with small heights; None where it leaves its ranges."""
    s = rng.randint(0, 6)
    right = [number >> 10 for number in usual.fitting_right(rng, matrix, s)]
    return usual.proposal(rng, matrix, s, t, right, some_weights(rng, len(matrix)), rounding)


def made(rng, matrix_of):
    """The first proposal that keeps its ranges, each for a new matrix."""

    def attempt():
        matrix = matrix_of()
        return proposed(rng, matrix, usual.fitting_t(rng, matrix), rng.choice(ROUNDINGS))

    return usual.repeated(attempt)


def heavy_matrix(rng, n, large):
    """A symmetric matrix with numbers small beside the diagonal."""
    return usual.made_symmetric([[large + rng.randint(0, large) if i == j else rng.randint(-large // n, large // n) for j in range(n)] for i in range(n)])


def symmetric_matrix(rng, n):
    return rng.choice((heavy_matrix(rng, n, 2 ** rng.randint(3, 16)), usual.levelling_matrix(rng, n, 64)))


def symmetric(rng, n):
    net = made(rng, lambda: symmetric_matrix(rng, n))
    return net.with_(inverse=usual.made_symmetric(net.inverse))


def a_pair(rng, n):
    """A place below the diagonal: any, beside it, or in the first column or the last row."""
    i = rng.choice((n - 1, rng.randrange(1, n)))
    return i, rng.choice((0, i - 1, rng.randrange(i)))


def moved(rng, rows, i, j):
    """One number another, by a little."""
    by = sign(rng) * rng.choice((1, 1, 1, 1, 2))
    return frozen([[number + by * ((k, l) == (i, j)) for l, number in enumerate(row)] for k, row in enumerate(rows)])


def off_in_matrix(rng, n, is_below):
    """A symmetric inverse, of the matrix that is symmetric; its numbers are not above those of the matrix, so that one number off leaves the residuals small."""

    def attempt():
        digits = rng.randint(3, 9)
        matrix, t = heavy_matrix(rng, n, 2**digits), 2 * digits - rng.randint(0, 1)
        i, j = a_pair(rng, n)
        off = moved(rng, matrix, *((i, j) if is_below else (j, i)))
        net, near = proposed(rng, off, t, halves_up), proposed(rng, matrix, t, rng.choice(ROUNDINGS))
        return net and near and net.with_(inverse=usual.made_symmetric(near.inverse))

    return usual.repeated(attempt)


def off_in_inverse(rng, n, is_below):
    def attempt():
        i, j = a_pair(rng, n)
        matrix = symmetric_matrix(rng, n)
        net = proposed(rng, matrix, usual.fitting_t(rng, matrix), halves_up)
        off = net and net.with_(inverse=moved(rng, net.inverse, *((i, j) if is_below else (j, i))))
        return off if off and off.is_in_range() else None

    return usual.repeated(attempt)


def sparse(rng, n):
    """At most three numbers a row other than 0, and no symmetry."""
    shape = rng.choice((edge.bidiagonal, edge.permuted, edge.thin))
    factor = rng.choice((1, 1, rng.randint(2, 999)))
    return made(rng, lambda: frozen([[factor * number for number in row] for row in shape(rng, n)]))


def dense(rng, n):
    """No number 0, and no symmetry."""

    def matrix():
        largest = 2 ** rng.randint(1, 12)
        rows = [[sign(rng) * rng.randint(1, largest) for _ in range(n)] for _ in range(n)]
        for i in range(n):
            rows[i][i] = sign(rng) * rng.randint(largest, largest * n)
        return frozen(rows)

    return made(rng, matrix)


def one(rng, s, t, a):
    """One equation, its inverse rounded to a nearest step: the limit of its column is 0 or 1."""
    right = rng.randint(-999, 999)
    return net_of(s, t, [[a]], [right], [nearest(2**s * right, a)], [[nearest(2**t, a)]], [rng.randint(1, 2)])


def limits_of_each_kind(rng, n, is_symmetric):
    """Columns whose limits are 0 by an exact inverse, 1 by a rounded one and above 1 by one within a step, in any order."""

    def attempt():
        exact, inexact = 2 ** rng.randint(0, 4), rng.choice((3, 5, 7, 11))
        matrix = usual.levelling_matrix(rng, n - 2, 4)
        s, t = rng.randint(0, 6), usual.fitting_t(rng, matrix)
        right = [rng.randint(-99, 99) for _ in matrix]
        net = usual.proposal(rng, matrix, s, t, right, [rng.randint(1, 2) for _ in matrix], usual.within_a_step)
        if net is None:
            return None
        net = net.with_(inverse=usual.made_symmetric(net.inverse)) if is_symmetric else net
        order = rng.sample(range(n), n)
        return relabelled(direct_sum([one(rng, s, t, exact), net, one(rng, s, t, inexact)]), order, order)

    return usual.repeated(attempt)


# Each shape by its name: how it is made, with so many equations or more.
SHAPES = {
    "symmetric": (symmetric, 1),
    "A off below": (lambda rng, n: off_in_matrix(rng, n, True), 2),
    "A off above": (lambda rng, n: off_in_matrix(rng, n, False), 2),
    "G off below": (lambda rng, n: off_in_inverse(rng, n, True), 2),
    "G off above": (lambda rng, n: off_in_inverse(rng, n, False), 2),
    "sparse": (sparse, 3),
    "dense": (dense, 3),
    "limits of each kind, symmetric": (lambda rng, n: limits_of_each_kind(rng, n, True), 4),
    "limits of each kind": (lambda rng, n: limits_of_each_kind(rng, n, False), 4),
}


class Sent(NamedTuple):
    """A call, and where it is of a shape that shape's name and the system."""

    call: Call
    shape: str = ""
    net: object = None


def shaped(seed):
    for index in range(OF_SHAPES):
        rng = random.Random(f"shapes {seed}/{index}")
        shape = tuple(SHAPES)[index % len(SHAPES)]
        make, least = SHAPES[shape]
        net = make(rng, max(least, rng.choice((2, 3, 31, 32, rng.randint(1, 32), rng.randint(4, 12)))))
        yield Sent(call_of(net), shape, net)


def generate(seed, count):
    """Document 01's cases and the papers', then systems of every family in its share, each with its damaged ones after it; then systems of every shape."""
    table = [(make, size) for share, make, size in WHOLE for _ in range(share)]
    systems = [case.net for case in cases_01.CASES + cases_01.PAPERS]
    for index in range(count + len(systems)):
        rng = random.Random(f"lists {seed}/{index}")
        make, size = table[index * 7 % len(table)]
        call = call_of(systems[index] if index < len(systems) else made_of(rng, make, size(rng)))
        yield Sent(call)
        if call.n <= MOST_DAMAGED:
            yield from (Sent(damaged(rng, call)) for _ in range(DAMAGES))
    yield from shaped(seed)


def made_call(name, call, answer):
    number, places = said(answer)
    return Made(name, [*call.arguments(), *call.limits(answer), written(2, places)], number)


def of_net(net):
    call = call_of(net)
    limits = check(call.problem())
    return [[call.count, call.n, call.s, call.t, *call.lengths], *call.lists, [0, 0, 0], limits.solution, flat(limits.inverse)]


def is_of_shape(name, net, answer):
    """Whether an accepted system has the shape that its name says."""
    places = range(net.n)
    apart = lambda rows: sum(rows[i][j] != rows[j][i] for i in places for j in range(i))
    highest = {min(max(column), 2) for column in zip(*answer.inverse)}
    zeros = sum(number == 0 for row in net.matrix for number in row)
    kinds_apart = (apart(net.matrix), apart(net.inverse))
    if name.startswith("limits"):
        return highest == {0, 1, 2} and (kinds_apart == (0, 0)) == name.endswith("symmetric")
    if name in ("sparse", "dense"):
        return kinds_apart[0] > 0 and (zeros >= net.n * (net.n - 3) if name == "sparse" else zeros == 0)
    return kinds_apart == (int(name.startswith("A off")), int(name.startswith("G off")))


def coverage(sent, answer):
    """Each shape, where it is accepted."""
    if isinstance(answer, Bounds) and sent.net and is_of_shape(sent.shape, sent.net, answer):
        yield sent.shape


def tested(seed, count):
    yield from shaped(seed)
    yield from islice(generate(seed, count), OTHERS)


def differs(reckoning, sent, answer):
    return bool(sent.net) and sent.net.n <= MOST_DAMAGED and reckoning().check(sent.call.problem()) != answer


def faults(index, sent, answer):
    """Other ways to the same numbers give the same."""
    return (f"'{name}' differs" for name, reckoning in AGREEING.items() if differs(reckoning, sent, answer))


SUITE = Suite(
    count=1000, generate=generate, coverage=coverage, required=dict.fromkeys(SHAPES, 15), faults=faults,
    calls=lambda sent, answer: [made_call("kodarfi_check", sent.call, answer)],
    answers={"kodarfi_check": ANSWERS},
    answer=lambda sent: check(sent.call.problem(), sent.call.lengths),
    mutants=(
        (MUTANTS, differs),
        (ON_LISTS, lambda mutant, sent, answer: not sent.net and sent.call.count <= MOST_DAMAGED and mutant(sent.call.problem(), sent.call.lengths) != answer),
    ),
    tested=tested,
    of_net=of_net,
)
