"""Accepted systems whose check is timed: levelling nets as offices send them, dense matrices without symmetry, and rough proposals for levelling nets."""

import random

from calls.check.oracle import Bounds, Reckoning
from common.damage.lists import call_of
from common.exact import nearest
from common.net import frozen
from common.systems.usual import fitting_right, fitting_t, levelling, levelling_matrix, proposal, repeated, within_a_step


def halves_up(_):
    """Rounding to the nearest whole number, halves up: numbers that are equal stay equal."""
    return lambda numerator, denominator: nearest(numerator, denominator, True)


def made(rng, matrix, weights, rounding):
    s, t = rng.randint(0, 20), fitting_t(rng, matrix)
    return proposal(rng, matrix, s, t, fitting_right(rng, matrix, s), weights, rounding)


def office(rng, n):
    """A levelling net with weights 1 and a proposal rounded to nearest: its inverse is symmetric as its matrix is."""
    return repeated(lambda: made(rng, levelling_matrix(rng, n, rng.choice((1, 4, 64))), [1] * n, halves_up))


def dense(rng, n):
    """Every number of the matrix up to 1,600, its diagonal up to n times as large, no symmetry; weights 1, rounded to nearest."""

    def matrix():
        rows = [[rng.randint(-1600, 1600) for _ in range(n)] for _ in range(n)]
        for i in range(n):
            rows[i][i] = rng.choice((1, -1)) * rng.randint(1600, 1600 * n)
        return frozen(rows)

    return repeated(lambda: made(rng, matrix(), [1] * n, halves_up))


def rough(rng, n):
    """A levelling net whose proposal is within a step of the exact one and so without symmetry, weights of 1 to 3."""
    return repeated(lambda: made(rng, levelling_matrix(rng, n, rng.choice((1, 4, 64))), [rng.randint(1, 3) for _ in range(n)], within_a_step))


KINDS = {"levelling": levelling, "office": office, "dense": dense, "rough": rough}


def accepted(seed, sizes, each, make):
    """Nets that are accepted, so many of each size."""
    for n in sizes:
        rng = random.Random(f"sizes {seed}/{n}")
        found = 0
        while found < each:
            net = make(rng, n)
            if isinstance(Reckoning().check(call_of(net).problem()), Bounds):
                found += 1
                yield net
