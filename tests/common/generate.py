"""The seeded sequence of files. Every file has a random source of its own, made from seed and index, so that one can be made alone."""

import random
from typing import NamedTuple

from common import damage
from common.net import file_of, lines_of
from common.systems import edge, ends, rows, usual
from common.systems.tolerant import respelt, tolerated


class Case(NamedTuple):
    name: str
    file: bytes


def any_n(rng):
    return rng.randint(1, 32)


def few(rng):
    return rng.choice((1, 2, 2, 3, 4, 5, 6, 9))


# How many files of a hundred, which system, and how many equations it has.
WHOLE = (
    (12, usual.levelling, any_n),
    (7, usual.general, any_n),
    (8, edge.at_edge, any_n),
    (2, edge.with_halves, lambda rng: rng.randint(4, 10)),
    (5, ends.at_bounds, any_n),
    (5, usual.small, lambda rng: rng.randint(1, 4)),
    (1, ends.largest_bounds, lambda rng: rng.randint(2, 32)),
    (4, ends.near_margins, lambda rng: rng.randint(2, 12)),
    (3, ends.near_slacks, lambda rng: rng.randint(1, 12)),
    (5, ends.several, lambda rng: rng.randint(1, 12)),
    (4, rows.near_row_sums, lambda rng: rng.randint(1, 12)),
    (3, rows.near_column_sums, lambda rng: rng.randint(2, 12)),
    (1, usual.singular, lambda rng: rng.randint(1, 6)),
)

TABLE = tuple(
    [(make, size, None) for share, make, size in WHOLE for _ in range(share)]
    + [(usual.levelling, few, spoil) for share, spoil in damage.SHARES for _ in range(share)]
)
assert len(TABLE) == 100
# Neighbours in the sequence come from different families.
ORDER = tuple(at * 37 % 100 for at in range(100))


def arranged(rng, lines):
    """01: the rest in any order. Kind after kind, place after place, or in any order."""
    start, middle, end = lines[:2], lines[2:-1], lines[-1:]
    way = rng.randrange(3)
    if way == 1:
        middle.sort(key=lambda line: int(line.split(" ")[1]))
    elif way == 2:
        rng.shuffle(middle)
    return start + middle + end


def thinned(rng, lines):
    """02, Paper 1: weights may be left out. Mostly such as are 1, all of them or some; now and then any."""
    way = rng.randrange(12)
    if way < 4:
        return lines
    every, any_number = way in (4, 5, 6, 10), way > 9
    gone = lambda line: line.startswith("(weight ") and (any_number or line.endswith(" 1)")) and (every or rng.random() < 0.5)
    return [line for line in lines if not gone(line)]


# Systems that keep their right sides as they are, at the edge of what presumes that all d are 0, or at slacks of their own.
AS_MADE = (edge.at_edge, edge.with_halves, ends.near_slacks, ends.largest_bounds)


def made(rng, make, n):
    """A system of a family, mostly with tolerances."""
    net = make(rng, n)
    return net if make in AS_MADE else tolerated(rng, net)


def is_damaged(index):
    """Whether file number `index` of any sequence is a damaged one."""
    return TABLE[ORDER[index % 100]][2] is not None


def case(seed, index):
    """File number `index` of the sequence of `seed`."""
    rng = random.Random(f"{seed}/{index}")
    make, size, spoil = TABLE[ORDER[index % 100]]
    if spoil and rng.random() < 0.1:
        size = any_n
    net = made(rng, make, size(rng))
    lines = arranged(rng, respelt(rng, lines_of(net)))
    if spoil:
        return Case(f"{seed}/{index} {spoil.__name__}", spoil(rng, net, lines))
    file = file_of(thinned(rng, lines))
    return Case(f"{seed}/{index} {make.__name__}", file[:-1] if rng.random() < 0.2 else file)
