"""Tolerances of the right sides (02, Paper 5), put to a system whatever it is, and the way each right side is then written."""

from common.exact import product
from common.net import SIZE

RESIDUAL = 2**25


def room(net):
    """For each row the largest tolerance with which size of residual and slack are at most 2^25 together; below 0 where there is none."""
    S = 2**net.s
    return [(RESIDUAL - abs(S * b - ax)) // S for b, ax in zip(net.right, product(net.matrix, net.guess))]


def small(rng, net):
    """Tolerances that leave room, of every size, in all rows or some."""
    share = rng.choice((1.0, 0.5, 0.1))
    within = lambda most: rng.randint(0, min(most, SIZE, 2 ** rng.randint(0, 20))) if most > 0 and rng.random() < share else 0
    return [within(most) for most in room(net)]


def full(rng, net):
    """Tolerances as large as there is room, or one less, in all rows or some; most rows then come within S of 2^25."""
    share = rng.choice((1.0, 0.5, 0.1))
    return [max(0, min(most, SIZE) - rng.randrange(2)) if rng.random() < share else 0 for most in room(net)]


def above(rng, net):
    """As `full`, and one to three rows a little above, so that the slack alone brings 6."""
    tolerance = full(rng, net)
    most = room(net)
    for k in rng.sample(range(net.n), min(net.n, rng.randint(1, 3))):
        if 0 <= most[k] < SIZE:
            tolerance[k] = most[k] + 1 if rng.random() < 0.8 else rng.randint(most[k] + 1, SIZE)
    return tolerance


def any_size(rng, net):
    """Any tolerances, their highest too."""
    return [rng.choice((0, 1, SIZE - 1, SIZE, rng.randint(0, SIZE))) for _ in net.right]


# How often of ten each way; of the rest the right sides have no tolerance.
WAYS = (small, small, small, small, full, full, above, any_size)


def tolerated(rng, net):
    """The system with tolerances, or as it is."""
    way = rng.randrange(10)
    return net.with_(tolerance=WAYS[way](rng, net)) if way < len(WAYS) else net


def respelt(rng, lines):
    """Right sides without tolerance written with one of 0: none of them, all or some."""
    share = rng.choice((0, 0, 1, 0.5))
    return [with_zero(line) if line.startswith("(right ") and rng.random() < share else line for line in lines]


def with_zero(line):
    """(right i (b 0)) for (right i b); a line that has a tolerance as it is."""
    word, i, b = line[:-1].split(" ", 2)
    return line if b.startswith("(") else f"{word} {i} ({b} 0))"
