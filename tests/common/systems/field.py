"""Field lines by chance: chains, loops, nets, the largest sums; keys met again with equal and with other contents; numbers and marks that are refused."""

from pathlib import Path

from calls.build.oracle import DIFFERENCE, KEY, LEAST, LOWER, MOST, WEIGHT, Build, FieldLine
from common.damage.lists import other_size, shorter
from common.systems.usual import levelling_lines

TOWN = Path(__file__).resolve().parents[3] / "examples" / "town" / "field.txt"


def town():
    """The lines of the example of a town, as its crew wrote them."""
    return Build(8, tuple(FieldLine(*map(int, line.split())) for line in TOWN.read_text().split("\n") if line and line[0] != "#"))


def number(rng, ends):
    """Mostly small, at times at an end of its range."""
    lowest, highest = ends
    return rng.choice((lowest, highest)) if rng.randrange(8) == 0 else rng.randint(max(lowest, -100), min(highest, 100)) if rng.randrange(2) else rng.randint(lowest, highest)


def keyed(rng, pairs):
    """Lines along these pairs of marks, in any direction, with keys of their own."""
    pairs = list(pairs)[:MOST]
    keys = rng.sample(range(KEY[0], KEY[1] + 1), len(pairs))
    if rng.randrange(3) == 0:
        keys[: len(keys[:2])] = KEY[: len(keys[:2])]
    ways = (rng.choice(((low, high), (high, low))) for low, high in pairs)
    return [FieldLine(key, start, to, number(rng, DIFFERENCE), number(rng, WEIGHT)) for key, (start, to) in zip(dict.fromkeys(keys), ways)]


def chain(rng, n):
    """From the fixed mark to mark n, one after the other."""
    return keyed(rng, zip(range(n), range(1, n + 1)))


def loop(rng, n):
    """A chain that comes back to the fixed mark, or to mark 1."""
    return chain(rng, n) + keyed(rng, [(rng.choice((0, min(1, n - 1))), n)])


def net(rng, n):
    """The lines of a levelling net of the other tests."""
    return [FieldLine(key, low, high, number(rng, DIFFERENCE), weight) for key, (low, high, weight) in enumerate(levelling_lines(rng, n, rng.choice((1, 4, 64))), 1)]


def any_two(rng, n):
    """Lines between any two marks, some of them joined by many."""
    return keyed(rng, (rng.sample(range(n + 1), 2) for _ in range(rng.choice((1, 3, n, 4 * n)))))


def heavy(rng, n):
    """256 lines of the largest weight and difference at one mark: a right side of 2^30, or −2^30."""
    mark, way = rng.randint(1, n), rng.choice((0, 1))
    other = rng.choice([k for k in range(n + 1) if k != mark])
    ends = ((other, mark), (mark, other))[way]
    return [FieldLine(key, *ends, DIFFERENCE[1], WEIGHT[1]) for key in rng.sample(range(1, 65536), MOST)]


FAMILIES = (chain, loop, net, net, any_two, any_two, heavy)


def again(rng, lines):
    """Copies of some lines at any place, while the list stays within 256."""
    lines = list(lines)
    for _ in range(min(rng.choice((1, 2, 5, MOST)), MOST - len(lines)) if lines else 0):
        lines.insert(rng.randint(0, len(lines)), rng.choice(lines))
    return lines


def conflicting(rng, n, lines):
    """A copy of a line with one of its contents changed, or turned round, at any place after it or before."""
    lines = list(lines)
    line = rng.choice(lines)
    other = rng.choice(
        (
            line._replace(start=rng.choice([k for k in range(n + 1) if k != line.start])),
            line._replace(to=rng.choice([k for k in range(n + 1) if k != line.to])),
            line._replace(difference=-line.difference if line.difference else 1),
            line._replace(difference=min(line.difference + 1, DIFFERENCE[1])),
            line._replace(weight=line.weight % WEIGHT[1] + 1),
            line._replace(start=line.to, to=line.start),
            line._replace(start=line.to, to=line.start, difference=-line.difference),
        )
    )
    lines.insert(rng.randint(0, len(lines)), other)
    return lines[:MOST]


def refused(rng, n, lines):
    """A line with a number past its range, or from a mark to itself: with a key of its own, or with that of another line."""
    lines = list(lines)
    at = rng.randrange(len(lines))
    line = lines[at]
    mark = rng.choice((0, n, line.start))
    lines[at] = rng.choice(
        (
            line._replace(key=rng.choice((0, 65536, 2**32 - 1))),
            line._replace(start=rng.choice((n + 1, 33, 2**32 - 1))),
            line._replace(to=rng.choice((n + 1, 33, 2**32 - 1))),
            line._replace(difference=rng.choice((-65537, 65537, -(2**63), 2**63 - 1, 2**32))),
            line._replace(weight=rng.choice((0, 65, 2**32 - 1))),
            line._replace(start=mark, to=mark),
            line._replace(start=mark, to=mark, key=rng.choice(lines).key),
            line._replace(start=n + 1, to=n + 1),
        )
    )
    return lines


def of_length(rng, n, length):
    """A list of just so many lines, with keys met again or without."""
    two = lambda: rng.sample(range(n + 1), 2)
    lines = keyed(rng, (two() for _ in range(rng.choice((length, max(1, length // 2)))))) if length else []
    while len(lines) < length:
        lines.insert(rng.randint(0, len(lines)), rng.choice(lines))
    return lines


def listed(rng):
    """A list of field lines and its n."""
    n = rng.choice((1, 1, 2, 2, 3, 4, 5, 8, 12, 31, 32, 32))
    kind = rng.randrange(10)
    if kind == 0:
        length = rng.choice((0, 1, 2, 255, 256, 256, 257, 257, 300))
        lines = of_length(rng, n, length)
        if length and rng.randrange(3) == 0:
            lines = refused(rng, n, lines)
        return Build(n, tuple(lines))
    lines = rng.choice(FAMILIES)(rng, n)
    if kind in (1, 2, 3):
        lines = again(rng, lines)
    if kind in (3, 4, 5, 7):
        lines = conflicting(rng, n, lines)
    if kind in (6, 7):
        lines = refused(rng, n, lines)
    return Build(n, tuple(lines))


def halved(rng, call):
    """The same lines for the lower half of the matrix (02, Paper 10), in a list that is just long enough or longer."""
    least = LEAST[LOWER]
    return call._replace(layout=LOWER, lengths=least._replace(matrix=rng.choice((least.matrix, least.matrix, least.matrix + 1, 1024))))


def damaged(rng, call):
    """Another n, or a list too short."""
    if rng.randrange(2):
        return call._replace(n=other_size(rng, call.n, (0, 33, 2**32 - 1, max(1, call.n - 1), min(32, call.n + 1))))
    short = call._replace(lengths=shorter(rng, LEAST[call.layout]))
    return rng.choice((short, short._replace(n=33)))
