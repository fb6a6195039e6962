"""Nets by chance: field lines, equations and a proposal, most of them small. The same seed and index make the same net.

  case_at          the net of a seed and an index
  Case             its field lines, its proposal, its exact inverse, and chances for whoever changes it
  equations        document 02, Paper 3: what field lines build
  changed          a proposal with other numbers
  dependent_net    a net that depends on a main net, and its coupling"""

from random import Random
from typing import Any, List, NamedTuple, Optional

from common.exact import inverse_of, nearest, product
from common.net import frozen
from kodarfi import FieldLine, Net, Proposal

LARGEST, LARGEST_GUESS = 2**20, 2**36


class Case(NamedTuple):
    """lines is empty where the equations are no levelling net's; exact is None where the matrix has no inverse."""

    seed: int
    index: int
    lines: List[FieldLine]
    proposal: Proposal
    exact: Any

    def chance(self, name: str) -> Random:
        """Choices that are the same whatever else was chosen."""
        return Random(f"{self.seed} {self.index} {name}")


def case_at(seed: int, index: int) -> Case:
    rng = Random(f"{seed} {index}")
    if rng.random() < 0.02:
        proposal = broad(rng)
        return Case(seed, index, [], proposal, inverse_of(frozen(proposal.net.matrix)))
    n = rng.randint(1, 6) if rng.random() < 0.99 else rng.randint(7, 32)
    lines = field_lines(rng, n) if rng.random() < 0.6 else []
    matrix, right = equations(n, lines) if lines else system(rng, n)
    exact = inverse_of(frozen(matrix))
    proposal = proposed(rng, Net(matrix, right), exact)
    if rng.random() < 0.04:
        proposal = spoiled(rng, proposal)
    return Case(seed, index, lines, proposal, exact)


def changed(proposal: Proposal, **other: Any) -> Proposal:
    """A proposal with other numbers of its own or of its net."""
    parts = {**vars(proposal.net), **vars(proposal), **other}
    return Proposal(Net(parts["matrix"], parts["right"], parts["tolerance"]), *[parts[name] for name in ("s", "t", "guess", "inverse", "weights")])


def equations(n, lines):
    """Document 02, Paper 3: matrix and right side of field lines, a key met again counted once."""
    matrix, right = [[0] * n for _ in range(n)], [0] * n
    for _, start, to, difference, weight, _ in dict((line.key, line) for line in lines).values():
        for mark, other, sign in ((start, to, -1), (to, start, 1)):
            if mark:
                matrix[mark - 1][mark - 1] += weight
                right[mark - 1] += sign * weight * difference
                if other:
                    matrix[mark - 1][other - 1] -= weight
    return matrix, right


def field_lines(rng, n):
    """Lines that join each mark to the fixed mark or to an earlier one, so in one component or several, and some more, and some again. Of some nets a mark
    is left open, and of some all lines agree, so that the heights are whole."""
    keys = iter(rng.sample(range(1, 65536), 2 * n + 4))
    largest, heaviest, agree = rng.choice((9, 999, 32768)), rng.choice((1, 4, 64)), rng.random() < 0.3
    heights = [0] + [rng.randint(-largest, largest) for _ in range(n)]
    difference = lambda start, to: heights[to] - heights[start] if agree else rng.randint(-2 * largest, 2 * largest)
    line = lambda start, to: FieldLine(next(keys), start, to, difference(start, to), rng.randint(1, heaviest))
    joined = [(rng.randrange(mark), mark) for mark in range(1, n + 1)]
    if n > 1 and rng.random() < 0.2:
        joined.pop(rng.randrange(n))
    joined += [tuple(rng.sample(range(n + 1), 2)) for _ in range(rng.randint(0, n + 3))]
    rng.shuffle(joined)
    lines = [line(*(marks if rng.random() < 0.5 else marks[::-1])) for marks in joined]
    return lines + rng.choices(lines, k=rng.choice((0, 0, 1, 3)))


def system(rng, n):
    """Equations of no levelling net: any, or with a large diagonal, or triangular with large numbers beside it; some with rows exchanged, or with one twice."""
    size = 2 ** rng.choice((1, 2, 3, 6, 10, 20))
    kind = rng.choice(("any", "large", "triangle", "triangle", "triangle"))
    matrix = [[rng.randint(-size, size) if kind != "triangle" or j > i else 0 for j in range(n)] for i in range(n)]
    if kind != "any":
        matrix = [[a // n if i != j else rng.choice((-1, 1)) * (size if kind == "large" else 1) for j, a in enumerate(row)] for i, row in enumerate(matrix)]
    if rng.random() < 0.2:
        rng.shuffle(matrix)
    if n > 1 and rng.random() < 0.06:
        matrix[0] = list(matrix[1])
    most = rng.choice((9, 999, 2**30))
    return matrix, [rng.randint(-most, most) for _ in range(n)]


def finest(largest, q, most):
    """The finest scale at which largest/q, in steps, stays within a range."""
    return max((scale for scale in range(21) if largest << scale <= most * q), default=0)


def rounded(rng, kind, number, q):
    """number/q to a nearest step, within a step, some steps beside it, or anywhere. Beyond every range it is cut short."""
    if abs(number) > q << 40:
        return 2**40
    if kind == "nearest":
        return nearest(number, q)
    if kind == "within":
        return number // q + (rng.randint(0, 1) if number % q else rng.randint(-1, 1))
    return nearest(number, q) + rng.randint(-4, 4) if kind == "beside" else rng.randint(-(2**20), 2**20)


GUESSES = ("nearest",) * 5 + ("within",) * 3 + ("beside", "anywhere")
INVERSES = ("nearest",) * 6 + ("within",) * 3 + ("beside",)


def proposed(rng, net, exact, s: Optional[int] = None, tolerance: Optional[List[int]] = None):
    """A proposal with scales, roundings, weights and tolerances by chance, or with those that are given."""
    n = net.n
    q, H = exact or (1, [[rng.randint(-4, 4) for _ in range(n)] for _ in range(n)])
    N = product(H, net.right)
    s = min(finest(max(map(abs, N)), q, LARGEST_GUESS), rng.randint(0, 20)) if s is None else s
    t = finest(max(abs(h) for row in H for h in row), q, LARGEST)
    triangle = n > 1 and not any(any(row[:i]) for i, row in enumerate(net.matrix))
    t = t if rng.random() < 0.6 and not triangle else rng.randint(0, t)
    way, ways = rng.choice(GUESSES), "nearest" if triangle else rng.choice(INVERSES)
    guess = [rounded(rng, way, N_i << s, q) for N_i in N]
    inverse = [[rounded(rng, "within" if triangle and j > i else ways, h << t, q) for j, h in enumerate(row)] for i, row in enumerate(H)]
    weights = [rng.randint(1, rng.choice((4, 1024))) for _ in range(n)] if rng.random() < 0.3 else [1] * n
    return Proposal(Net(net.matrix, net.right, tolerances(rng, n, s) if tolerance is None else tolerance), s, t, guess, inverse, weights)


def tolerances(rng, n, s):
    """0 everywhere, or in some rows as much as leaves room below 2^25; seldom more."""
    if rng.random() < 0.55:
        return [0] * n
    most = min(LARGEST, 2 ** rng.randint(0, 25 if rng.random() < 0.05 else max(0, 24 - s)))
    return [rng.randint(0, most) if rng.random() < 0.7 else 0 for _ in range(n)]


def broad(rng):
    """An exact proposal whose first limit is 2^36, or a little beside it, by its tolerances."""
    guess, d = [rng.randint(-9, 9), rng.randint(-9, 9)], rng.choice((0, 0, 1, 2**20))
    net = Net([[1, LARGEST], [0, 1]], [guess[0] + LARGEST * guess[1], guess[1]], [d, rng.choice((2**16, 2**16, 2**16 - 1))])
    return Proposal(net, 0, 0, guess, [[1, -LARGEST], [0, 1]])


def spoiled(rng, proposal):
    """One number outside its range."""
    numbers = {"matrix": LARGEST + 1, "inverse": -LARGEST - 1, "right": 2**30 + 1, "tolerance": -1, "guess": LARGEST_GUESS + 1, "weights": 0, "s": 21}
    name, number = rng.choice(list(numbers.items()))
    i, j = rng.randrange(proposal.net.n), rng.randrange(proposal.net.n)
    put = lambda column, at, other: column[:at] + [other] + column[at + 1 :]
    if name == "s":
        return changed(proposal, s=number)
    old = getattr(proposal.net if hasattr(proposal.net, name) else proposal, name)
    return changed(proposal, **{name: put(old, i, put(old[i], j, number) if name in ("matrix", "inverse") else number)})


def dependent_net(case: Case, rng):
    """A net that depends on a case's, at the same s, and its coupling: most with a guess that is near its exact heights."""
    main = case.proposal
    n = rng.randint(1, 4)
    lines = field_lines(rng, n)
    matrix, right = equations(n, lines)
    most = rng.choice((1, 9, 9, 2**10))
    coupling = [[rng.randint(-most, most) if rng.random() < 0.6 else 0 for _ in range(main.net.n)] for _ in range(n)]
    exact = inverse_of(frozen(matrix))
    moved = [nearest(x, 2**main.s) for x in product(coupling, main.guess)]
    near = proposed(rng, Net(matrix, [b - m for b, m in zip(right, moved)]), exact, s=min(main.s, 20))
    return Proposal(Net(matrix, right, near.net.tolerance), main.s, near.t, near.guess, near.inverse, near.weights), coupling, exact
