#!/usr/bin/env python3
"""How far limits lie above the largest true errors, measured in exact fractions on levelling nets as offices send them.

  python3 bench/tightness.py [--nets 1000] [--sizes 4,8,16,32] [--seed 1]
  python3 bench/tightness.py --example      the entry limits of one net of 30 marks with a tolerance of 6 in each right side, as docs/FORMAT.md has them

Of each size so many accepted nets, guess and inverse rounded to nearest steps (tests/common/systems/timed.py): without tolerances, and with a tolerance of 1 to 8 in
each right side, there with weights 1 and with weights in proportion to what decides a limit. The largest true error of a mark is that over all right sides
within the tolerances: |S·x_i − X_i| + S·Σ|B_ik|·d_k, for the exact solution x and the exact inverse B. Prints three tables; each cell is the median, the value
which 95 of 100 do not pass, and the largest."""

import argparse
import os
import random
import sys
from fractions import Fraction
from pathlib import Path

sys.path.insert(0, str(Path(__file__).resolve().parent.parent / "tests"))

from calls.check.oracle import Bounds, Problem, Reckoning
from calls.listing.oracle import Program
from common.exact import inverse_of, product
from common.net import flat
from common.never_far import factor_of
from common.systems.timed import office

HEAVIEST = 1024
LARGEST_TOLERANCE = 8


def problem_of(net):
    return Problem(net.n, net.s, net.t, flat(net.matrix), list(net.right), list(net.tolerance), list(net.guess), flat(net.inverse), list(net.weights))


def largest_errors(net):
    """Of each mark, over all right sides within the tolerances."""
    q, H = inverse_of(net.matrix)
    S = 2**net.s
    at_b = [abs(Fraction(S * N, q) - X) for N, X in zip(product(H, net.right), net.guess)]
    return [error + Fraction(S * sum(abs(h) * d for h, d in zip(row, net.tolerance)), q) for error, row in zip(at_b, H)]


def proportional(net):
    """The net with weights in proportion to |p_i| + Σ|G_ij|·S·d_j, the largest 1,024."""
    reckoning = Reckoning()
    system = reckoning.system(problem_of(net))
    sizes = reckoning.sizes(system, reckoning.guess_residual(system), reckoning.slacks(system))
    return net.with_(weights=[max(1, -(-HEAVIEST * size // max(1, *sizes))) for size in sizes])


def limits(net):
    """The solution limits; None where the proposal is refused."""
    bounds = Reckoning().check(problem_of(net))
    return bounds.solution if isinstance(bounds, Bounds) else None


class Values:
    """The values of one cell."""

    def __init__(self):
        self.seen = []

    def add(self, values):
        self.seen += values

    def __str__(self):
        if not self.seen:
            return "none"
        ordered = sorted(self.seen)
        at = lambda share: float(ordered[min(len(ordered) - 1, int(share * len(ordered)))])
        return f"{at(0.5):.2f} / {at(0.95):.2f} / {float(ordered[-1]):.2f}"


def of_marks(E, errors):
    return [Fraction(limit) / error for limit, error in zip(E, errors) if error]


def measured(n, nets, seed):
    """The cells of one size, by name."""
    cells = {name: Values() for name in ("factor", "exact", "net, 1", "mark, 1", "net, by size", "mark, by size", "limits of 0 or 1")}
    refused = 0
    for index in range(nets):
        rng = random.Random(f"tightness {seed}/{n}/{index}")
        net = office(rng, n)
        E, errors = limits(net), largest_errors(net)
        cells["factor"].add([factor_of(net)])
        cells["limits of 0 or 1"].add([int(max(E) <= 1)])
        if any(errors):
            cells["exact"].add([max(E) / max(errors)])
        loose = net.with_(tolerance=[rng.randint(1, LARGEST_TOLERANCE) for _ in range(n)])
        for name, weighed in (("1", loose), ("by size", proportional(loose))):
            E = limits(weighed)
            if E is None:
                refused += 1
                continue
            errors = largest_errors(weighed)
            cells[f"net, {name}"].add([max(E) / max(errors)])
            cells[f"mark, {name}"].add(of_marks(E, errors))
    share = cells["limits of 0 or 1"].seen
    cells["limits of 0 or 1"] = f"{sum(share)} of {len(share)}"
    return cells, refused


def tables(sizes, nets, seed):
    rows = {n: measured(n, nets, seed) for n in sizes}
    parts = (
        ("Without tolerances, weights 1", (("factor", "factor"), ("largest limit / largest true error", "exact"), ("nets with limits of 0 or 1 alone", "limits of 0 or 1"))),
        ("With tolerances of 1 to 8, weights 1", (("largest limit / largest true error", "net, 1"), ("limit / true error, mark by mark", "mark, 1"))),
        ("With tolerances of 1 to 8, weights in proportion", (("largest limit / largest true error", "net, by size"), ("limit / true error, mark by mark", "mark, by size"))),
    )
    for title, columns in parts:
        yield f"| {title} | " + " | ".join(name for name, _ in columns) + " |"
        yield "|---" * (len(columns) + 1) + "|"
        for n in sizes:
            yield f"| n = {n} | " + " | ".join(str(rows[n][0][cell]) for _, cell in columns) + " |"
        yield ""
    yield f"refused: {sum(refused for _, refused in rows.values())}"


def example():
    """Entry limits with weights 1 and in proportion, and the largest true errors, in units."""
    net = office(random.Random("example 38"), 30).with_(tolerance=[6] * 30)
    S = 2**net.s
    for name, weighed in (("weights 1", net), ("weights in proportion", proportional(net))):
        entries = [Program().entry_bound(X, E, S) for X, E in zip(net.guess, limits(weighed))]
        yield f"{name}: {' '.join(map(str, entries))}"
    yield f"largest true errors: {' '.join(f'{float(error / S):.1f}' for error in largest_errors(net))}"


def main():
    parser = argparse.ArgumentParser()
    parser.add_argument("--nets", type=int, default=1000)
    parser.add_argument("--sizes", default="4,8,16,32")
    parser.add_argument("--seed", default="1")
    parser.add_argument("--example", action="store_true")
    given = parser.parse_args()
    sizes = [int(part) if part.isdigit() else 0 for part in given.sizes.split(",")]
    if given.nets < 1 or not all(1 <= n <= 32 for n in sizes):
        parser.error("at least one net, and sizes of 1 to 32, with commas between them")
    try:
        for line in example() if given.example else tables(sizes, given.nets, given.seed):
            print(line)
        sys.stdout.flush()
    except OSError as error:
        os.dup2(os.open(os.devnull, os.O_WRONLY), sys.stdout.fileno())
        print(f"tightness: the tables cannot be written: {error.strerror}", file=sys.stderr)
        return 2
    return 0


if __name__ == "__main__":
    sys.exit(main())
