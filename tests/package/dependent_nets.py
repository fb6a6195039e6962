"""The command dependent: a suburb's field lines beside the oracle, and both nets' limits beside exact joint solutions."""

import random
from fractions import Fraction
from math import ceil

from calls.dependent.oracle import DependentCheck, Nets, PairBounds
from common import joint

from package.commands import FIELD, ROOT, TOWN, WHOLE, acted, book, command, equations
from package.commands import Build, Builder, FieldLine, Problem, Program, entries_in, levelling_lines, net_from, product

PAIRS = 10
MAIN_FILE = ROOT / "examples" / "whole-file.txt"


class DependentPair:
    """A main net's file and a suburb by chance, whose lines have ends like 4, 0 or 'main:3'."""

    def __init__(self, package, index, scale=6):
        rng = random.Random(f"package hung/{index}")
        self.n1, lines = next(pair for pair in (book(rng.randint(0, 99)) for _ in range(99)) if pair[0] <= 20)
        self.main = equations(self.n1, lines)[0]
        self.file = acted(package, "propose", self.main, scale=scale)
        self.n2 = rng.randint(1, min(12, 32 - self.n1))
        mark = lambda: f"main:{rng.randint(1, self.n1)}"
        pairs = [(mark() if low == 0 and rng.random() < 0.8 else low, high, weight) for low, high, weight in levelling_lines(rng, self.n2, 8)]
        pairs += [(mark(), rng.randint(1, self.n2), rng.randint(1, 9)) for _ in range(3)]
        ends = [rng.choice(((low, high), (high, low))) for low, high, _ in pairs]
        limit = rng.choice((0, 3))
        self.lines = [(key, *pair, rng.randint(-9999, 9999), weight, rng.randint(0, limit)) for key, (pair, (_, _, weight)) in enumerate(zip(ends, pairs), 1)]
        self.sent = self.lines + [rng.choice(self.lines) for _ in range(2)]
        rng.shuffle(self.sent)

    def text(self):
        return "".join(" ".join(map(str, line)) + "\n" for line in self.sent).encode()

    def csv(self):
        return "".join(",".join(map(str, line)) + "\n" for line in [("key", "from", "to", "difference", "weight", "limit"), *self.sent]).encode()

    def equations(self):
        """A2, C, b2 and d2 of all marks as one net, the main net's marks after the suburb's own: the rows of these, cut into two."""
        n2, count = self.n2, self.n1 + self.n2
        number = lambda end: n2 + int(end[5:]) if isinstance(end, str) else end
        built = Builder().build(Build(count, tuple(FieldLine(key, number(start), number(to), *rest[:2]) for key, start, to, *rest in self.lines)))
        rows = [built.matrix[i * count : i * count + count] for i in range(n2)]
        tolerance = [sum(weight * limit for _, start, to, _, weight, limit in self.lines if k in (start, to)) for k in range(1, n2 + 1)]
        return [row[:n2] for row in rows], [row[n2:] for row in rows], built.right[:n2], tolerance


def proposed(package, dependent_net):
    """The suburb's problem, with what the package proposes for the oracle's equations, and C row after row."""
    calls, (matrix, coupling, right, tolerance) = package.calls, dependent_net.equations()
    propose = __import__("kodarfi.propose", fromlist=["propose_dependent"])
    main = __import__("kodarfi.forms", fromlist=["read"]).read(dependent_net.file)
    made = propose.propose_dependent(main, calls.check(main), calls.Net(matrix, right, tolerance), coupling)
    flat = lambda rows: [number for row in rows for number in row]
    return Problem(dependent_net.n2, made.s, made.t, flat(matrix), right, tolerance, made.guess, flat(made.inverse), made.weights), flat(coupling)


def report(problem, limits):
    return "".join(line + "\n" for line in Program().report(problem, limits)).encode()


def listings_of_two_nets(package):
    """Both listings, from text and from CSV, are those of the oracle."""
    for dependent_net in (DependentPair(package, index) for index in range(PAIRS)):
        problem, coupling = proposed(package, dependent_net)
        bounds = DependentCheck().check(Nets(Program().load(dependent_net.file), problem, coupling))
        both = Program().listing(dependent_net.file) + report(problem, bounds.dependent)
        if acted(package, "dependent", dependent_net.file, dependent_net.text()) != both or acted(package, "dependent", dependent_net.file, dependent_net.csv()) != both:
            return False
    return True


def summed(problem, limits):
    """The entry limits of a report, in sum."""
    return sum(limit for _, limit in entries_in(report(problem, limits)))


def proposals_of_suburbs_are_good(package):
    """The guess is rounded from the exact heights above the main net's guess, so its residual is at most the sum along each row. Neither weights of 1 nor
    such as the slack of Paper 8 asks for have smaller entry limits, in sum, and those of 1 have wider ones for some."""
    narrower = 0
    for dependent_net in (DependentPair(package, index) for index in range(PAIRS)):
        main, (matrix, rows, right, tolerance) = Program().load(dependent_net.file), dependent_net.equations()
        problem, coupling = proposed(package, dependent_net)
        S, E1 = 2**main.s, Program().reckoning().check(main).solution
        residual = [S * b - cx - ax for b, cx, ax in zip(right, product(rows, main.guess), product(matrix, problem.guess))]
        slack = [S * d + sum(abs(c) * E for c, E in zip(row, E1)) for d, row in zip(tolerance, rows)]
        G = [problem.inverse[i * dependent_net.n2 : (i + 1) * dependent_net.n2] for i in range(dependent_net.n2)]
        moved = [abs(p) + sum(abs(g) * one for g, one in zip(row, slack)) for p, row in zip(product(G, residual), G)]
        weights = [max(1, ceil(Fraction(1024 * size, max(moved)))) for size in moved] if any(moved) else [1] * dependent_net.n2
        limits = lambda weights: DependentCheck().check(Nets(main, problem._replace(weights=weights), coupling)).dependent
        sums = [summed(problem, limits(one)) for one in (problem.weights, [1] * dependent_net.n2, weights)]
        if any(abs(r) > sum(map(abs, row)) for r, row in zip(residual, matrix)) or sums[0] != min(sums):
            return False
        narrower += sums[0] < sums[1]
    return narrower >= 2


class Pair:
    """Two nets and C, as joint.py has them."""

    def __init__(self, main, dependent, coupling):
        self.main, self.dependent = net_from(main), net_from(dependent)
        self.coupling = [coupling[i * main.n : (i + 1) * main.n] for i in range(dependent.n)]


def limits_hold_of_joint_solutions(package):
    """Every exact joint solution lies within what is printed, for right sides within both tolerances."""
    for index, dependent_net in enumerate(DependentPair(package, index) for index in range(PAIRS)):
        problem, coupling = proposed(package, dependent_net)
        main = Program().load(dependent_net.file)
        printed = limits_of(acted(package, "dependent", dependent_net.file, dependent_net.text()))
        if [one.guess for one in printed] != [main.guess[: main.n], problem.guess]:
            return False
        bounds = PairBounds(*printed)
        if list(joint.faults(random.Random(index), Pair(main, problem, coupling), bounds)):
            return False
    return True


def true_heights_lie_within_the_limits(package):
    """Readings that err by their reading limits, to either side, from heights by chance: these lie within the entry limits of both nets."""
    for index in range(8):
        rng = random.Random(f"package true/{index}")
        n = {"main": rng.randint(1, 9), "suburb": rng.randint(1, 9)}
        height = {(net, mark): rng.randint(-9999, 9999) for net in n for mark in range(1, n[net] + 1)}
        written = lambda net, end: "0" if end is None else str(end[1]) if end[0] == net else f"main:{end[1]}"
        books = {}
        for net in n:
            known = lambda: ("main", rng.randint(1, n["main"])) if net == "suburb" and rng.random() < 0.8 else None
            end = lambda mark: (net, mark) if mark else known()
            pairs = [(end(low), end(high), weight) for low, high, weight in levelling_lines(rng, n[net], 8)]
            lines = []
            for key, (start, to, weight) in enumerate(pairs, 1):
                limit = rng.randint(0, 4)
                read = height.get(to, 0) - height.get(start, 0) + rng.choice((-limit, limit))
                lines.append(f"{key} {written(net, start)} {written(net, to)} {read} {weight} {limit}\n")
            books[net] = "".join(lines).encode()
        main = acted(package, "propose", acted(package, "build", books["main"]))
        found = limits_of(acted(package, "dependent", main, books["suburb"]))
        if any(abs(height[net, mark] - V) > limit for net, one in zip(n, found) for mark, (V, limit) in enumerate(one.entries, 1)):
            return False
    return True


class Printed:
    """A listing's guesses and limits."""

    def __init__(self, lines):
        numbers = [line.replace(b"(", b" ").replace(b")", b" ").split() for line in lines]
        self.guess = [int(words[2]) for words in numbers if words[0] == b"solution"]
        self.solution = [int(words[3]) for words in numbers if words[0] == b"solution"]
        self.entries = [(int(words[2]), int(words[3])) for words in numbers if words[0] == b"entry"]
        self.inverse = [list(map(int, words[2:])) for words in numbers if words[0] == b"inverse"]


def limits_of(text):
    """The listings that a text has, one after the other."""
    return [Printed(one.strip().split(b"\n")) for one in text.split(b"(end)\n")[:-1]]


# Suburbs of the net of two marks in examples/whole-file.txt: what is said of them; None where they are accepted.
SUBURBS = (
    (b"7 main:1 1 10 2\n", None),
    (b"7 main:1 1 10 2\n7 main:1 1 10 2\n", None),
    (b"7 main:1 1 10 2\n7 main:2 1 10 2\n", "(refused 17 (2))"),
    (b"7 main:1 1 10 2\n# again\n7 0 1 10 2\n", "(refused 17 (3))"),
    (b"7 1 main:1 10 2\n7 1 main:2 10 2\n", "(refused 17 (2))"),
    (b"8 main:1 1 5 1 2\n8 main:1 1 5 1 3\n", "(refused 17 (2))"),
    (b"7 main:3 1 10 2\n", "(refused 3 (1))"),
    (b"7 main:2 1 10 2\n8 1 main:0 10 2\n", "(refused 3 (2))"),
    (b"7 main:%s 1 10 2\n" % (b"9" * 400), "(refused 3 (1))"),
    (b"8 main:1 1 5 1\n7 main:1 main:2 10 2\n", "(refused 16 (2))"),
    (b"8 main:1 1 5 1\n7 0 main:2 10 2\n", "(refused 16 (2))"),
    (b"8 main:1 1 5 1\n7 main:3 0 10 2\n", "(refused 3 (2))"),
    (b"8 main:1 33 5 1\n", "(refused 3 (1))"),
    (b"8 main:1 1 5 65\n", "(refused 3 (1))"),
    (b"8 main:1 1 5 64 16384\n", None),
    (b"8 main:1 1 5 64 16385\n", "(refused 3 (0))"),
    (b"7 main:1 main:2 10 2\n", "(refused 3 (0))"),
    (b"", "(refused 3 (0))"),
)
# What is no mark of a main net, nor a number; main:1 is none where there is no main net.
UNREADABLE = (
    b"7 mian:1 1 10 2\n", b"7 main:-1 1 10 2\n", b"7 Main:1 1 10 2\n", b"7 main:1.0 1 10 2\n", b"main:7 0 1 10 1\n", b"7 main: 1 1 10 2\n", b"7 m1 1 10 2\n",
    b"7 main:1 1 main:1 2\n",
)  # fmt: skip


def suburbs_are_judged_by_their_lines(package):
    """Keys are compared while the marks of the main net are still apart; lines that come again count once."""
    if any((acted(package, "dependent", WHOLE, text) if form else type(acted(package, "dependent", WHOLE, text))) != (form or bytes) for text, form in SUBURBS):
        return False
    once, twice, fixed = (acted(package, "dependent", WHOLE, text) for text in (SUBURBS[0][0], SUBURBS[1][0], b"7 0 1 10 2\n"))
    # 23/16 and 13/16 are the main net's heights, in steps; a line of 10 units from mark 1 is 160 steps more, with no error of its own.
    return once == twice != fixed and limits_of(once)[1].guess == [183] and limits_of(fixed)[1].guess == [160]


def what_is_wrong_with_two_nets_is_reported(package):
    """Of which file, with its line; and as a filter, with either file on standard input."""
    reported = lambda main, text: command(package, "dependent", main, "-", input=text)
    is_one_line = lambda answer, status, out, *words: answer[:2] == (status, out) and answer[2].count(b"\n") == 1 and all(word in answer[2] for word in words)
    refused = ROOT / "examples" / "refused"
    wide = b"8 main:1 1 5 64 16384\n"
    open_height = b"8 main:1 1 5 1\n9 2 3 5 1\n"
    by_name = f"dependent: {MAIN_FILE} and standard input: ".encode()
    return (
        all(is_one_line(reported(MAIN_FILE, text), 2, b"", b"dependent: standard input: line 1: ") for text in UNREADABLE[:3])
        and all(type(acted_raising(package, text)).__name__ == "TextError" for text in UNREADABLE)
        and is_one_line(command(package, "build", input=SUBURBS[0][0]), 2, b"", b"'main:1' is not a whole number")
        and is_one_line(reported(MAIN_FILE, SUBURBS[2][0]), 1, b"(refused 17 (2))\n", by_name, b"the second of the two, line 2", b"marks of the main net differ")
        and is_one_line(reported(MAIN_FILE, SUBURBS[9][0]), 1, b"(refused 16 (2))\n", b"no end of it is a mark of the dependent net")
        and is_one_line(reported(TOWN / "net.txt", wide), 1, b"(refused 6 (1))\n", b"the second of the two, row 1")
        and is_one_line(reported(MAIN_FILE, open_height), 1, b"", b"leave a height open")
        and is_one_line(reported(refused / "5-inverse-of-0.txt", b"nonsense"), 1, b"(refused 5 (1))\n", b"the first of the two, row 1")
        and is_one_line(reported(refused / "15-no-end.txt", b""), 1, b"(refused 15 (0))\n", b"the first of the two: ")
        and is_one_line(command(package, "dependent", MAIN_FILE, "nowhere"), 2, b"", b"dependent: nowhere: ")
        and is_one_line(reported(MAIN_FILE, b"# long\n" * 200000), 2, b"", b"standard input: more than 1,048,576 bytes")
        and command(package, "dependent", "-", TOWN / "field.txt", input=WHOLE) == (0, acted(package, "dependent", WHOLE, FIELD), b"")
    )


def acted_raising(package, text):
    try:
        return acted(package, "dependent", WHOLE, text)
    except ValueError as error:
        return error


WIDE = 2  # a pair whose main net has limits so wide that they need coarse steps


def coarse_steps_leave_room(package):
    """What the main net's limits add to the slack has to fit beside the residual: propose --scale makes the steps for it."""
    fine, coarse = DependentPair(package, WIDE, scale=10), DependentPair(package, WIDE)
    made = command(package, "propose", "--scale", "6", input=coarse.main)
    refused, accepted = (acted(package, "dependent", dependent_net.file, dependent_net.text()) for dependent_net in (fine, coarse))
    return refused == "(refused 6 (6))" and made == (0, coarse.file, b"") and isinstance(accepted, bytes)
