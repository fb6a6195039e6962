"""A loader that takes sample lines and is checked, and checks on the lists that it filled: the commands of the script and what the program prints.

Every refusal of document 01 is met: 1 to 8 and 11 to 15; its cases a to k are checked through the loader and on lists."""

import random

from calls.check.oracle import KINDS, Bounds, Problem, check
from common.cases_01 import CASES, PAPERS, whole_file
from common.net import lines_of
from common.rules import Refusal

MARK = -7
SHOWN = 10
NAMES = ("matrix", "right", "tolerance", "guess", "inverse", "weights")


class Session:
    """A loader, and the entries so far: script and what is printed."""

    def __init__(self, printing):
        self.printing = printing
        self.entries = []

    def new(self):
        self.loader = self.printing.loader()
        for numbers in self.loader.lists.values():
            numbers[:] = [MARK] * len(numbers)
        self.command(b"n", "")
        self.text("new\n")

    def command(self, letter, text):
        """A command that prints a line, or nothing."""
        self.entries.append((b"\xfe" + letter, text and text + "\n"))

    def lines(self, *lines):
        for line in lines:
            self.entries.append((line, self.printing.said(self.loader.take(line)) + "\n"))

    def short(self, *lines):
        """Each line with each of the six lists one number too short."""
        for line in lines:
            for which in b"012345":
                self.command(bytes([which]) + line, self.printing.refused(8))

    def text(self, text):
        """A text that the program only prints."""
        self.entries.append((b"\xfet" + text.encode(), text))

    def show(self):
        for which, (name, kind) in enumerate(zip(NAMES, KINDS)):
            self.text(name)
            self.entries.append((b"\xfep" + bytes([which]), "".join(f" {number}" for number in self.loader.lists[kind][:SHOWN])))
            self.text("\n")

    def limits(self, outcome, solution, inverse):
        """The answer of a check, then the first limits of both lists, each list after its name."""
        bounds = outcome if isinstance(outcome, Bounds) else Bounds([], [])
        (one, first), (other, second) = solution, inverse
        flat = [limit for row in bounds.inverse for limit in row]
        refusal = None if isinstance(outcome, Bounds) else outcome
        return f"{self.printing.said(refusal)}{one}{self.printing.limits(bounds.solution, first)}{other}{self.printing.limits(flat, second)}"

    def computed(self, n, s, t):
        return check(Problem(n, s, t, *(self.loader.lists[kind] for kind in KINDS)))

    def check(self):
        """A check through the loader, and one with a solution limit list that is too short."""
        outcome = self.computed(self.loader.n, self.loader.s, self.loader.t) if self.loader.ended else Refusal(15)
        self.command(b"c", self.limits(outcome, (" solution", 3), (" inverse", 5)))
        self.command(b"d", self.printing.refused(8))

    def check_on_lists(self, letter, n, s, t):
        self.text(f"{letter}: ")
        self.command(b"k" + bytes((n, s, t)), self.limits(self.computed(n, s, t), ("; solution", 2), ("; inverse", 4)))


def whole(session, net):
    session.new()
    session.lines(*(line.encode() for line in lines_of(net)))
    session.show()
    session.check()


def cases(session):
    """01's whole file, then its cases through a loader and, but for case l, which is an entry, on lists."""
    whole(session, whole_file())
    session.lines(b"", b"(end)", b"(problem 2)", b"x" * 321)
    session.short(b"(end)")
    for case in CASES:
        whole(session, case.net)
        if case.name != "l":
            session.check_on_lists(case.name, case.net.n, case.net.s, case.net.t)
    for letter, n, s, t in (("N", 0, 4, 4), ("M", 33, 4, 4), ("S", 1, 21, 4), ("T", 1, 4, 21), ("U", 1, 20, 20)):
        session.check_on_lists(letter, n, s, t)


def early(session):
    session.new()
    session.check()
    session.lines(b"(scale 4 4)", b"(row 1 (4 -1))", b"(end)", b"", b"(problem 0)", b"(problem 33)", b"(problem -1)", b"(problem 18446744073709551617)")
    session.lines(b"(problem 2)", b"(problem 3)", b"(problem 33)", b"(right 1 5)", b"(end)", b"(row 9 (1))")
    session.lines(b"(scale 21 4)", b"(scale 4 21)", b"(scale -1 4)", b"(scale 4 -1)", b"(scale 4 20)", b"(scale 4 4)", b"(scale 4 21)", b"(problem 2)", b"(problem 40)")
    session.check()
    session.lines(b"(end)")
    session.show()


def refused(session):
    """Lines that are refused at a loader that stands open, and leave it and its lists."""
    session.new()
    session.lines(b"(problem 3)", b"(scale 0 20)", b"(end)")
    session.short(b"(row 1 (1 2 3))", b"", b"x" * 321)
    for word in (b"row", b"inverse"):
        head = b"(" + word + b" "
        session.lines(head + b"0 (1 2 3))", head + b"4 (1 2 3))", head + b"-1 (1 2 3))", head + b"4294967297 (1 2 3))", head + b"1 (1 2))", head + b"1 (1 2 3 4))")
        session.lines(head + b"1 (1 2 1048577))", head + b"1 (1 2 -1048577))", head + b"1 (1 2 3 1048577))", head + b"1 (1048577))", head + b"1 ())", head + b"1 (1 2 3 ))")
        session.lines(head + b"2 (-1048576 0 1048576))", head + b"2 (1 2 3))", head + b"2 (1 2))", head + b"2 (1 2 1048577))", head + b"02 (1 2 3))")
    for word, low, high in ((b"right", -(2**30), 2**30), (b"guess", -(2**36), 2**36), (b"weight", 1, 1024)):
        for i, value in ((0, high), (4, high), (1, low - 1), (1, high + 1), (1, 2**64 + high), (1, high), (1, low), (1, high + 1), (3, low)):
            session.lines(b"(%s %d %d)" % (word, i, value))
    session.lines(b"(end)", b"(end) ", b" (end)", b"(End)", b"(end", b"(end)\n", b"(end)\r", b"\t(end)", b"(end)\x00", b"(right 2  5)", b"(right 2 05)", b"(right 2 -0)", b"(right 2 +5)")
    session.lines(b"(row 1 (" + b" ".join([b"1"] * 155) + b"))", b"(row 1 (" + b" ".join([b"1"] * 156) + b"))", b"(" * 320, b"(" * 321)
    session.show()


def completed(session, rng, n):
    """n equations in any order, with an end before each of the last forms: 13 counts what is missing, and the loader is completed after it."""
    session.new()
    session.lines(b"(problem %d)" % n, b"(scale 3 5)")
    forms = []
    for i in range(1, n + 1):
        row, column = ([rng.randint(-9, 9) + (64 if j == i else 0) for j in range(1, n + 1)] for _ in range(2))
        forms += [b"(row %d (%s))" % (i, b" ".join(b"%d" % x for x in row)), b"(inverse %d (%s))" % (i, b" ".join(b"%d" % x for x in column))]
        forms += [b"(right %d %d)" % (i, rng.randint(-99, 99)), b"(guess %d %d)" % (i, rng.randint(-99, 99)), b"(weight %d %d)" % (i, rng.randint(1, 9))]
    rng.shuffle(forms)
    forms.sort(key=lambda form: form.startswith(b"(right 1 "))
    for place, form in enumerate(forms):
        if place % 16 == 0 or len(forms) - place < 4:
            session.lines(b"(end)")
        session.lines(form)
        if place % 9 == 0:
            session.lines(form)
    session.lines(b"(end)", b"(end)")
    session.show()
    session.check()


def left_out(session, given):
    """02, Paper 1: weights left out. A refused end writes none, and an accepted one 1 at each place of 1 to n that was not given, whatever stood there."""
    session.new()
    session.lines(b"(problem 3)", b"(scale 4 6)", *(b"(weight %d %d)" % (i, i + 1) for i in given))
    for i, row in enumerate((b"4 -1 0", b"-1 3 -1", b"0 -1 5"), 1):
        session.lines(b"(row %d (%s))" % (i, row), b"(right %d %d)" % (i, i), b"(guess %d %d)" % (i, (8, 18, 13)[i - 1]))
    session.lines(b"(inverse 1 (17 6 1))", b"(inverse 2 (6 25 5))", b"(end)")
    session.show()
    session.lines(b"(inverse 3 (1 5 14))", b"(end)", b"(weight 1 1)")
    session.show()
    session.check()


def tolerances(session, first, second):
    """02, Paper 5: right sides with and without a tolerance, in lists that held others. A refused line leaves both lists, and the other spelling is a repetition."""
    session.new()
    session.lines(b"(problem 2)", b"(scale 4 4)", b"(row 1 (4 -1))", b"(row 2 (-1 3))")
    session.lines(b"(right 1 (5))", b"(right 1 (5 3 1))", b"(right 1 (5 -1))", b"(right 1 (5 1048577))", b"(right 1 (1073741825 3))", b"(right 3 (5 3))", b"(right 0 (5 3 1))")
    session.show()
    session.lines(b"(right 1 %s)" % first, b"(right 2 %s)" % second)
    session.show()
    session.lines(b"(right 1 5)", b"(right 1 (5 0))", b"(right 1 (5 7))", b"(right 1 (5 1048577))", b"(right 2 (5 7))", b"(right 1 (5 7 7))", b"(end)")
    session.lines(b"(guess 1 23)", b"(guess 2 13)", b"(inverse 1 (4 1))", b"(inverse 2 (1 6))", b"(end)", b"(right 1 (5 3))")
    session.short(b"(right 1 (5 3))")
    session.show()
    session.check()
    session.check_on_lists("P", 2, 4, 4)
    session.check_on_lists("Q", 2, 20, 4)


def slack(session, s, a, tolerance, guess):
    """6 through slack alone, size of residual and slack together at 2^25 and beside it: the residual is −a·X and at most a."""
    session.new()
    session.lines(b"(problem 1)", b"(scale %d 20)" % s, b"(row 1 (%d))" % a, b"(right 1 (0 %d))" % tolerance, b"(guess 1 %d)" % guess)
    session.lines(b"(inverse 1 (%d))" % (1048576 // a), b"(end)")
    session.check()
    session.check_on_lists("R", 1, s, 20)


def row_sums(session):
    """02, Paper 9: the cases of residuals at the sums along their rows and above them, through a loader and on lists."""
    for case in PAPERS:
        if case.name.startswith("paper 9"):
            whole(session, case.net)
            session.check_on_lists("V", case.net.n, case.net.s, case.net.t)


def entries(printing):
    session = Session(printing)
    cases(session)
    early(session)
    refused(session)
    rng = random.Random(1)
    for n in (1, 2, 3, 7, 32):
        completed(session, rng, n)
    for given in ((), (2,), (3, 1), (1, 2, 3)):
        left_out(session, given)
    for first, second in ((b"5", b"1"), (b"5", b"(1 0)"), (b"(5 1)", b"1"), (b"(5 3)", b"(1 1048576)"), (b"(5 0)", b"(1 2)")):
        tolerances(session, first, second)
    for tolerance, guess in ((32, 0), (32, 1), (31, -1), (33, 0), (1048576, 0)):
        slack(session, 20, 1, tolerance, guess)
    for a, tolerance in ((524287, 63), (524288, 63), (524289, 63), (524289, 62)):
        slack(session, 19, a, tolerance, -1)
    row_sums(session)
    return session.entries
