"""Document 01's cases a to l, and cases of the papers of 02, with the lines of the listing for each."""

from typing import NamedTuple

from calls.listing.oracle import Program, without
from common.net import Net, file_of, lines_of, net_of


class Expected(NamedTuple):
    name: str
    net: Net
    lines: tuple
    whole: bool  # the lines are the whole listing


def one(s, t, A, b, X, G):
    return net_of(s, t, [[A]], [b], [X], [[G]], [1])


def whole_file(guess=(23, 13), weights=(1, 1)):
    return net_of(4, 4, [[4, -1], [-1, 3]], [5, 1], guess, [[4, 1], [1, 6]], weights)


def pair(G12):
    return net_of(0, 20, [[1048576, 0], [0, 1]], [0, 0], [0, 0], [[1, G12], [0, 1048576]], [1, 1])


def skewed(right, tolerance=(0, 0), G12=0):
    """Sums 4 and 5 along the rows, 5 and 4 down the columns, 9 in all; the residuals are the right side, and −4·G12, −G12 of the inverse's second column."""
    return net_of(0, 4, [[4, 0], [1, 4]], right, [0, 0], [[4, G12], [-1, 4]], [1, 1]).with_(tolerance=list(tolerance))


def accepted_one(X, E, V, limit, L):
    return ("(bounds 1)", f"(solution 1 ({X} {E}))", f"(entry 1 ({V} {limit}))", f"(inverse 1 ({L}))", "(end)")


WHOLE_LISTING = (
    "(bounds 2)", "(solution 1 (23 1))", "(solution 2 (13 1))", "(entry 1 (1 1))", "(entry 2 (1 1))",
    "(inverse 1 (1 1))", "(inverse 2 (1 1))", "(end)",
)

def refused(number, *values):
    return (f"(refused {number} ({' '.join(map(str, values))}))",)


# 02, Paper 9: "Of 01's cases, a and b become 7, column 1 row 1; f, g and h become 6, row 1; j becomes 7, column 2 row 1."
CASES = (
    Expected("a", one(0, 4, 4, 0, 0, 1), refused(7, 1, 1), True),
    Expected("b", one(0, 4, 4, 0, 0, 7), refused(7, 1, 1), True),
    Expected("c", one(0, 4, 4, 0, 0, 0), refused(5, 1), True),
    Expected("d", one(0, 4, 4, 0, 0, 8), refused(5, 1), True),
    Expected("e", whole_file(), WHOLE_LISTING, True),
    Expected("f", whole_file((20, 13)), refused(6, 1), True),
    Expected("g", whole_file((20, 13), (3, 1)), refused(6, 1), True),
    Expected("h", one(0, 20, 1048576, 0, 32, 1), refused(6, 1), True),
    Expected("i", one(0, 20, 1048576, 0, 33, 1), refused(6, 1), True),
    Expected("j", pair(32), refused(7, 2, 1), True),
    Expected("k", pair(33), refused(7, 2, 1), True),
    Expected("l", one(4, 4, 2, -3, -24, 8), accepted_one(-24, 0, -2, 1, 0), True),
)

# What 01 states for the cases that Paper 9 refuses: "Limits already in the register remain true."
STATED = {
    "a": (accepted_one(0, 0, 0, 0, 3), True),
    "b": (accepted_one(0, 0, 0, 0, 21), True),
    "f": (("(solution 1 (20 4))", "(solution 2 (13 4))"), False),
    "g": (("(solution 1 (20 4))", "(solution 2 (13 2))"), False),
    "h": (("(solution 1 (32 32))",), False),
    "j": (("(inverse 1 (0 33))", "(inverse 2 (0 33))"), False),
}

# By the rules before Paper 9.
CASES_01 = tuple(case._replace(lines=STATED[case.name][0], whole=STATED[case.name][1]) if case.name in STATED else case for case in CASES)

# 02, Paper 2: "With X = 24, s = 4 and E = 10 the entry is 2 and its limit goes from 1 to 2."; the limit of 10 comes of a tolerance of 5.
# 02, Paper 5: x = b with a tolerance of 3 has a limit of 3·S; with 1 for the first right side of the whole file the sizes are 4 + 4·16 and 1 + 16, and with
# 1 and 2 they are 4 + 4·16 + 1·32 and 1 + 1·16 + 6·32 over margins 14 and 13. A residual of 2^19 with a slack of 63·2^19 is at 2^25, one more is above it.
# 02, Paper 9: residuals at the sum along their row, 4, and above it, of the guess and of the inverse. The whole file with weights 3 and 1 has margins 44 and
# 9: dividing first and multiplying by the weight afterwards would give 3 for its first limit. Of two rows each is held to its own sum, whatever its slack.
PAPERS = (
    Expected("paper 2", one(4, 4, 8, 12, 24, 2).with_(tolerance=[5]), accepted_one(24, 10, 2, 2, 0), True),
    Expected("paper 5", one(4, 4, 1, 0, 0, 16).with_(tolerance=[3]), accepted_one(0, 48, 0, 3, 0), True),
    Expected("paper 5 e", whole_file().with_(tolerance=[1, 0]), ("(solution 1 (23 5))", "(solution 2 (13 5))", "(entry 1 (1 1))", "(inverse 1 (1 1))"), False),
    Expected("paper 5 e, both", whole_file().with_(tolerance=[1, 2]), ("(solution 1 (23 17))", "(solution 2 (13 17))", "(inverse 1 (1 1))", "(inverse 2 (1 1))"), False),
    Expected("paper 5 both at 2^25", one(19, 20, 2**19, 0, 1, 2).with_(tolerance=[63]), ("(solution 1 (1 64))", "(inverse 1 (0))"), False),
    Expected("paper 5 both above 2^25", one(19, 20, 2**19 + 1, 0, 1, 2).with_(tolerance=[63]), refused(6, 1), True),
    Expected("paper 9 weighted", whole_file((23, 13), (3, 1)), ("(solution 1 (23 1))", "(solution 2 (13 1))"), False),
    Expected("paper 9 guess at the sum", one(0, 4, 4, 0, 1, 4), accepted_one(1, 1, 1, 1, 0), True),
    Expected("paper 9 guess above the sum", one(0, 4, 4, 0, 2, 4), refused(6, 1), True),
    Expected("paper 9 inverse at the sum", one(0, 4, 4, 0, 0, 3), accepted_one(0, 0, 0, 0, 1), True),
    Expected("paper 9 inverse above the sum", one(0, 4, 4, 0, 0, 2), refused(7, 1, 1), True),
    Expected("two rows, paper 9, at both sums", skewed([4, 5]), ("(solution 1 (0 1))", "(solution 2 (0 1))"), False),
    Expected("two rows, paper 9, above the first sum", skewed([5, 4]), refused(6, 1), True),
    Expected("two rows, paper 9, above the second sum", skewed([4, 6]), refused(6, 2), True),
    Expected("two rows, paper 9, above the sum by no more than the slack", skewed([5, 4], tolerance=(1, 0)), refused(6, 1), True),
    Expected("two rows, paper 9, column at the sum", skewed([0, 0], G12=1), ("(inverse 1 (0 2))", "(inverse 2 (0 2))"), False),
    Expected("two rows, paper 9, column above the sum", skewed([0, 0], G12=2), refused(7, 2, 1), True),
    Expected("paper 9 slack alone", one(20, 20, 1, 0, 0, 2**20).with_(tolerance=[33]), refused(6, 1), True),
)


def agrees(case, listing):
    """Whether a listing is the one expected, or has the lines expected."""
    lines = listing.decode("latin-1").split("\n")
    if case.whole:
        return lines == [*case.lines, ""]
    return all(line in lines for line in case.lines)


def file(case):
    return file_of(lines_of(case.net))


def tests():
    """The cases give the lines they say, and by the rules before Paper 9 those that 01 states."""
    for program, cases in ((Program(), CASES + PAPERS), (without("residuals_within_row_sums"), CASES_01)):
        for case in cases:
            listing = program.listing(file(case))
            yield f"case {case.name}", [] if agrees(case, listing) else [repr(listing)]
