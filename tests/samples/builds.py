"""Lists of field lines that the program `samples` builds, with what it prints: what is said, then the first numbers of both lists, which hold -7 before."""

import random

from calls.build.oracle import COLUMN, FULL, MATRIX, MOST, Build, Builder
from common.rules import Refusal
from common.systems.field import conflicting, listed, of_length, town

MARK = -7
# The program reads numbers up to this size.
LARGEST = 2**40
SHORT, LONG = 60, 3


def is_readable(call):
    return all(abs(number) < LARGEST for line in call.lines for number in line)


def calls():
    """The town's lines; lists by chance, most of them short; lists of 0, 1, 256 and 257 lines."""
    yield town()
    rng = random.Random("stored builds")
    kept = 0
    while kept < SHORT:
        call = listed(rng)
        if call.n < 6 and len(call.lines) < 12 and is_readable(call):
            kept += 1
            yield call
    for n, length in ((3, 0), (2, 1), (1, MOST), (2, MOST + 1)):
        yield Build(n, tuple(of_length(rng, n, length)))
    yield Build(4, tuple(conflicting(rng, 4, of_length(rng, 4, 20))))
    yield Build(33, town().lines)


def shown(call, answer):
    """Both lists afterwards, as far as they are printed."""
    matrix, right = ([], []) if isinstance(answer, Refusal) else answer
    marked = lambda numbers, length: list(numbers) + [MARK] * (length - len(numbers))
    count = 26 if call.n < 6 else MATRIX
    return marked(matrix, MATRIX)[:count], marked(right, COLUMN)


def entry(printing, letter, call):
    answer = Builder().build(call)
    said = printing.refused(*answer) if isinstance(answer, Refusal) else "built"
    matrix, right = shown(call, answer)
    numbers = [call.n, *(number for line in call.lines for number in line)]
    printed = said + "".join(f" {a}" for a in matrix) + " right" + "".join(f" {b}" for b in right) + "\n"
    return b"\xfe" + letter + "".join(f"{number} " for number in numbers).encode(), printed


def entries(printing):
    """Each list as a command of the script; some with a list that is one number too short."""
    for place, call in enumerate(calls()):
        yield entry(printing, b"b", call)
        if place % 20 == 1:
            yield entry(printing, b"a", call._replace(lengths=FULL._replace(matrix=MATRIX - 1)))
            yield entry(printing, b"r", call._replace(lengths=FULL._replace(right=COLUMN - 1)))
