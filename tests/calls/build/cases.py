"""Lists of field lines (02, Paper 3) by chance, for squares and lower halves, and damaged calls of them."""

import random
import struct
from pathlib import Path

from calls.build.mutants import LINES, MUTANTS
from calls.build.oracle import FULL, LEAST, LOWER, SQUARE, Builder
from calls.half.oracle import HALF, HalfEntry
from common.net import joined
from common.replayed import Kept, Made, text, written
from common.rules import Refusal
from common.suite import Suite
from common.systems import usual
from common.systems.field import damaged, halved, listed, town

PADDING = 0x81010181
TOWN_NET = Path(__file__).resolve().parents[3] / "examples/town/net.txt"

REQUIRED = dict.fromkeys(
    (
        *("built", "refused 3", "refused 8", "refused 16", "refused 17"),
        *("a list of 0", "a list of 1", "a list of 256", "a list of 257", "a key met again and built", "mark 0 and mark n", "0 to 0", "16 with a key met before"),
        *("a right side of 2^30", "a right side of -2^30", "3 after a good line", "a refusal with lines after it"),
        *("half built", "half refused 3", "half refused 8", "half refused 16", "half refused 17"),
        *("a half of 527", "a half of 528", "a half above 528", "half with n = 32"),
    ),
    20,
)


def generate(seed, count):
    """Every list as a square, and each second one as a half too; some of either damaged."""
    yield town()
    for index in range(count):
        rng = random.Random(f"builds {seed}/{index}")
        call = listed(rng)
        for laid in (call, halved(rng, call)) if index % 2 else (call,):
            yield laid
            if rng.randrange(4) == 0:
                yield damaged(rng, laid)


def packed(line):
    """The 32 bytes of a field line in memory, with what is no number between its numbers and after them."""
    return struct.pack("<IIIIqII", line.key, line.start, line.to, PADDING, line.difference, line.weight, PADDING)


def calls(call, answer):
    """A build, and the one that gives the refused line."""
    number, line, matrix, right = (answer.number, Builder().refused_line(call), (), ()) if isinstance(answer, Refusal) else (0, 0, *answer)
    name = "kodarfi_build" + "_half" * (call.layout == LOWER)
    lists = len(call.lines), written(FULL.matrix, matrix), call.lengths.matrix, written(FULL.right, right), call.lengths.right
    yield Made(name, [call.n, text(b"".join(map(packed, call.lines))), *lists], number)
    yield Made(f"{name}_line", [call.n, Kept(0), *lists, written(1, [line])], number, kept=1)


def half_coverage(call, answer):
    yield f"half refused {answer.number}" if isinstance(answer, Refusal) else "half built"
    yield f"a half of {call.lengths.matrix}" if call.lengths.matrix <= HALF else "a half above 528"
    if call.n == 32:
        yield "half with n = 32"


def coverage(call, answer):
    lines = call.lines
    if call.layout == LOWER:
        yield from half_coverage(call, answer)
    yield f"a list of {len(lines)}"
    if isinstance(answer, Refusal):
        yield f"refused {answer.number}"
        at = Builder().refused_line(call) - 1
        if at >= 0:
            if answer.number == 3 and at > 0:
                yield "3 after a good line"
            if at + 1 < len(lines):
                yield "a refusal with lines after it"
            if answer.number == 16 and lines[at].start == 0:
                yield "0 to 0"
            if answer.number == 16 and lines[at].key in {line.key for line in lines[:at]}:
                yield "16 with a key met before"
        return
    yield "built"
    if len({line.key for line in lines}) < len(lines):
        yield "a key met again and built"
    marks = {mark for line in lines for mark in (line.start, line.to)}
    if {0, call.n} <= marks:
        yield "mark 0 and mark n"
    if 2**30 in answer.right:
        yield "a right side of 2^30"
    if -(2**30) in answer.right:
        yield "a right side of -2^30"


def town_faults():
    """What is wrong with the town's equations beside those of its file."""
    built, net = Builder().build(town()), TOWN_NET.read_text()
    if not all(f"(row {i + 1} ({joined(built.matrix[i * 8 : i * 8 + 8])}))" in net and f"(right {i + 1} {built.right[i]})" in net for i in range(8)):
        yield "the town's file has other equations"


def levelling_faults(index):
    """What is wrong with the matrix of a levelling net of the other tests, added up line by line."""
    n = 1 + index % 32
    matrix = usual.levelling_matrix(random.Random(index), n, 64)
    rows = [[0] * n for _ in range(n)]
    for low, high, weight in usual.levelling_lines(random.Random(index), n, 64):
        for mark, other in ((low, high), (high, low)):
            if mark:
                rows[mark - 1][mark - 1] += weight
                if other:
                    rows[mark - 1][other - 1] -= weight
    if [list(row) for row in matrix] != rows:
        yield "another matrix"


def others():
    yield "the town", list(town_faults())
    yield from ((f"levelling net {index}", list(levelling_faults(index))) for index in range(50))


def faults(index, call, answer):
    """A half, filled out, is what the square layout gives."""
    if call.layout == LOWER and not isinstance(answer, Refusal):
        square = Builder().build(call._replace(layout=SQUARE, lengths=LEAST[SQUARE]))
        if HalfEntry().filled_out(call.n, answer.matrix) != square.matrix or answer.right != square.right:
            yield "the half, filled out, is not what the square layout gives"


SUITE = Suite(
    count=6000, tested_count=2000, generate=generate, calls=calls, coverage=coverage, required=REQUIRED, faults=faults, others=others,
    answers=dict.fromkeys((f"kodarfi_build{half}{line}" for half in ("", "_half") for line in ("", "_line")), (0, 3, 8, 16, 17)),
    answer=Builder().build,
    mutants=(
        (MUTANTS, lambda mutant, call, answer: mutant.build(call) != answer),
        (LINES, lambda mutant, call, answer: mutant.refused_line(call) != Builder().refused_line(call)),
    ),
)
