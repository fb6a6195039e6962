"""Small files made by rule and not by chance: document 01's cases, its whole file with one thing changed, and the examples of source 002."""

from common import cases_01, examples_002
from common.damage.numbers import WORDS, with_number
from common.damage.spelling import MISSPELT, WAYS
from common.format import PLACED, RANGES
from common.generate import Case
from common.net import file_of, lines_of, net_of

WHOLE = tuple(lines_of(cases_01.whole_file()))

# The first line of each word in the whole file.
FIRST = {line[1:-1].split(" ")[0]: at for at, line in reversed(list(enumerate(WHOLE)))}


def replaced(at, *lines):
    return list(WHOLE[:at]) + list(lines) + list(WHOLE[at + 1 :])


def inserted(at, *lines):
    return list(WHOLE[:at]) + list(lines) + list(WHOLE[at:])


def at_ends_of_ranges():
    """Every number of every kind at the ends of its range and one beyond."""
    for word in WORDS:
        line, (low, high) = WHOLE[FIRST[word]], RANGES[word]
        for which in {"problem": (0,), "scale": (0, 1), "row": (1, 2), "inverse": (1, 2)}.get(word, (1,)):
            for value in (low - 1, low, high, high + 1):
                yield f"{word} number {which} is {value}", replaced(FIRST[word], with_number(line, which, value))


def places():
    """01: i is 1 to n."""
    for word in ("row", "right", "guess", "inverse", "weight"):
        line = WHOLE[FIRST[word]]
        for value in (-1, 0, 3, 32, 33, 2**32 + 1, 2**64 + 1):
            yield f"{word} place {value}", replaced(FIRST[word], with_number(line, 0, value))


def lists():
    """Lists of other than n numbers, with a number out of range among them or not, given for the first time or again."""
    for word in ("row", "inverse"):
        for numbers in ("1", "1 2 3", "1 2 1048577", "1048577", "1 " * 31 + "1", "1 " * 32 + "1"):
            yield f"{word} with {numbers[:12]}", replaced(FIRST[word], f"({word} 1 ({numbers}))")
            yield f"{word} again with {numbers[:12]}", inserted(12, f"({word} 1 ({numbers}))")


def spellings():
    """Every misspelt line before the end, and every other way of writing a line of each word."""
    for text in MISSPELT:
        yield f"{text!r}", inserted(12, text)
    for word, at in FIRST.items():
        for number, way in enumerate(WAYS):
            yield f"{word} written in way {number}", replaced(at, way(WHOLE[at]))


def lengths():
    """Lines of 319 to 322 bytes in every stage."""
    for length in (319, 320, 321, 322):
        for at in (0, 1, 2, 12, 13):
            yield f"list of {length} bytes at {at}", inserted(at, "(row 1 (" + "1 " * 150 + "1" * (length - 310) + "))")
            yield f"number of {length} bytes at {at}", inserted(at, "(right 1 " + "9" * (length - 10) + ")")
            yield f"no form of {length} bytes at {at}", inserted(at, "x" * length)


def orders():
    """Forms too early, given again, missing, after the end."""
    for at, line in enumerate(WHOLE):
        yield f"line {at} first", [line, *WHOLE[:at], *WHOLE[at + 1 :]]
        yield f"line {at} again", inserted(12, line)
        yield f"line {at} after the end", inserted(13, line)
        yield f"line {at} missing", replaced(at)
        yield f"end after line {at}", inserted(at, "(end)")
        if at > 0:
            yield f"line {at} second", [WHOLE[0], line, *WHOLE[1:at], *WHOLE[at + 1 :]]
        yield f"nothing from line {at}", list(WHOLE[:at])
    for at in (1, 2, 5, 12, 13):
        for text in ("(problem 2)", "(problem 3)", "(problem 33)", "(problem 0)", "(scale 4 4)", "(scale 21 4)", "(scale 4 -1)", "(end)", "", "x" * 321, "x"):
            yield f"'{text[:12]}' at {at}", inserted(at, text)


def pasted():
    """02, Paper 6: the two lines of a kind pasted again, at once and before the end, and the copy's first line damaged in every way."""
    for word, at in FIRST.items():
        if word not in PLACED:
            continue
        line, (low, high) = WHOLE[at], RANGES[word]
        copies = {"as it is": line, "another number": with_number(line, 1, 7)}
        copies |= {f"number {value}": with_number(line, 1, value) for value in (low - 1, high + 1, 2**64 + 1)}
        copies |= {f"place {i}": with_number(line, 0, i) for i in (-1, 0, 3, 33, 2**32 + 1, 2**64 + 1)}
        copies |= {f"place {i}, number {high + 1}": with_number(with_number(line, 1, high + 1), 0, i) for i in (0, 3)}
        if word in ("row", "inverse"):
            copies |= {f"with {numbers}": f"({word} 1 ({numbers}))" for numbers in ("1", "1 2 3", "1 2 1048577", "1048577")}
            copies |= {f"place {i}, with {numbers}": f"({word} {i} ({numbers}))" for i in (0, 3) for numbers in ("1", "1 2 3", "1048577")}
        for name, copy in copies.items():
            for where in (at + 2, 12):
                yield f"{word} pasted at {where}, {name}", inserted(where, copy, WHOLE[at + 1])


def left_out():
    """02, Paper 1: the whole file without weights, with one, and with one twice; weights of 1 and others."""
    others = [line for line in WHOLE[:-1] if not line.startswith("(weight")]
    for weights in ((), ("(weight 1 1)",), ("(weight 2 1)",), ("(weight 1 3)",), ("(weight 2 3)",), ("(weight 2 0)",), ("(weight 3 1)",), ("(weight 2 1)", "(weight 2 1)")):
        yield f"weights {' '.join(weights)}", [*others, *weights, WHOLE[-1]]
        yield f"weights {' '.join(weights)} first", [*WHOLE[:2], *weights, *others[2:], WHOLE[-1]]
    for at in range(2, len(others)):
        yield f"no weights and no line {at}", [*others[:at], *others[at + 1 :], WHOLE[-1]]


def tolerances():
    """02, Paper 5: the whole file's right sides written with a tolerance, one of them or both; numbers at the ends of their ranges; other places; given again."""
    low, high = RANGES["tolerance"]
    for d in (low - 1, low, 1, 7, high, high + 1, 2**64, 2**64 + 1, -(2**64), 10**290):
        yield f"first {d}", replaced(FIRST["right"], f"(right 1 (5 {d}))")
        yield f"second {d}", replaced(FIRST["right"] + 1, f"(right 2 (1 {d}))")
    for b in (-(2**30) - 1, -(2**30), 2**30, 2**30 + 1, 2**64 + 5):
        for d in (0, high, high + 1):
            yield f"right side {b} with {d}", replaced(FIRST["right"], f"(right 1 ({b} {d}))")
    for d in (0, 3):
        yield f"both {d}", [line.replace("(right 1 5)", f"(right 1 (5 {d}))").replace("(right 2 1)", f"(right 2 (1 {d}))") for line in WHOLE]
    for i in (-1, 0, 3, 32, 33, 2**32 + 1, 2**64 + 1):
        yield f"place {i}", replaced(FIRST["right"], f"(right {i} (5 3))")
        yield f"place {i}, beyond", replaced(FIRST["right"], f"(right {i} (5 {high + 1}))")
    for first in ("(right 1 5)", "(right 1 (5 0))", "(right 1 (5 3))"):
        for again in ("(right 1 5)", "(right 1 (5 0))", "(right 1 (5 3))", "(right 1 (6 1))", f"(right 1 (5 {high + 1}))", "(right 1 (1073741825 0))", "(right 1 (5))", "(right 1 (5 3 0))"):
            yield f"{first} and {again}", [first if line == "(right 1 5)" else line for line in inserted(12, again)]
    for at in (0, 1, 13):
        yield f"at {at}", inserted(at, "(right 1 (5 3))")
        yield f"three numbers at {at}", inserted(at, "(right 1 (5 3 3))")


def right_lists():
    """02, Paper 5: right sides with a list of any count, their numbers in range or the last not."""
    for count in (1, 2, 3, 4, 31, 32, 33, 34, 100):
        for last in (0, 2**20 + 1):
            numbers = " ".join(["5", *["1"] * (count - 2), str(last)][-count:])
            yield f"{count} numbers, the last {last}", replaced(FIRST["right"], f"(right 1 ({numbers}))")
            yield f"again {count} numbers, the last {last}", inserted(12, f"(right 1 ({numbers}))")


def slacks():
    """02, Paper 5: size of residual and slack at 2^25 and beside it; slacks under an inverse with numbers of both signs."""
    for d in (0, 1, 31, 32, 33, 2**20):
        for X in (-1, 0, 1):
            yield f"tolerance {d}, guess {X}", lines_of(cases_01.one(20, 20, 1, 0, X, 2**20).with_(tolerance=[d]))
    for tolerance in ((1, 0), (0, 1), (1, 1), (3, 2), (2**20, 2**20)):
        yield f"tolerances {tolerance}", lines_of(cases_01.whole_file().with_(tolerance=tolerance))
        signed = net_of(4, 4, [[1, 1], [0, 1]], [5, 1], [64, 16], [[16, -16], [0, 16]], [1, 1])
        yield f"tolerances {tolerance}, signs", lines_of(signed.with_(tolerance=tolerance))


def entries():
    """Guesses at halves of a unit and beside them, on both sides of 0: exact, a step away, and with a tolerance."""
    for X in (-41, -40, -39, -25, -24, -23, -9, -8, -7, 0, 7, 8, 9, 23, 24, 25, 39, 40, 41):
        for away, d in ((0, 0), (1, 0), (0, 9)):
            name = f"entry of {X}" + f", {away} away" * away + f", tolerance {d}" * (d > 0)
            yield name, lines_of(cases_01.one(4, 4, 16, X + away, X, 1).with_(tolerance=[d]))


def row_sums():
    """02, Paper 9: residuals at the sums along their rows and on both sides of them, of the guess and of the inverse; rows and columns of unequal sums; slacks."""
    for X in (-3, -2, -1, 1, 2, 3):
        yield f"guess {X}", lines_of(cases_01.one(0, 4, 4, 0, X, 4))
    for G in range(1, 8):
        yield f"inverse {G}", lines_of(cases_01.one(0, 4, 4, 0, 0, G))
    for x in range(19, 28):
        yield f"whole file, guess {x} 13", lines_of(cases_01.whole_file((x, 13)))
        yield f"whole file, guess 23 {x - 10}", lines_of(cases_01.whole_file((23, x - 10)))
    for at, g in ((at, g) for at in range(4) for g in range(-2, 10)):
        inverse = [4, 1, 1, 6]
        inverse[at] = g
        yield f"whole file, number {at} of the inverse {g}", lines_of(cases_01.whole_file().with_(inverse=[inverse[:2], inverse[2:]]))
    uneven = net_of(0, 6, [[8, 5], [0, 1]], [13, 1], [1, 1], [[8, -40], [0, 64]], [1, 1])
    for b in range(-1, 28, 2):
        yield f"uneven, right side {b}", lines_of(uneven.with_(right=[b, 1]))
        yield f"uneven, right side {b}, tolerance 7", lines_of(uneven.with_(right=[b, 1], tolerance=[7, 0]))
    for b in (-1, 0, 1, 2, 3):
        yield f"uneven, second right side {b}", lines_of(uneven.with_(right=[13, b]))
    for a in (2**19 - 1, 2**19, 2**19 + 1):
        for d in (62, 63, 64):
            yield f"row of {a}, tolerance {d}", lines_of(cases_01.one(19, 19, a, 0, -1, 1).with_(tolerance=[d]))


def row_sum_orders():
    """02, Paper 9: both tests of a residual in several rows and columns: the lowest that fails either is given, and 6 before 7."""
    unit = lambda guess, tolerance: net_of(20, 20, [[1, 0], [0, 1]], [0, 0], guess, [[2**20, 0], [0, 2**20]], [1, 1]).with_(tolerance=tolerance)
    for sign in (1, -1):
        for guess, tolerance in (((2, 0), (0, 33)), ((0, 2), (33, 0)), ((2, 2**25 + 1), (0, 0)), ((2**25 + 1, 2), (0, 0)), ((1, 2), (33, 0)), ((0, 2), (0, 33))):
            yield f"guess {guess} times {sign}, tolerances {tolerance}", lines_of(unit([sign * X for X in guess], tolerance))
    twice = net_of(0, 4, [[4, 0], [0, 4]], [0, 0], [0, 0], [[4, 2], [2, 4]], [1, 1])
    yield "both columns above their sums", lines_of(twice)
    yield "both columns and the second row", lines_of(twice.with_(guess=[0, 2]))
    for below in (0, 1, 2, -2):
        for X in (0, 1, 2):
            poor = cases_01.pair(33).with_(weights=[1, 1024], inverse=[[1, 33], [below, 1048576]], guess=[0, X])
            yield f"inverse above 2^25, {below} below it, guess {X}", lines_of(poor)


def widest():
    """32 equations with every number at the same end of its range: the longest lines and the largest sums."""
    for side in (1, -1):
        for s, t in ((20, 20), (0, 0)):
            many = lambda value: [side * value] * 32
            rows = [many(2**20)] * 32
            net = net_of(s, t, rows, many(2**30), many(2**36), rows, [1024] * 32)
            yield f"sign {side}, steps {s} {t}", lines_of(net)


def by_bytes():
    """Line ends: none at all, none at the last line, one too many, and carriage returns."""
    file = file_of(WHOLE)
    yield "empty file", b""
    yield "one line feed", b"\n"
    yield "no last line feed", file[:-1]
    yield "two last line feeds", file + b"\n"
    yield "line feed first", b"\n" + file
    yield "carriage returns", file.replace(b"\n", b"\r\n")
    yield "carriage returns alone", file.replace(b"\n", b"\r")
    yield "zero byte at the end", file + b"\0"
    yield "zero byte for a space", file.replace(b" ", b"\0", 1)
    yield "mark of the byte order", b"\xef\xbb\xbf" + file


def cases():
    for case in cases_01.CASES:
        yield Case(f"01 case {case.name}", cases_01.file(case))
    for case in cases_01.PAPERS:
        yield Case(f"02 {case.name}", cases_01.file(case))
    for group in (at_ends_of_ranges, places, lists, spellings, lengths, orders, pasted, left_out, entries, widest, tolerances, right_lists, slacks, row_sums, row_sum_orders):
        for name, lines in group():
            yield Case(f"{group.__name__}: {name}", file_of(lines))
    for name, file in by_bytes():
        yield Case(f"by_bytes: {name}", file)
    for name, net, *_ in examples_002.nets():
        yield Case(name, file_of(lines_of(net)))
