"""A function for every call of the library, lists in and lists out. No list is ever too short, so nothing is refused with 8; whatever else a call refuses
is raised as Refused. What is promised of each call is proved, and include/kodarfi.h states it in full; these lines only hand the numbers over.

A number that is too large for the call's type is handed over as the largest, which is outside every range: it is refused with 3 like any other."""

import ctypes
from itertools import chain
from operator import index
from typing import Any, List, Sequence, Tuple

from .library import Observation, library
from .nets import Common, Entry, Factor, Found, Limits, Listing, Net, Proposal, Refused, Rows, _rows, _whole

MATRIX_LENGTH, COLUMN_LENGTH, HALF_LENGTH, LISTING_LENGTH, CONVERTED_LENGTH = 1024, 32, 528, 32768, 21300
I64_MAX, U32_MAX, U64_MAX = 2**63 - 1, 2**32 - 1, 2**64 - 1
# The refusals of a listing whose first place is the file's line.
WITH_LINE = (1, 2, 3, 4, 11, 12, 14)

_Places = ctypes.c_uint64 * 2


def _u32(number: int) -> int:
    """A number outside its type becomes the highest, which no range has."""
    return number if 0 <= index(number) <= U32_MAX else U32_MAX


def _i64(number: int) -> int:
    return max(-I64_MAX - 1, min(I64_MAX, index(number)))


def _u64(number: int) -> int:
    return number if 0 <= index(number) <= U64_MAX else U64_MAX


def _flat(rows: Rows) -> List[int]:
    return list(chain.from_iterable(rows))


def _signed(numbers: Sequence[int], length: int) -> List[Any]:
    """A list as calls take it, filled up with zeros to its full length, and that length."""
    length = max(length, len(numbers))
    return [(ctypes.c_int64 * length)(*map(_i64, numbers)), length]


def _unsigned(length: int, numbers: Sequence[int] = ()) -> List[Any]:
    length = max(length, len(numbers))
    return [(ctypes.c_uint64 * length)(*map(_u64, numbers)), length]


def _doubles(numbers: Sequence[float] = ()) -> List[Any]:
    length = max(COLUMN_LENGTH, len(numbers))
    return [(ctypes.c_double * length)(*numbers), length]


def _square(net: Net) -> List[Any]:
    return _signed(_flat(_rows("matrix", net.matrix, [net.n] * net.n)), MATRIX_LENGTH)


def _column(numbers: Sequence[int]) -> List[Any]:
    return _signed(numbers, COLUMN_LENGTH)


def _sizes(proposal: Proposal) -> List[int]:
    return [_u32(proposal.net.n), _u32(proposal.s), _u32(proposal.t)]


def _proposal(proposal: Proposal) -> List[Any]:
    """The lists of a proposal after its matrix."""
    inverse = _signed(_flat(proposal.inverse), MATRIX_LENGTH)
    return [*_column(proposal.net.right), *_column(proposal.net.tolerance), *_column(proposal.guess), *inverse, *_column(proposal.weights)]


class _Bounds:
    """Room for limits, as calls take it."""

    def __init__(self) -> None:
        self.lists = _unsigned(COLUMN_LENGTH) + _unsigned(MATRIX_LENGTH)

    def limits(self, n: int) -> Limits:
        solution, _, inverse, _ = self.lists
        return Limits(solution[:n], [inverse[i * n : i * n + n] for i in range(n)])


def _answer(number: int, places: Sequence[int] = (0, 0), line: int = 0, net: int = 0) -> None:
    """Raises what is refused."""
    if number:
        raise Refused(number, list(places), line, net)


def check(proposal: Proposal) -> Limits:
    """The limits of a proposal (kodarfi_check): the exact solution of every right side, in fractions, that differs from the net's by at most the tolerance
    in each place lies within limits.solution steps of the guess, and the exact inverse within limits.inverse of the proposed one.

    Refused: 3 a number outside its range; 5 a margin of 0 or less; 6 a residual of the guess too large; 7 a residual of the inverse too large."""
    bounds, places = _Bounds(), _Places()
    _answer(library().kodarfi_check(*_sizes(proposal), *_square(proposal.net), *_proposal(proposal), *bounds.lists, places), places)
    return bounds.limits(proposal.net.n)


def check_half(proposal: Proposal) -> Limits:
    """The same for a net that has the lower half of its symmetric matrix, rows of 1, 2, .. n numbers (kodarfi_check_half)."""
    net, bounds, places = proposal.net, _Bounds(), _Places()
    half = _signed(_flat(_rows("matrix", net.matrix, range(1, net.n + 1))), HALF_LENGTH)
    _answer(library().kodarfi_check_half(*_sizes(proposal), *half, *_proposal(proposal), *bounds.lists, places), places)
    return bounds.limits(net.n)


def listing(file: bytes) -> Listing:
    """The listing of a file, byte for byte what ./register prints for it, and what is refused (kodarfi_listing). It raises nothing."""
    text, written, places = (ctypes.c_uint8 * LISTING_LENGTH)(), ctypes.c_size_t(), _Places()
    number = library().kodarfi_listing(bytes(file), len(file), text, ctypes.byref(written), places)
    line = places[0] if number in WITH_LINE else 0
    return Listing(bytes(text[: written.value]), Refused(number, [0, 0] if line else list(places), line) if number else None)


def entry(guess: int, bound: int, s: int) -> Entry:
    """The register entry of a guess, and of its limit, both in steps of 2^s to a unit (kodarfi_entry): every height within `bound` steps of the guess lies
    within entry.limit units of entry.value, and no smaller limit would do.

    Refused: 3 the guess or s is outside its range. A bound outside 0 to 2^64 - 1 is a ValueError."""
    if not 0 <= index(bound) <= U64_MAX:
        raise ValueError("bound is not 0 to 2^64 - 1")
    value, limit, places = ctypes.c_int64(), ctypes.c_uint64(), _Places()
    _answer(library().kodarfi_entry(_i64(guess), bound, _u32(s), ctypes.byref(value), ctypes.byref(limit), places), places)
    return Entry(value.value, limit.value)


def find_weights(matrix: Rows, inverse: Rows, t: int, allowance: int = 64) -> Found:
    """Weights with which every margin is above 0, found by trying at most `allowance` lists, 1 to 64 (kodarfi_find_weights): first 1 everywhere, then each
    from the one before it.

    Refused: 3 a number outside its range; 18 none of the allowed lists is good."""
    n = len(matrix)
    lists = [*_signed(_flat(_rows("matrix", matrix, [n] * n)), MATRIX_LENGTH), *_signed(_flat(_rows("inverse", inverse, [n] * n)), MATRIX_LENGTH)]
    weights, tried, places = _column([]), ctypes.c_uint32(), _Places()
    _answer(library().kodarfi_find_weights(_u32(n), _u32(t), *lists, _u32(allowance), *weights, ctypes.byref(tried), places), places)
    return Found(weights[0][:n], tried.value)


def _observations(lines: Sequence[Sequence[int]]) -> List[Any]:
    listed = (Observation * len(lines))()
    for place, line in zip(listed, lines):
        key, start, to, difference, weight = line[:5]
        place.key, place.from_, place.to, place.difference, place.weight = _u32(key), _u32(start), _u32(to), _i64(difference), _u32(weight)
    return [listed, len(lines)]


def build(n: int, lines: Sequence[Sequence[int]]) -> Net:
    """The equations of n new marks from at most 256 field lines (kodarfi_build_line, which is kodarfi_build with the line that is refused). Of each line
    the first five numbers are taken: key, from, to, difference, weight; a FieldLine has them, and its reading limit is not looked at.

    Refused, with the line's number where it is of a line: 3 a number outside its range; 16 from a mark to the same mark; 17 a key met before with other
    contents."""
    matrix, right, line = _signed([], MATRIX_LENGTH), _column([]), ctypes.c_uint64()
    _answer(library().kodarfi_build_line(_u32(n), *_observations(lines), *matrix, *right, ctypes.byref(line)), line=line.value)
    return Net([matrix[0][i * n : i * n + n] for i in range(n)], right[0][:n])


def build_half(n: int, lines: Sequence[Sequence[int]]) -> Net:
    """The same with the matrix by its lower half (kodarfi_build_half_line, which is kodarfi_build_half with the line that is refused)."""
    half, right, line = _signed([], HALF_LENGTH), _column([]), ctypes.c_uint64()
    _answer(library().kodarfi_build_half_line(_u32(n), *_observations(lines), *half, *right, ctypes.byref(line)), line=line.value)
    return Net([half[0][i * (i + 1) // 2 : (i + 1) * (i + 2) // 2] for i in range(n)], right[0][:n])


def guesses(heights: Sequence[float], s: int) -> List[int]:
    """A solver's heights, doubles in units, as guesses in steps of 2^s to a unit, each exactly rounded, halves away from zero (kodarfi_guesses).

    Refused: 3 more than 32 heights, none, or s outside its range; 19 a height that is not finite or whose guess leaves its range."""
    n, guess, places = len(heights), _column([0] * len(heights)), _Places()
    _answer(library().kodarfi_guesses(_u32(n), _u32(s), *_doubles(heights), *guess, places), places)
    return guess[0][:n]


def intervals(guess: Sequence[int], bounds: Sequence[int], s: int) -> List[Tuple[float, float]]:
    """Guesses and their limits as pairs of doubles, in units: the largest double not above the lower end and the smallest not below the upper
    (kodarfi_intervals). Of an accepted check's guess and limits.solution: the exact height lies between the two.

    Refused: 3 a number outside its range."""
    n, low, high, places = len(guess), _doubles([0.0] * len(guess)), _doubles([0.0] * len(guess)), _Places()
    _answer(library().kodarfi_intervals(_u32(n), _u32(s), *_column(guess), *_unsigned(COLUMN_LENGTH, _whole("bounds", bounds, n)), *low, *high, places), places)
    return list(zip(low[0][:n], high[0][:n]))


def check_dependent(main: Proposal, dependent: Proposal, coupling: Rows) -> Tuple[Limits, Limits]:
    """The limits of two nets, the second dependent on the first (kodarfi_check_dependent): the dependent net has the equations A2 * u2 = b2 - C * u1 over the
    main net's heights u1. `coupling` is C, a row for each of its marks with a number for each of the main net's.

    Refused as in check, with refused.net 1 or 2; 3 of the dependent net where C has a number outside its range or the two have not the same s."""
    first, second, net, places = _Bounds(), _Bounds(), ctypes.c_uint32(), _Places()
    c = _signed(_flat(_rows("coupling", coupling, [main.net.n] * dependent.net.n)), MATRIX_LENGTH)
    number = library().kodarfi_check_dependent(
        *_sizes(main), *_square(main.net), *_proposal(main), *first.lists,
        *_sizes(dependent), *_square(dependent.net), *c, *_proposal(dependent), *second.lists, ctypes.byref(net), places,
    )  # fmt: skip
    _answer(number, places, net=net.value)
    return first.limits(main.net.n), second.limits(dependent.net.n)


def common(first: Proposal, second: Proposal) -> Common:
    """What two proposals for the same net together say of each height (kodarfi_common): the exact height lies in the interval, in steps of the larger s.

    Refused as in check, with refused.net 1 or 2; 20 the two are not of the same equations; 21 a limit above 2^36."""
    low, high, proposal, places = _column([]), _column([]), ctypes.c_uint32(), _Places()
    both = [part for one in (first, second) for part in (*_sizes(one), *_square(one.net), *_proposal(one))]
    _answer(library().kodarfi_common(*both, *low, *high, ctypes.byref(proposal), places), places, net=proposal.value)
    return Common(max(first.s, second.s), list(zip(low[0][: first.net.n], high[0][: first.net.n])))


def convert(file: bytes) -> bytes:
    """A file written anew for offices on the old edition (kodarfi_convert_line, which is kodarfi_convert with the line that is refused).

    Refused: what a listing refuses in a line, 13, 15; 22 a tolerance is above 0."""
    out, written, places, line = (ctypes.c_uint8 * CONVERTED_LENGTH)(), ctypes.c_size_t(), _Places(), ctypes.c_uint64()
    number = library().kodarfi_convert_line(bytes(file), len(file), out, CONVERTED_LENGTH, ctypes.byref(written), places, ctypes.byref(line))
    _answer(number, places, line.value)
    return bytes(out[: written.value])


def quality(proposal: Proposal) -> Factor:
    """How far the limits of a proposal can lie above true errors, at most (kodarfi_quality): of matrix, inverse, weights and t alone.

    Refused: 3 a number outside its range; 5 a margin of 0 or less."""
    numerator, denominator, places = ctypes.c_uint64(), ctypes.c_uint64(), _Places()
    lists = [*_square(proposal.net), *_signed(_flat(proposal.inverse), MATRIX_LENGTH), *_column(proposal.weights)]
    number = library().kodarfi_quality(_u32(proposal.net.n), _u32(proposal.t), *lists, ctypes.byref(numerator), ctypes.byref(denominator), places)
    _answer(number, places)
    return Factor(numerator.value, denominator.value)
