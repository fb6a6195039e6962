"""Doubles in and out (02, Paper 11) by chance: so many calls with doubles to become guesses, and as many with guesses and limits to become pairs of doubles; some of
them damaged."""

import math
import random
from fractions import Fraction
from itertools import islice

from calls.doubles.mutants import INWARD, OUTWARD
from calls.check.oracle import COLUMN
from calls.doubles.oracle import Doubles, Inward, Outward, bits_of, of_bits
from common.damage.lists import other_size
from common.replayed import List, Made, read, said, written
from common.rules import Refusal
from common.suite import Suite

LARGEST = 2**36
ODD_DOUBLES = (math.inf, -math.inf, math.nan, 1e300, -1.7e308)
ODD_SIZES = (0, 33, 2**31, 2**32 - 1)
ODD_SCALES = (21, 32, 63, 64, 1074, 2**32 - 1)
SIGN = 1 << 63


def beside(rng, x):
    """A double or one of its two neighbours."""
    return rng.choice((x, x, math.nextafter(x, math.inf), math.nextafter(x, -math.inf)))


def half(rng, s):
    """Half a step, anywhere in the range or past its ends by one, and its neighbours."""
    return beside(rng, (2 * rng.randint(-LARGEST - 1, LARGEST) + 1) / 2 ** (s + 1))


def at_the_ends(rng, s):
    return rng.choice((-1, 1)) * (LARGEST + rng.choice((-1, 0, 0, 0.25, 0.499999))) / 2**s


def at_a_binade(rng, s):
    return beside(rng, math.ldexp(rng.choice((-1, 1)), rng.randrange(-60, 37) - s))


def tiny(rng, s):
    """Both zeros, subnormals, and the first that are none."""
    return of_bits(rng.choice((0, SIGN)) | rng.choice((0, 0, 1, 2, 2**52 - 1, 2**52, rng.getrandbits(52))))


def by_chance(rng, s):
    return of_bits(rng.choice((0, SIGN)) | rng.randrange(1023 - s - 60, 1023 + 36 - s) << 52 | rng.getrandbits(52))


def whole(rng, s):
    return rng.randint(-LARGEST, LARGEST) / 2**s


KINDS_IN = (half, half, half, at_the_ends, at_a_binade, tiny, by_chance, by_chance, whole)


def size_and_scale(rng):
    return rng.choice((32, 32, rng.randint(1, 32))), rng.randrange(21)


def inward(rng):
    """A call whose first n doubles all give guesses, with others past them."""
    n, s = size_and_scale(rng)
    values = []
    while len(values) < n:
        x = rng.choice(KINDS_IN)(rng, s)
        if abs(x) * 2**s < LARGEST + 0.5:
            values.append(x)
    rest = [rng.choice(ODD_DOUBLES) for _ in range(32 - n)]
    return Inward(n, s, values + rest)


def damaged_inward(rng, call):
    """One thing changed, or two: a length, n, s, or one of the doubles, at the place n - 1 more often than at another."""
    kind = rng.randrange(8)
    if kind == 0:
        return call._replace(lengths=rng.choice(((31, 32), (32, 31), (0, 32), (32, 0))), n=rng.choice((call.n, call.n, 33)))
    if kind == 1:
        return call._replace(n=other_size(rng, call.n, ODD_SIZES))
    if kind == 2:
        return call._replace(s=other_size(rng, call.s, ODD_SCALES))
    values = list(call.values)
    past = (LARGEST + 0.5) / 2**call.s
    values[rng.choice((call.n - 1, rng.randrange(call.n)))] = rng.choice((*ODD_DOUBLES, past, -past, 2 * past))
    if kind == 3:
        return call._replace(values=values, n=rng.choice((0, 33)))
    return call._replace(values=values)


def guess_by_chance(rng):
    kind = rng.randrange(6)
    if kind == 0:
        return rng.choice((0, 1, -1, LARGEST, -LARGEST, LARGEST - 1))
    if kind == 1:
        return rng.choice((-1, 1)) * (2 ** rng.randrange(37) - rng.randrange(2))
    return rng.randint(-LARGEST, LARGEST)


def bound_by_chance(rng, guess):
    kind = rng.randrange(10)
    if kind == 0:
        return 0
    if kind == 1:
        return rng.choice((1, 2**60, 2**60 - 1, 2**53, 2**53 + 1, 2**53 - 1))
    if kind == 2:
        return min(2**60, max(0, 2 ** rng.randrange(61) + rng.randint(-3, 3)))
    if kind == 3:
        return abs(guess)
    if kind == 4:
        return 2 ** rng.randrange(53, 60) - 1 + abs(guess)
    return rng.getrandbits(rng.randrange(1, 61))


def outward(rng):
    n, s = size_and_scale(rng)
    guess = [guess_by_chance(rng) for _ in range(n)]
    bounds = [min(2**60, bound_by_chance(rng, x)) for x in guess]
    past = 32 - n
    return Outward(n, s, guess + [rng.choice((-(2**63), 2**63 - 1))] * past, bounds + [2**64 - 1] * past)


def damaged_outward(rng, call):
    """One thing changed, or two: a length, n, s, a guess or a limit, at the place n - 1 more often than at another."""
    kind = rng.randrange(6)
    if kind == 0:
        lengths = [32] * 4
        lengths[rng.randrange(4)] = rng.choice((31, 31, 0))
        return call._replace(lengths=tuple(lengths), n=rng.choice((call.n, call.n, 33)))
    if kind == 1:
        return call._replace(n=other_size(rng, call.n, ODD_SIZES))
    if kind == 2:
        return call._replace(s=other_size(rng, call.s, ODD_SCALES))
    name, odd = (("guess", (LARGEST + 1, -LARGEST - 1, 2**63 - 1, -(2**63))), ("bounds", (2**60 + 1, 2**63, 2**64 - 1)))[kind % 2]
    numbers = list(getattr(call, name))
    numbers[rng.choice((call.n - 1, rng.randrange(call.n)))] = rng.choice(odd)
    return call._replace(**{name: numbers})


def inward_coverage(x, s):
    """What one double that gives a guess is a case of."""
    numerator, denominator = x.as_integer_ratio()
    steps, rest = divmod(abs(numerator) << s, denominator)
    if x == 0:
        yield "minus zero" if math.copysign(1, x) < 0 else "plus zero"
    elif abs(x) < 2.0**-1022:
        yield "a subnormal"
    elif 2 * rest == denominator:
        yield "a half of an even step" if steps % 2 == 0 else "a half of an odd step"
    elif rest == 0:
        yield "a whole number of steps"
    if steps == LARGEST:
        yield "2^36 steps"
    if math.frexp(x)[0] in (0.5, -0.5):
        yield "a power of two"


def outward_coverage(x, e, low, high):
    """What one height is a case of."""
    if e == 0:
        yield "the limit 0"
    if e == 2**60:
        yield "the limit 2^60"
    if abs(x) == LARGEST:
        yield "a guess of 2^36 in size"
    if low == 0 or high == 0:
        yield "an end of 0"
    if high < 0:
        yield "both ends below 0"
    if e < 2**53 and low == high:
        yield "ends that are one double"
    if e + abs(x) > 2**53 and math.frexp(high)[0] == 0.5:
        yield "a high end at a power of two"


def by_kind(seed, way):
    """Without end, in or out: three calls in four that are accepted, and damaged ones."""
    rng = random.Random(f"doubles {way} {seed}")
    while True:
        call = inward(rng) if way == "in" else outward(rng)
        if rng.randrange(4):
            yield call
        else:
            yield damaged_inward(rng, call) if way == "in" else damaged_outward(rng, call)


def generate(seed, count):
    for way in ("in", "out"):
        yield from islice(by_kind(seed, way), count)


def is_inward(call):
    return isinstance(call, Inward)


def answered(oracle, call):
    return oracle.guesses(call) if is_inward(call) else oracle.intervals(call)


def ends(doubles):
    """A list of doubles, each no number with bits of its own before it is written. Doubles are compared as their bits: minus zero is not plus zero."""
    return List(8, COLUMN, filled=COLUMN, fill=0x7FF80000DEADBEEF, right=((0, bits_of(doubles)),))


def calls(call, answer):
    number, places = said(answer)
    found = () if number else answer
    if is_inward(call):
        lists = read(bits_of(call.values), COLUMN), written(COLUMN, found)
    else:
        lists = read(call.guess, COLUMN), read(call.bounds, COLUMN), ends([low for low, _ in found]), ends([high for _, high in found])
    stated = (part for pair in zip(lists, call.lengths) for part in pair)
    yield Made("kodarfi_guesses" if is_inward(call) else "kodarfi_intervals", [call.n, call.s, *stated, written(2, places)], number)


IN = ("accepted", "refused 3", "refused 8", "refused 19", "plus zero", "minus zero", "a subnormal", "a half of an even step", "a half of an odd step")
IN += ("a whole number of steps", "2^36 steps", "a power of two")
OUT = ("accepted", "refused 3", "refused 8", "the limit 0", "the limit 2^60", "a guess of 2^36 in size", "an end of 0", "both ends below 0")
OUT += ("ends that are one double", "a high end at a power of two")
REQUIRED = dict.fromkeys((*(f"in: {name}" for name in IN), *(f"out: {name}" for name in OUT)), 100)


def coverage(call, answer):
    way = "in" if is_inward(call) else "out"
    if isinstance(answer, Refusal):
        yield f"{way}: refused {answer.number}"
        return
    yield f"{way}: accepted"
    if is_inward(call):
        yield from (f"in: {name}" for x in call.values[: call.n] for name in inward_coverage(x, call.s))
    else:
        yield from (f"out: {name}" for x, e, ends in zip(call.guess, call.bounds, answer) for name in outward_coverage(x, e, *ends))


def faults(index, call, answer):
    """The ends in the paper's words, by fractions: each on its side, and the next double not."""
    for x, e, (low, high) in () if is_inward(call) or isinstance(answer, Refusal) else zip(call.guess, call.bounds, answer):
        under, over = Fraction(x - e, 2**call.s), Fraction(x + e, 2**call.s)
        is_low_good = Fraction(low) <= under < Fraction(math.nextafter(low, math.inf))
        is_high_good = Fraction(math.nextafter(high, -math.inf)) < over <= Fraction(high)
        if not (is_low_good and is_high_good) or "-0.0" in (str(low), str(high)):
            yield f"ends of {x} and {e} with s = {call.s}"


def differs(mutant, call, answer):
    """An answer in which minus zero is not plus zero."""
    return str(answered(mutant, call)) != str(answer)


SUITE = Suite(
    count=50000, tested_count=6000, seed="2", generate=generate, calls=calls, coverage=coverage, required=REQUIRED, faults=faults,
    answers={"kodarfi_guesses": (0, 3, 8, 19), "kodarfi_intervals": (0, 3, 8)},
    answer=lambda call: answered(Doubles(), call),
    mutants=(
        ({f"in: {name}": mutant for name, mutant in INWARD.items()}, lambda mutant, call, answer: is_inward(call) and differs(mutant, call, answer)),
        ({f"out: {name}": mutant for name, mutant in OUTWARD.items()}, lambda mutant, call, answer: not is_inward(call) and differs(mutant, call, answer)),
    ),
)
