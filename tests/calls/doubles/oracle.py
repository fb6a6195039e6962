"""Document 02, Paper 11: doubles in and out, by exact fractions. Every finite double is a fraction of whole numbers, which Python gives exactly."""

import math
import struct
from typing import NamedTuple

from calls.check.oracle import COLUMN
from common.format import is_in_range, is_within
from common.rules import Refusal

LARGEST_BOUND = 2**60


class Inward(NamedTuple):
    """What a call is handed that makes guesses of doubles, and the lengths that it is given of its two lists."""

    n: int
    s: int
    values: list
    lengths: tuple = (COLUMN, COLUMN)


class Outward(NamedTuple):
    """What a call is handed that makes pairs of doubles of guesses and limits, and the lengths that it is given of its four lists."""

    n: int
    s: int
    guess: list
    bounds: list
    lengths: tuple = (COLUMN, COLUMN, COLUMN, COLUMN)


def of_bits(bits):
    return struct.unpack("<d", struct.pack("<Q", bits))[0]


def bits_of(doubles):
    return list(struct.unpack(f"<{len(doubles)}Q", struct.pack(f"<{len(doubles)}d", *doubles)))


def distance(x, steps, s):
    """x - steps / 2^s over a common divisor above 0: its sign is that of the difference."""
    numerator, denominator = x.as_integer_ratio()
    return (numerator << s) - steps * denominator


class Doubles:
    def guesses(self, call):
        """The guesses, or the refusal: "8 and 3 first, then new 19"."""
        if min(call.lengths) < COLUMN:
            return Refusal(8)
        if not self.are_sizes_in_range(call):
            return Refusal(3)
        guesses = [self.guess(x, call.s) for x in call.values[: call.n]]
        return Refusal(19) if None in guesses else guesses

    def are_sizes_in_range(self, call):
        return is_within("problem", [call.n]) and is_within("scale", [call.s])

    def guess(self, x, s):
        """None "for a double that is not finite or whose guess leaves its range"."""
        if not math.isfinite(x):
            return None
        numerator, denominator = x.as_integer_ratio()
        steps = self.nearest(numerator << s, denominator)
        return steps if self.is_guess(steps) else None

    def is_guess(self, steps):
        return is_in_range("guess", steps)

    def nearest(self, numerator, denominator):
        """"a nearest whole number, halves away from zero"."""
        size = (2 * abs(numerator) + denominator) // (2 * denominator)
        return -size if numerator < 0 else size

    def intervals(self, call):
        """The pairs, low and high, or the refusal."""
        if min(call.lengths) < COLUMN:
            return Refusal(8)
        n = call.n
        if not (self.are_sizes_in_range(call) and is_within("guess", call.guess[:n]) and all(map(self.is_bound, call.bounds[:n]))):
            return Refusal(3)
        return [self.interval(x, e, call.s) for x, e in zip(call.guess[:n], call.bounds)]

    def is_bound(self, e):
        return e <= LARGEST_BOUND

    def interval(self, x, e, s):
        return self.below(x - e, s), self.above(x + e, s)

    def below(self, steps, s):
        """"the largest double not above" steps / 2^s."""
        low = steps / (1 << s)
        while distance(low, steps, s) > 0:
            low = math.nextafter(low, -math.inf)
        while distance(after := math.nextafter(low, math.inf), steps, s) <= 0:
            low = after
        return low + 0.0

    def above(self, steps, s):
        """"the smallest not below" it, "zero always plus zero"."""
        return 0.0 - self.below(-steps, s)
