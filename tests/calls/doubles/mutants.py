"""Mutants of doubles in and out, by name. Each breaks one rule of 02's Paper 11.

A mutant that takes every subnormal as 0 is not among them: with at most 2^20 steps to a unit a subnormal's guess is 0, so no call can detect it."""

import math
from functools import partial

from calls.doubles.oracle import Doubles
from common.format import is_within
from common.rules import Refusal
from common.suite import mutant

doubles = partial(mutant, Doubles)


def rounded_by(rule):
    """A mutant whose guess is rule(numerator, denominator)."""
    return doubles(nearest=lambda self, numerator, denominator: rule(numerator, denominator))


def to_even(numerator, denominator):
    size, rest = divmod(2 * abs(numerator) + denominator, 2 * denominator)
    size -= rest == 0 and size % 2
    return -size if numerator < 0 else size


def whole_part(numerator, denominator):
    size = abs(numerator) // denominator
    return -size if numerator < 0 else size


def toward_zero(numerator, denominator):
    size = -((denominator - 2 * abs(numerator)) // (2 * denominator))
    return -size if numerator < 0 else size


def guessed(rule):
    """A mutant whose guess of a double is rule(x, the right guess)."""
    return doubles(guess=lambda self, x, s: rule(x, Doubles.guess(self, x, s)))


def ended(rule):
    """A mutant whose pair is rule(x, e, s, low, high)."""
    return doubles(interval=lambda self, x, e, s: rule(x, e, s, *Doubles.interval(self, x, e, s)))


def minus_zero(end, steps):
    return -0.0 if steps == 0 else end


def order(*numbers):
    """A mutant that tests in another order, inward."""

    def guesses(self, call):
        holds = {
            8: lambda: min(call.lengths) < 32,
            3: lambda: not self.are_sizes_in_range(call),
            19: lambda: None in [self.guess(x, min(call.s, 20)) for x in call.values[: call.n]],
        }
        found = next((number for number in numbers if holds[number]()), None)
        return Refusal(found) if found else Doubles.guesses(self, call)

    return doubles(guesses=guesses)


def scaled(s):
    return doubles(are_sizes_in_range=lambda self, call: is_within("problem", [call.n]) and call.s <= s)


def long_enough(method, which):
    """A mutant that takes one of its lists whatever its length."""

    def answered(self, call):
        return getattr(Doubles, method)(self, call._replace(lengths=(*call.lengths[:which], 32, *call.lengths[which + 1 :])))

    return doubles(**{method: answered})


INWARD = {
    "halves to even": rounded_by(to_even),
    "truncation": rounded_by(whole_part),
    "halves toward zero": rounded_by(toward_zero),
    "halves up": rounded_by(lambda numerator, denominator: (2 * numerator + denominator) // (2 * denominator)),
    "rounded up in size": rounded_by(lambda numerator, denominator: -(-numerator // denominator)),
    "the sign lost": rounded_by(lambda numerator, denominator: Doubles().nearest(abs(numerator), denominator)),
    "an infinity as the end of the range": guessed(lambda x, steps: math.copysign(2**36, x) if math.isinf(x) else steps),
    "no number as 0": guessed(lambda x, steps: 0 if math.isnan(x) else steps),
    "2^36 refused": guessed(lambda x, steps: None if steps is not None and abs(steps) == 2**36 else steps),
    "2^36 + 1/2 taken": doubles(is_guess=lambda self, steps: abs(steps) <= 2**36 + 1),
    "a guess out of range at its end": doubles(guess=lambda self, x, s: Doubles.guess(self, x, s) if not math.isfinite(x) else max(-(2**36), min(2**36, Doubles.nearest(self, x.as_integer_ratio()[0] << s, x.as_integer_ratio()[1])))),
    "units for steps": doubles(guess=lambda self, x, s: Doubles.guess(self, x, 0)),
    "past n read": doubles(guesses=lambda self, call: Doubles.guesses(self, call._replace(n=call.n + 1)) if call.n < 32 else Doubles.guesses(self, call)),
    "short values taken": long_enough("guesses", 0),
    "19 before 3": order(8, 19, 3),
    "3 before 8": order(3, 8, 19),
    "19 said as 3": doubles(guesses=lambda self, call: Refusal(3) if Doubles.guesses(self, call) == Refusal(19) else Doubles.guesses(self, call)),
    "a scale of 21 taken": scaled(21),
}

OUTWARD = {
    "low to nearest": ended(lambda x, e, s, low, high: ((x - e) / 2**s, high)),
    "high to nearest": ended(lambda x, e, s, low, high: (low, (x + e) / 2**s)),
    "low one double too far": ended(lambda x, e, s, low, high: (math.nextafter(low, -math.inf), high)),
    "high one double too far": ended(lambda x, e, s, low, high: (low, math.nextafter(high, math.inf))),
    "low one too far where it is no double": ended(lambda x, e, s, low, high: (low if low * 2**s == x - e else math.nextafter(low, -math.inf), high)),
    "high too far at a power of two": ended(lambda x, e, s, low, high: (low, math.nextafter(high, math.inf) if math.frexp(high)[0] == 0.5 else high)),
    "minus zero as low": ended(lambda x, e, s, low, high: (minus_zero(low, x - e), high)),
    "minus zero as high": ended(lambda x, e, s, low, high: (low, minus_zero(high, x + e))),
    "ends exchanged": ended(lambda x, e, s, low, high: (high, low)),
    "a short list of ends taken": long_enough("intervals", 3),
    "ends exchanged below 0": ended(lambda x, e, s, low, high: (high, low) if high < 0 else (low, high)),
    "rounded toward zero below 0": ended(lambda x, e, s, low, high: (-Doubles().below(e - x, s) if x < e else low, high)),
    "ends of the guess alone": doubles(interval=lambda self, x, e, s: Doubles.interval(self, x, 0, s)),
    "steps for units": doubles(interval=lambda self, x, e, s: Doubles.interval(self, x, e, 0)),
    "a limit above 2^60 taken": doubles(is_bound=lambda self, e: True),
    "the limit 2^60 refused": doubles(is_bound=lambda self, e: e < 2**60),
    "past n read": doubles(intervals=lambda self, call: Doubles.intervals(self, call._replace(n=call.n + 1)) if call.n < 32 else Doubles.intervals(self, call)),
    "3 before 8": doubles(intervals=lambda self, call: Refusal(3) if Doubles.intervals(self, call._replace(lengths=(32,) * 4)) == Refusal(3) else Doubles.intervals(self, call)),
    "a scale of 21 taken": scaled(21),
}
