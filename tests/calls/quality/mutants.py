"""Mutants of the factor of a proposal's limits, by name."""

from functools import partial
from math import gcd

from calls.check.mutants import COMPUTED
from calls.quality.oracle import FULL, Factor, Quality
from common.format import is_within
from common.rules import Refusal
from common.suite import mutant

rating = partial(mutant, Quality)


def chosen_by(key):
    """One whose row is the lowest where key(row) is largest."""
    return rating(chosen=lambda self, rows: max(rows, key=key))


def changed(rule):
    """One that gives rule(the factor) for a factor."""
    return rating(chosen=lambda self, rows: rule(Quality.chosen(self, rows)))


def said_by(rule):
    """One that says rule(the refusal) for a refusal."""

    def rate(self, inquiry):
        right = Quality.rate(self, inquiry)
        return rule(right) if isinstance(right, Refusal) else right

    return rating(rate=rate)


def last_of_equal(self, rows):
    return Quality.chosen(self, rows[::-1])


def ranged(name, lowest, highest):
    """One that takes these weights or scales too, as if they were the nearest that may be."""

    def rate(self, inquiry):
        near = lambda value, low, high: min(max(value, low), high) if lowest <= value <= highest else value
        if name == "t":
            return Quality.rate(self, inquiry._replace(t=near(inquiry.t, 0, 20)))
        return Quality.rate(self, inquiry._replace(weights=[near(w, 1, 1024) for w in inquiry.weights]))

    return rating(rate=rate)


def without(name):
    """One that does not look at the length of this list."""
    return rating(is_short=lambda self, inquiry: Quality.is_short(self, inquiry._replace(lengths=inquiry.lengths._replace(**{name: getattr(FULL, name)}))))


def ranges_first(self, inquiry):
    return Quality.is_short(self, inquiry) and Quality.is_in_range(self, inquiry)


def to_32_bits(self, rows):
    best = rows[0]
    for row in rows[1:]:
        if best.numerator * row.denominator % 2**32 < row.numerator * best.denominator % 2**32:
            best = row
    return best


def reads_on(self, inquiry):
    """3 where the weight after those in use is out of its range."""
    right = Quality.rate(self, inquiry)
    is_good = right in (Refusal(8), Refusal(3)) or is_within("weight", inquiry.weights[inquiry.n : inquiry.n + 1])
    return right if is_good else Refusal(3)


MUTANTS = {
    "the smallest quotient": chosen_by(lambda row: -row.numerator / row.denominator),
    "the last of equal rows": rating(chosen=last_of_equal),
    "the first row": rating(chosen=lambda self, rows: rows[0]),
    "the last row": rating(chosen=lambda self, rows: rows[-1]),
    "the largest numerator": chosen_by(lambda row: row.numerator),
    "the smallest margin": chosen_by(lambda row: -row.denominator),
    "quotients rounded down": chosen_by(lambda row: row.numerator // row.denominator),
    "products of 32 bits": rating(chosen=to_32_bits),
    "in lowest terms": changed(lambda factor: Factor(*(x // gcd(*factor) for x in factor))),
    "numerator and denominator exchanged": changed(lambda factor: Factor(factor.denominator, factor.numerator)),
    "T·w without the load": changed(lambda factor: Factor((factor.numerator + factor.denominator) // 2, factor.denominator)),
    "the load without T·w": changed(lambda factor: Factor((factor.numerator - factor.denominator) // 2, factor.denominator)),
    "A·G for G·A": rating(reckoning=COMPUTED["A·G for G·A"]),
    "sums with sign": rating(reckoning=COMPUTED["margin of a sum's absolute value"]),
    "weights of 1": rating(rows=lambda self, inquiry: Quality.rows(self, inquiry._replace(weights=[1] * inquiry.n))),
    "a margin of 0 good": rating(reckoning=COMPUTED["margin 0 good"]),
    "5 with the last row": rating(reckoning=COMPUTED["highest failing margin"]),
    "5 counted from 0": said_by(lambda said: Refusal(5, (said.values[0] - 1,)) if said.number == 5 else said),
    "5 without a row": said_by(lambda said: Refusal(said.number)),
    "a weight of 0 taken": ranged("weights", 0, 1024),
    "a weight of 1,025 taken": ranged("weights", 1, 1025),
    "t of 21 taken": ranged("t", 0, 21),
    "short weights taken": without("weights"),
    "a short inverse taken": without("inverse"),
    "a weight past n read": rating(rate=reads_on),
    "3 before 8": rating(is_short=ranges_first),
}
