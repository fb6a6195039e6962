"""Mutants of a register entry, by name, as the parts that differ. Each breaks one rule of document 01 or of 02's Paper 2. The files must detect MUTANTS too
(calls/listing/mutants.py); OF_CALL go wrong at numbers that no file has."""

from fractions import Fraction
from math import ceil, floor

from calls.entry.oracle import Entry
from common.rules import Refusal


def half_up(x):
    return floor(x + Fraction(1, 2))


def toward_zero(self, X, S):
    size = ceil(Fraction(abs(X), S) - Fraction(1, 2))
    return -size if X < 0 else size


def limited(rule):
    """One whose entry limit is rule(E, |X − S·V|, X, S)."""
    return dict(entry_bound=lambda self, X, E, S: rule(E, abs(X - S * self.entry(X, S)), X, S))


MUTANTS = {
    "halves toward zero": dict(entry=toward_zero),
    "halves up": dict(entry=lambda self, X, S: half_up(Fraction(X, S))),
    "halves to even": dict(entry=lambda self, X, S: round(Fraction(X, S))),
    "entry rounded down": dict(entry=lambda self, X, S: X // S),
    "entry limit to nearest": limited(lambda E, away, X, S: half_up(Fraction(E + away, S))),
    "entry limit rounded down": limited(lambda E, away, X, S: (E + away) // S),
    "entry limit in steps": limited(lambda E, away, X, S: E + away),
    "entry limit without the rounding": limited(lambda E, away, X, S: ceil(Fraction(E, S))),
    "entry limit one above": limited(lambda E, away, X, S: ceil(Fraction(E, S)) + 1),
    "entry limit of two roundings": limited(lambda E, away, X, S: ceil(Fraction(E, S)) + ceil(Fraction(away, S))),
    "rounding left out below 0": limited(lambda E, away, X, S: ceil(Fraction(E + (away if X >= 0 else 0), S))),
    "the guess for its rounding": limited(lambda E, away, X, S: ceil(Fraction(E + abs(X), S))),
    "half a unit for the rounding": limited(lambda E, away, X, S: ceil(Fraction(2 * E + S, 2 * S))),
    "rounding with its sign": dict(entry_bound=lambda self, X, E, S: ceil(Fraction(E + X - S * self.entry(X, S), S))),
}


def entered(rule):
    """One that enters rule(guess, limit, s)."""
    return dict(enter=lambda self, *case: Entry.enter(self, *rule(*case)))


OF_CALL = {
    "a scale of 21 taken": entered(lambda guess, bound, s: (guess, bound, 20 if s == 21 else s)),
    "a guess of 2^36 + 1 taken": entered(lambda guess, bound, s: (guess - (guess == 2**36 + 1), bound, s)),
    "a limit above 2^60 refused": dict(enter=lambda self, guess, bound, s: Refusal(3) if bound > 2**60 else Entry.enter(self, guess, bound, s)),
    "entry limit in 64 bits": limited(lambda E, away, X, S: ceil(Fraction((E + away) % 2**64, S))),
}
