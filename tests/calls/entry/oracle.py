"""A register entry: document 01's rounding to a whole unit, and the limit of document 02's Paper 2."""

from fractions import Fraction
from math import ceil, floor

from common.format import is_in_range
from common.rules import IN_FORCE, Refusal


class Entry:
    rules = IN_FORCE

    def enter(self, guess, bound, s):
        """The entry and its limit; 3 where the guess or the scale is out of range: docs/DECISIONS.md, "Answers that 01 leaves free"."""
        if not (is_in_range("guess", guess) and is_in_range("scale", s)):
            return Refusal(3)
        return self.entry(guess, 2**s), self.entry_bound(guess, bound, 2**s)

    def entry(self, X, S):
        """V: "X/S rounded to a whole unit, halves away from zero"."""
        size = floor(Fraction(abs(X), S) + Fraction(1, 2))
        return -size if X < 0 else size

    def entry_bound(self, X, E, S):
        """01: its limit is E/S rounded up. 02, Paper 2: (E + |X − S·V|)/S rounded up."""
        rounding = abs(X - S * self.entry(X, S)) if self.rules.entry_covers_rounding else 0
        return ceil(Fraction(E + rounding, S))
