"""Document 02, Paper 8: a net hung from another. The hung net is the dependent one: A2·u2 = b2 − C·u1, u1 being the heights of the main net."""

from math import inf
from typing import NamedTuple

from calls.check.oracle import FULL, MATRIX, Bounds, Problem, Reckoning, check, is_in_range, times
from common.format import is_within
from common.rules import Refusal

MAIN, DEPENDENT = 1, 2


class Nets(NamedTuple):
    """Two problems, and C, row after row without gaps in a list of at least n2 × n1 numbers."""

    main: Problem
    dependent: Problem
    coupling: list


class Lengths(NamedTuple):
    """The lengths that a call is given."""

    main: tuple = FULL
    dependent: tuple = FULL
    coupling: int = MATRIX


class NetRefusal(NamedTuple):
    """02: "A refusal says which net it is of"."""

    net: int
    refusal: Refusal


class PairBounds(NamedTuple):
    main: Bounds
    dependent: Bounds


class DependentReckoning(Reckoning):
    """The reckoning of a dependent net, for the main net's guess X1 and limits E1."""

    def __init__(self, rows, X1, E1):
        super().__init__()
        self.C, self.X1, self.E1 = rows, X1, E1

    def guess_residual(self, system):
        """02: "Its residual is S·b2 − C·X1 − A2·X2"."""
        return [residual - cx for residual, cx in zip(super().guess_residual(system), times(self.C, self.X1))]

    def slacks(self, system):
        """02: "its slack is |C|·E1 plus the tolerance slack"."""
        return [sum(abs(c) * E for c, E in zip(row, self.E1)) + slack for row, slack in zip(self.C, super().slacks(system))]

    def guess_sums(self, system):
        """02, Paper 9: "The heights of a hung net keep Paper 8's test only; its inverse columns take the new condition."."""
        return [inf] * system.n


class DependentCheck:
    reckoning = DependentReckoning

    def check(self, nets, lengths=Lengths()):
        """02: "The main net is checked first and its refusals given; then the hung net in the usual order"."""
        main = check(nets.main, lengths.main)
        if isinstance(main, Refusal):
            return NetRefusal(MAIN, main)
        dependent = self.dependent(nets, lengths, main)
        return NetRefusal(DEPENDENT, dependent) if isinstance(dependent, Refusal) else PairBounds(main, dependent)

    def dependent(self, nets, lengths, main):
        """02: "C under 3 and 8 with its matrix, unequal s under 3"."""
        if self.is_short(lengths):
            return Refusal(8)
        if not self.is_in_range(nets):
            return Refusal(3)
        return self.reckoning(self.rows(nets), nets.main.guess[: nets.main.n], main.solution).check(nets.dependent)

    def is_short(self, lengths):
        return any(length < least for length, least in zip(lengths.dependent, FULL)) or lengths.coupling < MATRIX

    def is_in_range(self, nets):
        main, dependent, coupling = nets
        return is_in_range(dependent) and is_within("row", coupling[: dependent.n * main.n]) and main.s == dependent.s

    def rows(self, nets):
        """02: "one row for each hung mark and one column for each main mark, row after row without gaps"."""
        n1, n2 = nets.main.n, nets.dependent.n
        return [nets.coupling[i * n1 : i * n1 + n1] for i in range(n2)]
