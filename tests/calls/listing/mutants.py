"""Mutants of the program, by name: those of the loader, of the reckoning and of entries, and what breaks 02's Papers 5 (tolerances) and 9 (sums along rows).
READING read a file otherwise, PRINTING read it right and print another listing."""

import re
from dataclasses import replace
from math import inf
from operator import mul

from calls.check.mutants import COMPUTED, reckoning as reckoning_class, residuals_by, largest_ratio_by
from calls.check.oracle import LARGEST_RESIDUAL, Reckoning, times, transposed
from calls.entry.mutants import MUTANTS as ENTERED
from calls.listing.oracle import WITH_LINE, Program
from calls.loader import mutants as of_loader
from calls.loader.mutants import loader, ranged, reading, substituted
from calls.loader.oracle import Loader
from common import cases_01, never_far
from common.checks import faults, net_from
from common.format import LIST, NUMBER, Form, is_in_range, lines_of, read_form
from common.net import file_of, lines_of as lines_of_net, net_of
from common.rules import IN_FORCE, Refusal
from common.suite import mutant


def reckoning(**parts):
    return dict(reckoning=reckoning_class(**parts))


RIGHT_LIST = re.compile(rb"\(right (" + NUMBER + rb") \((" + LIST + rb")\)\)")


class RightList(Form):
    """A right side with a list of other than two numbers."""

    def kinds(self):
        return ("right", *("tolerance",) * (len(self.values) - 1))


def right_lists(taken, seen=lambda numbers: numbers):
    """A reader that takes a right side with a list of `taken` numbers, by what it has seen of them."""

    def read(self, text):
        match = RIGHT_LIST.fullmatch(text)
        numbers = tuple(map(int, match.group(2).split())) if match else ()
        if len(numbers) == 2 or not taken(len(numbers)):
            return read_form(text)
        return RightList("right", int(match.group(1)), seen(numbers))

    return read


def refused_with_4(taken):
    """A right side with a list of `taken` numbers is a form, and refused with 4."""
    return loader(read=right_lists(taken), refusal_4=lambda self, line: () if isinstance(line.form, RightList) else Loader.refusal_4(self, line))


def as_misspelt(test):
    """A line is no form where the test holds of the form it spells."""
    return loader(read=lambda self, text: None if (form := read_form(text)) and test(form) else form)


def by_spelling(self, line):
    """Each spelling of a right side is given once."""
    form = line.form
    return None if form.kind == "right" and (len(form.values), form.place) not in self.given else Loader.refusal_12(self, line)


def accept_spelling(self, form):
    Loader.accept(self, form)
    self.given |= {(len(form.values), form.place)} if form.kind == "right" else set()


def with_tolerance(change):
    """A loader that writes another tolerance; change(b, d) gives both numbers."""
    return loader(accept_right=lambda self, at, right, tolerance=0: Loader.accept_right(self, at, *change(right, tolerance)))


is_pair = lambda form: form.kind == "right" and len(form.values) == 2

TOLERATED = {
    "no tolerances": dict(rules=replace(IN_FORCE, right_sides_have_tolerances=False)),
    "a tolerance of 0 is 2": as_misspelt(lambda form: is_pair(form) and form.values[1] == 0),
    "a tolerance out of range is 2": as_misspelt(lambda form: is_pair(form) and not is_in_range("tolerance", form.values[1])),
    "a right side beyond its range is 2 in a pair": as_misspelt(lambda form: is_pair(form) and not is_in_range("right", form.values[0])),
    "a list of one number taken": loader(read=right_lists(lambda count: count == 1)),
    "a list of three numbers taken by its first two": loader(read=right_lists(lambda count: count == 3, lambda numbers: numbers[:2])),
    "a list of 33 numbers taken by its first two": loader(read=right_lists(lambda count: count >= 33, lambda numbers: numbers[:2])),
    "a list of one number is 4": refused_with_4(lambda count: count == 1),
    "a list of three numbers is 4": refused_with_4(lambda count: count == 3),
    "a list of 33 numbers is 4": refused_with_4(lambda count: count >= 33),
    "a guess with a list of two numbers taken": reading(substituted(rb"^\(guess ([0-9]+) \(([-0-9]+) [-0-9]+\)\)$", rb"(guess \1 \2)")),
    "tolerances not written": with_tolerance(lambda b, d: (b, 0)),
    "tolerance and right side exchanged": with_tolerance(lambda b, d: (d, b) if d else (b, d)),
    "a tolerance by half": with_tolerance(lambda b, d: (b, d // 2)),
    "each spelling of a right side once": loader(refusal_12=by_spelling, accept=accept_spelling),
    "a pair may come again": loader(refusal_12=lambda self, line: None if is_pair(line.form) else Loader.refusal_12(self, line)),
    "tolerances of any size": ranged(lambda kind, number: kind == "tolerance" or is_in_range(kind, number)),
    "tolerances in the range of right sides": ranged(lambda kind, number: is_in_range("right" if kind == "tolerance" else kind, number)),
    "right sides of pairs unranged": loader(refusal_3_for_values=lambda self, line: None if is_pair(line.form) and is_in_range("tolerance", line.form.values[1]) else Loader.refusal_3_for_values(self, line)),
}


def carried_by(rule):
    """Reckoning whose slack in the limits of row m is rule(row m of G, m, slacks)."""
    return reckoning(carried=lambda self, system, slacks: [rule(row, m, slacks) for m, row in enumerate(system.G)])


SLACKENED = {
    "slack without S": reckoning(slacks=lambda self, system: list(system.d)),
    "slack in inverse steps": reckoning(slacks=lambda self, system: [system.T * d for d in system.d]),
    "slack of the row before": reckoning(slacks=lambda self, system: [system.S * d for d in system.d[-1:] + system.d[:-1]]),
    "slack only in the test of 6": reckoning(sizes=lambda self, system, residuals, slacks: list(map(abs, times(system.G, residuals)))),
    "slack only in the limits, 6 on the residual alone": dict(reckoning=residuals_by(lambda r, slack: abs(r) <= LARGEST_RESIDUAL)),
    "6 on residual and slack apart": dict(reckoning=residuals_by(lambda r, slack: max(abs(r), slack) <= LARGEST_RESIDUAL)),
    "6 on the residual and slack with its sign": dict(reckoning=residuals_by(lambda r, slack: abs(r + slack) <= LARGEST_RESIDUAL)),
    "slacks with the signs of G": carried_by(lambda row, m, slacks: abs(sum(map(mul, row, slacks)))),
    "slack of its own row alone": carried_by(lambda row, m, slacks: abs(row[m]) * slacks[m]),
    "slack not carried by G": carried_by(lambda row, m, slacks: slacks[m]),
    "the largest ratio by products of 64 bits": dict(reckoning=largest_ratio_by(lambda p, g: p * g % 2**64)),
    "p and slack in one size": reckoning(sizes=lambda self, system, residuals, slacks: [abs(p + q) for p, q in zip(times(system.G, residuals), self.carried(system, slacks))]),
    "slack in the columns of the inverse": reckoning(column_slacks=Reckoning.slacks),
    "slack in the limits of the columns alone": reckoning(bounds_of_columns=lambda self, system, columns, margins: [self.bounds(system, column, self.slacks(system), margins) for column in columns]),
}


def sums_by(rule):
    """Reckoning that holds row k to rule(system, k, row k of A)."""
    return reckoning(row_sums=lambda self, system: [rule(system, k, row) for k, row in enumerate(system.A)])


def rows_by(rule):
    """Reckoning that takes a residual where rule(residual, slack, sum along its row) holds."""
    return reckoning(is_within_row=lambda self, residual, slack, row_sum: rule(residual, slack, row_sum))


def along(row):
    return sum(map(abs, row))


def unheld(self, system):
    return [inf] * system.n


def one_test_first(first, then):
    """The lowest row that fails one test; where there is none, the lowest that fails the other."""

    def failing_row(self, residuals, slacks, row_sums):
        seen = list(zip(residuals, slacks, row_sums))
        for test in (first, then):
            failing = [k + 1 for k, (residual, slack, row_sum) in enumerate(seen) if not test(self, residual, slack, row_sum)]
            if failing:
                return (failing[0],)
        return None

    return reckoning(failing_row=failing_row)


def small(self, residual, slack, row_sum):
    return self.is_small(residual, slack)


def within(self, residual, slack, row_sum):
    return self.is_within_row(residual, slack, row_sum)


class AfterTheOthers(Reckoning):
    """The row sums are looked at where nothing else is refused."""

    def check(self, problem):
        before = Reckoning(replace(self.rules, residuals_within_row_sums=False)).check(problem)
        return before if isinstance(before, Refusal) else Reckoning.check(self, problem)


class RowOfTheColumn(Reckoning):
    """Every residual of column j is held to the sum along row j."""

    def failing_column(self, system, columns):
        for j, (residuals, row_sum) in enumerate(zip(columns, self.column_sums(system))):
            row = self.failing_row(residuals, self.column_slacks(system), [row_sum] * system.n)
            if row is not None:
                return (j + 1, *row)
        return None


HELD = {
    "no row sums": dict(rules=replace(IN_FORCE, residuals_within_row_sums=False)),
    "the sum down a column": sums_by(lambda system, k, row: along(transposed(system.A)[k])),
    "the sum along the row of the inverse": sums_by(lambda system, k, row: along(system.G[k])),
    "the sum along the next row": sums_by(lambda system, k, row: along(system.A[(k + 1) % system.n])),
    "the sum of the whole matrix": sums_by(lambda system, k, row: sum(map(along, system.A))),
    "the absolute value of the row's sum": sums_by(lambda system, k, row: abs(sum(row))),
    "the largest number of the row": sums_by(lambda system, k, row: max(map(abs, row))),
    "the sum beside the diagonal": sums_by(lambda system, k, row: along(row) - abs(row[k])),
    "half the row's sum": sums_by(lambda system, k, row: along(row) // 2),
    "the row's sum times T": sums_by(lambda system, k, row: system.T * along(row)),
    "the row's sum times S": sums_by(lambda system, k, row: system.S * along(row)),
    "size and slack within the row's sum": rows_by(lambda r, slack, row_sum: abs(r) + slack <= row_sum),
    "size within the row's sum and the slack": rows_by(lambda r, slack, row_sum: abs(r) <= row_sum + slack),
    "size below the row's sum": rows_by(lambda r, slack, row_sum: abs(r) < row_sum),
    "one above the row's sum taken": rows_by(lambda r, slack, row_sum: abs(r) <= row_sum + 1),
    "residuals below 0 within every sum": rows_by(lambda r, slack, row_sum: r <= row_sum),
    "row sums for the guess alone": reckoning(column_sums=unheld),
    "row sums for the columns alone": reckoning(guess_sums=unheld),
    "2^25 with slack dropped": reckoning(is_small=lambda self, residual, slack: True),
    "2^25 with slack only where no sum is exceeded": one_test_first(within, small),
    "row sums only where 2^25 is not exceeded": one_test_first(small, within),
    "row sums after 6 and 7": dict(reckoning=AfterTheOthers),
    "the sum along the row of the column's number": dict(reckoning=RowOfTheColumn),
}

def reported(rule):
    """A program that reports rule(refusal) of a line or of a file that stops early."""

    def load(self, file):
        loaded = Program.load(self, file)
        return rule(loaded) if isinstance(loaded, Refusal) else loaded

    return dict(load=load)


# The program's own: a file read only as far as a short buffer holds, and what is reported of a refusal.
OWN = {
    "only the first 4,096 bytes": dict(lines=lambda self, file: lines_of(file[:4096])),
    "lines from 0": reported(lambda refusal: refusal._replace(values=(refusal.values[0] - 1,)) if refusal.number in WITH_LINE else refusal),
    "a line for 15": reported(lambda refusal: Refusal(15, (1,)) if refusal.number == 15 else refusal),
    "13 without its count": reported(lambda refusal: Refusal(13, (0,)) if refusal.number == 13 else refusal),
}
ORDERED = {"row before column": dict(refused=lambda self, refusal: Program.refused(self, refusal._replace(values=refusal.values[::-1])))}


def programs(*tables):
    return {name: mutant(Program, **parts) for table in tables for name, parts in table.items()}


READING = programs(of_loader.READING, TOLERATED, OWN)
PRINTING = programs({name: dict(reckoning=computed) for name, computed in COMPUTED.items()}, ENTERED, SLACKENED, HELD, ORDERED)


def by_statements():
    """The statements of common/checks.py detect by themselves mutants that write no limits, refuse all, or whose entry does not cover its rounding, whose limits
    leave out tolerances, that hold residuals to no sum or to a smaller one, and whose limits are too large, or 0 where they should not be."""
    whole, half = cases_01.whole_file(), cases_01.one(4, 4, 2, 1, 8, 8)
    signs = net_of(4, 4, [[1, 1], [0, 1]], [5, 1], [64, 16], [[16, -16], [0, 16]], [1, 1])
    detected_by = {"no limits written": whole, "all proposals refused": whole, "entry limit without the rounding": half}
    detected_by |= {name: whole.with_(tolerance=[3, 2]) for name in ("slack without S", "slack only in the test of 6", "slack not carried by G")}
    detected_by |= {"slack of the row before": net_of(4, 4, [[1, 0], [0, 8]], [5, 8], [80, 16], [[16, 0], [0, 2]], [1, 1]).with_(tolerance=[3, 0])}
    detected_by |= {name: signs.with_(tolerance=[1, 1]) for name in ("slacks with the signs of G", "slack of its own row alone")}
    detected_by |= {"no row sums": cases_01.whole_file((20, 13)), "row sums for the columns alone": cases_01.whole_file((20, 13))}
    detected_by |= {"row sums for the guess alone": cases_01.one(0, 4, 4, 0, 0, 7), "half the row's sum": cases_01.one(0, 4, 4, 0, 0, 3)}
    detected_by |= {"size below the row's sum": cases_01.one(0, 4, 4, 0, 1, 4)}
    sentences = (
        ("limits of 2^60", whole.with_(tolerance=[1, 2]), never_far.FAR),
        ("slack in the columns of the inverse", whole.with_(tolerance=[1, 2]), never_far.FAR_COLUMN),
        ("limits of 2^60", whole, never_far.ROUNDED),
        ("limits rounded down", whole, never_far.ZERO),
        ("limits rounded down", whole, never_far.ZERO_COLUMN),
        ("limits one too high", half, never_far.EXACT),
        ("limits one too high", half, never_far.EXACT_COLUMN),
    )
    for name, net, sentence in (*((name, net, None) for name, net in detected_by.items()), *sentences):
        problem = Program().load(file_of(lines_of_net(net)))
        right, found = (faults(net_from(problem), program.printed(problem)) for program in (Program(), PRINTING[name]))
        yield f"statements on '{name}'", right if (sentence in found if sentence else found) else ["not detected"]
