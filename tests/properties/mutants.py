"""Named mutants of the calls, each with the property that must detect it: a call, what stands in for it, handed the real one first, and the property."""

import re

import files
import limits
import lines
import pairs
from kodarfi import Common, Entry, Factor, Found, Limits, Listing, Loader, Net, Refused, check
from nets import changed


def exchanged(real, n, field):
    net = real(n, field)
    return Net(net.matrix, [-b for b in net.right])


def counted_copies(real, n, field):
    """A copy counts unless it stands beside its line."""
    free = iter(sorted(set(range(1, 999)) - {line.key for line in field}))
    again = lambda at, line: line in field[:at] and field[at - 1] != line
    return real(n, [line._replace(key=next(free)) if again(at, line) else line for at, line in enumerate(field)])


def first_of_two_marks(real, n, field):
    return real(n, list({(line.start, line.to): line for line in reversed(field)}.values()))


def always_ones(real, matrix, *rest):
    return Found([1] * len(matrix), real(matrix, *rest).tried)


def twice_as_large(real, matrix, inverse, t, allowance):
    found = real(matrix, inverse, t, allowance)
    return Found([min(1024, 2 * w) for w in found.weights], found.tried) if allowance > 32 else found


def with_limits(solution=lambda E: E, inverse=lambda rows: rows):
    """A check whose limits are changed."""

    def mutant(real, proposal):
        found = real(proposal)
        return Limits([solution(E) for E in found.solution], inverse(found.inverse))

    return mutant


def no_tolerances(real, proposal):
    return real(changed(proposal, tolerance=[0] * proposal.net.n))


def large_diagonals_alone(real, proposal):
    """Equations whose diagonal is not the larger part of a row are refused."""
    for i, row in enumerate(proposal.net.matrix):
        if 2 * abs(row[i]) < sum(map(abs, row)):
            raise Refused(5, (i + 1, 0))
    return real(proposal)


def never_refused(real, proposal):
    try:
        return real(proposal)
    except Refused:
        n = proposal.net.n
        return Limits([2**60] * n, [[2**60] * n] * n)


def last_row_not_mirrored(real, proposal):
    rows = [list(row) for row in proposal.net.filled_out().matrix]
    for row in rows[:-1]:
        row[-1] = 0
    return check(changed(proposal, matrix=rows))


def guess_alone(real, guess, bounds, s):
    return real(guess, [0] * len(guess), s)


def entry_without_its_rounding(real, guess, bound, s):
    return Entry(real(guess, bound, s).value, -(-bound // 2**s))


def closed_at_2_36(real, first, second):
    """A limit of 2^36 itself is too wide."""
    found = real(first, second)
    if max(high - low for low, high in found.intervals) >= 2**37:
        raise Refused(21)
    return found


def middle(real, first, second):
    found = real(first, second)
    return Common(found.s, [((low + high) // 2,) * 2 for low, high in found.intervals])


def row_sums_asked(real, main, dependent, coupling):
    try:
        check(dependent)
    except Refused as refused:
        if refused.number == 6:
            raise Refused(6, refused.places, net=2) from None
    return real(main, dependent, coupling)


def slack_without_main_tolerances(real, main, dependent, coupling):
    exact = changed(main, tolerance=[0] * main.net.n)
    return real(main, dependent, coupling)[0], real(exact, dependent, coupling)[1]


def weights_required(real, file):
    missing = file.count(b"(row ") - file.count(b"(weight ")
    return Listing(b"(refused 13 (%d))\n" % missing, Refused(13, (missing, 0))) if missing > 0 else real(file)


class TakesAgain(Loader):
    """A form that was given already is passed over."""

    def take(self, line):
        try:
            super().take(line)
        except Refused as refused:
            if refused.number != 12:
                raise


class CountsRefusedRows(Loader):
    """A row is counted as given before its numbers are looked at."""

    def take(self, line):
        try:
            super().take(line)
        except Refused:
            self._numbers[4] |= int(line.startswith(b"(row 1 "))
            raise


def weights_of_1(real, file):
    return re.sub(rb"\(weight (\d+) \d+\)", rb"(weight \1 1)", real(file))


MUTANTS = {
    "from and to are exchanged": ("build", exchanged, lines.nets_lead_to_common_intervals),
    "weights of 1 whatever the margins": ("find_weights", always_ones, lines.nets_lead_to_common_intervals),
    "ends of the guess alone": ("intervals", guess_alone, lines.nets_lead_to_common_intervals),
    "a limit of 2^36 is too wide": ("common", closed_at_2_36, lines.nets_lead_to_common_intervals),
    "a copy counts unless it stands beside its line": ("build", counted_copies, lines.copy_of_a_line_changes_nothing),
    "of two lines between two marks the first counts": ("build", first_of_two_marks, lines.order_of_lines_changes_nothing),
    "the last line is left out by half": ("build_half", lambda real, n, field: real(n, field[:-1]), lines.half_builder_is_the_builder),
    "weights that a larger allowance changes": ("find_weights", twice_as_large, lines.larger_allowance_finds_the_same_list),
    "tolerances are left out": ("check", no_tolerances, limits.exact_solution_is_within_limits),
    "limits of column 1 for every column": (
        "check", with_limits(inverse=lambda rows: [[row[0]] * len(row) for row in rows]), limits.exact_inverse_is_within_limits),
    "limits in place of a refusal": ("check", never_refused, limits.exact_inverse_is_within_limits),
    "large diagonals alone": ("check", large_diagonals_alone, limits.rounded_exact_proposal_is_accepted),
    "limits rounded up once more": ("check", with_limits(lambda E: E + 1), limits.rounded_exact_proposal_is_accepted),
    "limits of 2^60 everywhere": ("check", with_limits(lambda E: 2**60), limits.limits_are_never_far_above_an_error),
    "a factor of 1": ("quality", lambda real, proposal: Factor(1, 1), limits.limits_are_never_far_above_an_error),
    "the last row of a half is not mirrored": ("check_half", last_row_not_mirrored, limits.half_is_the_square_entry),
    "the guess goes out without its limit": ("intervals", guess_alone, limits.exact_height_is_between_the_doubles),
    "an entry that does not cover its rounding": ("entry", entry_without_its_rounding, limits.exact_height_is_within_the_entry),
    "the middle of the common interval": ("common", middle, pairs.common_interval_contains_the_height),
    "the row's sum is asked of dependent heights": ("check_dependent", row_sums_asked, pairs.dependent_net_without_coupling_is_its_own_check),
    "the main net's tolerances are no slack": ("check_dependent", slack_without_main_tolerances, pairs.heights_of_both_nets_are_within_limits),
    "weights may not be left out": ("listing", weights_required, files.order_of_forms_and_weights_of_1_change_no_listing),
    "a form is taken again": ("Loader", lambda real: TakesAgain(), files.loader_is_the_listing),
    "a refused row is counted": ("Loader", lambda real: CountsRefusedRows(), files.refused_line_leaves_the_loader),
    "weights of 1 in the new file": ("convert", weights_of_1, files.converted_file_has_the_same_listing),
    "the file as it came": ("convert", lambda real, file: file, files.equal_numbers_convert_to_equal_bytes),
}  # fmt: skip
