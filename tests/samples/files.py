"""Sample files by name, and their listings by the oracle."""

import random

from calls.listing.oracle import Program
from common import given
from common.generate import arranged
from common.net import file_of, lines_of
from common.systems import edge, ends, rows, tolerant, usual

# Files of given.py by the names under which they are stored.
GIVEN = {
    **{f"case-{letter}": f"01 case {letter}" for letter in "abcdefghijkl"},
    "paper-2": "02 paper 2",
    "example-002-1": "002 example 1, guess 16, steps 20 20, exact_inverse, bounds",
    "example-002-2": "002 example 2, guess 27, steps 20 12, exact_inverse, bounds",
    "example-002-1-poor-guess": "002 example 1, guess 11, steps 20 20, displacement_inverse, bounds",
    "example-002-2-poor-inverse": "002 example 2, guess 12, steps 10 16, displacement_inverse, bounds",
    "long-list": "lengths: list of 320 bytes at 12",
    "too-long-list": "lengths: list of 321 bytes at 12",
    "too-long-start": "lengths: no form of 321 bytes at 0",
    "too-long-after-end": "lengths: no form of 321 bytes at 13",
    "line-feed-alone": "by_bytes: one line feed",
    "carriage-returns": "by_bytes: carriage returns",
    "empty": "by_bytes: empty file",
    "no-last-line-feed": "by_bytes: no last line feed",
    "empty-line-after-end": "by_bytes: two last line feeds",
    "minus-zero": "spellings: '(right 1 -0)'",
    "range-guess-highest": "at_ends_of_ranges: guess number 1 is 68719476736",
    "range-guess-beyond": "at_ends_of_ranges: guess number 1 is 68719476737",
    "range-weight-zero": "at_ends_of_ranges: weight number 1 is 0",
    "place-above-n": "places: right place 3",
    "place-wraps": "places: guess place 18446744073709551617",
    "list-short": "lists: inverse with 1",
    "list-past-n-beyond": "lists: row with 1 2 1048577",
    "again-beyond": "lists: row again with 1048577",
    "again-long": "lists: row again with 1 2 3",
    "scale-first": "orders: line 1 first",
    "row-before-scale": "orders: line 2 second",
    "second-problem": "orders: '(problem 3)' at 1",
    "second-problem-beyond": "orders: '(problem 33)' at 1",
    "right-again": "orders: line 4 again",
    "weight-missing": "orders: line 11 missing",
    "no-weights": "left_out: weights ",
    "one-weight": "left_out: weights (weight 2 3)",
    "no-weights-and-no-guess": "left_out: no weights and no line 7",
    "end-early": "orders: end after line 5",
    "end-before-scale": "orders: '(end)' at 1",
    "form-after-end": "orders: line 3 after the end",
    "stops-early": "orders: nothing from line 12",
    "half-below-zero": "entries: entry of -40",
    "widest": "widest: sign -1, steps 20 20",
    "paper-5": "02 paper 5",
    "whole-file-tolerated": "02 paper 5 e",
    "tolerance-0": "tolerances: both 0",
    "tolerance-3": "tolerances: both 3",
    "tolerance-highest": "tolerances: first 1048576",
    "tolerance-beyond": "tolerances: first 1048577",
    "tolerance-below-0": "tolerances: second -1",
    "tolerance-wraps": "tolerances: second 18446744073709551617",
    "right-side-beyond-with-tolerance": "tolerances: right side 1073741825 with 0",
    "right-again-with-tolerance": "tolerances: (right 1 5) and (right 1 (5 3))",
    "right-again-without-tolerance": "tolerances: (right 1 (5 3)) and (right 1 5)",
    "right-list-of-one": "right_lists: 1 numbers, the last 0",
    "right-list-of-three": "right_lists: 3 numbers, the last 1048577",
    "right-list-of-33": "right_lists: 33 numbers, the last 0",
    "slack-at-2-25": "slacks: tolerance 32, guess 0",
    "slack-above-2-25": "slacks: tolerance 32, guess 1",
    "slacks-with-signs": "slacks: tolerances (3, 2), signs",
    "weighted": "02 paper 9 weighted",
    "guess-at-row-sum": "02 paper 9 guess at the sum",
    "guess-above-row-sum": "02 paper 9 guess above the sum",
    "guess-below-0-at-row-sum": "row_sums: guess 1",
    "inverse-at-row-sum": "02 paper 9 inverse at the sum",
    "inverse-above-row-sum": "02 paper 9 inverse above the sum",
    "uneven-at-row-sum": "row_sums: uneven, right side 25, tolerance 7",
    "uneven-above-row-sum": "row_sums: uneven, right side 27",
    "uneven-second-row": "row_sums: uneven, second right side 3",
    "row-sum-and-2-25": "row_sums: row of 524288, tolerance 63",
    "row-sum-above-2-25": "row_sums: row of 524289, tolerance 63",
}

def tolerated_net(rng, n):
    """A levelling net with tolerances for which there is room."""
    net = usual.levelling(rng, n)
    return net.with_(tolerance=tolerant.small(rng, net))


# Systems made by chance, with their number of equations.
MADE = (
    (usual.levelling, 1), (usual.levelling, 5), (usual.levelling, 32), (usual.general, 9), (usual.general, 16), (usual.small, 3), (usual.singular, 3),
    (edge.at_edge, 1), (edge.at_edge, 12), (edge.with_halves, 6), (ends.at_bounds, 10), (ends.largest_bounds, 8), (ends.near_margins, 6),
    (ends.several, 9), (ends.near_slacks, 6), (tolerated_net, 5), (tolerated_net, 12), (rows.near_row_sums, 7), (rows.near_column_sums, 6),
)


def stored():
    """(name, file) of every stored file."""
    files = {case.name: case.file for case in given.cases()}
    for name, known in GIVEN.items():
        yield name, files[known]
    for make, n in MADE:
        name = f"{make.__name__.replace('_', '-')}-{n}"
        rng = random.Random(name)
        yield name, file_of(arranged(rng, lines_of(make(rng, n))))


def entries(printing):
    """Each name and its file as two commands of the script, with what the program prints of them."""
    for name, file in stored():
        yield b"\xfet" + name.encode() + b"\n", name + "\n"
        yield b"\xfef" + file, Program().listing(file).decode()
