"""Sentences of files: document 01's listing, and document 02, Papers 1, 6 and 14, through the listing, the loader and the converter."""

import re

from given import No, outcome, refusal, sentence
from kodarfi import Limits
from kodarfi.forms import proposal_text
from nets import changed

WITH_LINE = (1, 2, 3, 4, 11, 12, 14)


def mixed(rng, lines):
    """The lines with the forms between scale and end in any order, weights of 1 left out and tolerances of 0 written here and there."""
    inner = [line for line in lines[2:-1] if not (line.startswith(b"(weight ") and line.endswith(b" 1)") and rng.random() < 0.5)]
    rng.shuffle(inner)
    if rng.random() < 0.3:
        inner = [re.sub(rb"^\(right (\d+) (-?\d+)\)$", rb"(right \1 (\2 0))", line) for line in inner]
    return [*lines[:2], *inner, lines[-1]]


def joined(lines):
    return b"".join(line + b"\n" for line in lines)


def without_tolerance(given):
    """The lines of a file that can be converted."""
    return proposal_text(changed(given.proposal, tolerance=[0] * given.proposal.net.n)).splitlines()


def damaged(rng, lines):
    """A file with something wrong in it, or with nothing wrong."""
    at = rng.randrange(len(lines))
    line = lines[at]
    spaced, spelled = line.replace(b" ", b"  ", 1), line.replace(b" ", b" 0", 1)
    other = rng.choice((line, b"", line + b" ", spaced, spelled, line.replace(b"1", b"99999999999", 1), line[:-2] + b" 1))", b"(end)", b"(" * 321))
    before, after = lines[:at], lines[at + 1 :]
    return rng.choice((lines, before, before + after, [*before, other, line, *after], [*before, other, *after], [*lines, other]))


@sentence("is_in_range")
def order_of_forms_and_weights_of_1_change_no_listing(given):
    """01: "the rest in any order"; Paper 1: "A file without weights whose every line the desk accepts, end among them, and the same file with 1 everywhere, get
    equal listings"; Paper 5: "(right i b) means d = 0"."""
    listing = lambda lines: given.calls.listing(joined(lines)).text
    return listing(mixed(given.case.chance("any order"), given.lines)) == listing(given.lines)


def taken_by_a_loader(calls, lines):
    """Limits, or the first refusal as a listing has it, of lines that a loader takes one by one."""
    loader = calls.Loader()
    for count, line in enumerate(lines, 1):
        refused = outcome(loader.take, line)
        if refused:
            return refused._replace(line=count if refused.number in WITH_LINE else 0)
    return outcome(loader.check)


@sentence()
def loader_is_the_listing(given):
    """01: "A desk collects forms line by line .. a program reads a file from standard input and prints one listing" and "stops at its first refusal"."""
    rng = given.case.chance("loader")
    lines = damaged(rng, mixed(rng, given.lines))
    listing, taken = given.calls.listing(joined(lines)), taken_by_a_loader(given.calls, lines)
    if listing.refused is not None:
        return taken == refusal(listing.refused)
    return isinstance(taken, Limits) and [int(line.split()[-1][:-2]) for line in listing.text.splitlines() if line.startswith(b"(solution ")] == taken.solution


@sentence("is_in_range")
def refused_line_leaves_the_loader(given):
    """01: "A refused line leaves the desk as before the call, and its lists"."""
    rng = given.case.chance("refused line")
    lines, loader = mixed(rng, given.lines), given.calls.Loader()
    at = rng.randrange(2, len(lines) - 1)
    for line in lines[:at]:
        loader.take(line)
    before = loader.numbers, loader.proposal()
    too_large, too_long = re.sub(rb"\d+(\)+)$", rb"99999999999999\1", lines[at]), b"(row 1 (%s))" % b" ".join([b"1"] * (given.proposal.net.n + 1))
    wrong = rng.choice((rng.choice(lines[:at]), lines[at] + b" ", b"(" * 321, too_large, too_long))
    return isinstance(outcome(loader.take, wrong), No) and before == (loader.numbers, loader.proposal())


@sentence("is_in_range")
def converted_file_has_the_same_listing(given):
    """Paper 14: "The old and new file lead to equal checks"."""
    file = joined(mixed(given.case.chance("converted"), without_tolerance(given)))
    return given.calls.listing(given.calls.convert(file)).text == given.calls.listing(file).text


@sentence("is_in_range")
def equal_numbers_convert_to_equal_bytes(given):
    """Paper 14: "two files with equal numbers give equal bytes": "problem, scale, rows, right sides without tolerance, guesses, inverse rows and all n weights,
    each kind by rising i, then end"."""
    lines = without_tolerance(given)
    return given.calls.convert(joined(mixed(given.case.chance("equal"), lines))) == joined(lines) == given.calls.convert(joined(lines)[:-1])
