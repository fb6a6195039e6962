"""Lines taken out, doubled, moved, or put after the end; files that stop early."""

from common.net import file_of

from .numbers import WORDS, changed_length, changed_number, changed_place, changed_range, place_of, with_list
from .spelling import MISSPELT


def dropped(rng, net, lines):
    """Some lines taken out, more often than not of the forms with a place."""
    first = 2 if rng.random() < 0.8 else 0
    count = rng.choice((1, 1, 2, 3, 5, len(lines)))
    gone = set(rng.sample(range(first, len(lines) - 1), min(count, len(lines) - 1 - first)))
    return file_of(line for at, line in enumerate(lines) if at not in gone)


def doubled(rng, net, lines):
    """A line given again, at once or later."""
    at = rng.randrange(len(lines) - 1)
    again = rng.randint(at + 1, len(lines) - 1)
    return file_of(lines[:again] + [lines[at]] + lines[again:])


def pasted(rng, net, lines):
    """A block of lines pasted again, at once or later, and one line of the copy damaged in one or two ways, more often than not its first."""
    start = place_of(rng, lines, (rng.choice(WORDS),))
    block = lines[start:-1][: rng.choice((1, 2, 3, len(lines)))]
    at = 0 if rng.random() < 0.7 else rng.randrange(len(block))
    line = block[at]
    for _ in range(rng.choice((1, 1, 2))):
        line = rng.choice(ways_for(line))(rng, line)
    again = rng.choice((start + len(block), rng.randint(start + len(block), len(lines) - 1)))
    return file_of(lines[:again] + block[:at] + [line] + block[at + 1 :] + lines[again:])


def ways_for(line):
    """Other numbers, a number out of its range, another i, and for a list another count; for a right side a list, or another one."""
    if line.startswith(("(problem", "(scale")):
        return (changed_number, changed_range)
    others = (changed_number, changed_range, changed_place)
    if line.startswith("(right"):
        return others + (with_list,)
    return others + (changed_length,) if line.startswith(("(row", "(inverse")) else others


def second_start(rng, net, lines):
    """A second problem or scale, good or out of range, before or after the scale."""
    at = rng.choice((1, 2, rng.randint(2, len(lines) - 1)))
    text = rng.choice((lines[0], lines[1], "(problem 33)", "(problem 0)", "(scale 21 0)", "(scale 0 -1)", "(problem 1)"))
    return file_of(lines[:at] + [text] + lines[at:])


def early(rng, net, lines):
    """A line moved to the front or between problem and scale."""
    at = rng.randrange(1, len(lines))
    to = rng.choice((0, 1)) if at > 1 else 0
    rest = lines[:at] + lines[at + 1 :]
    return file_of(rest[:to] + [lines[at]] + rest[to:])


def early_end(rng, net, lines):
    """The end moved before some other forms."""
    at = rng.randint(2, len(lines) - 1)
    return file_of(lines[:at] + ["(end)"] + lines[at:-1])


def stopped(rng, net, lines):
    """The file stops before its end, after a whole line with or without its line feed."""
    file = file_of(lines[: rng.randrange(len(lines))])
    return file[:-1] if rng.random() < 0.3 else file


def cut(rng, net, lines):
    """The file stops at any byte."""
    file = file_of(lines)
    return file[: rng.randrange(len(file))]


def after_end(rng, net, lines):
    """A line after the end: empty, long, a form, no form."""
    more = rng.choice(("", " ", "(end)", "x" * 321, "(weight 1 0)", "(problem 2)", lines[2], "\0", "\r", rng.choice(MISSPELT)))
    file = file_of(lines + [more])
    return file[:-1] if more and rng.random() < 0.5 else file
