"""Files damaged by byte and by line. A damage takes a random source, a net and the lines of its file, and gives a file.

SHARES says how many files of a hundred get each damage."""

from . import lines, numbers, spelling

SHARES = (
    (3, spelling.by_bytes),
    (2, spelling.misspelt),
    (3, spelling.respelt),
    (3, spelling.at_length),
    (1, spelling.large),
    (2, lines.dropped),
    (1, lines.doubled),
    (4, lines.pasted),
    (2, lines.early),
    (1, lines.early_end),
    (2, lines.stopped),
    (1, lines.cut),
    (2, lines.after_end),
    (1, lines.second_start),
    (5, numbers.beyond_range),
    (2, numbers.other_length),
    (2, numbers.bad_place),
    (1, numbers.other_pair),
    (1, numbers.wrapping),
    (1, numbers.bad_past_count),
)
