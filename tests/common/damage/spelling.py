"""Bytes changed, forms spelled another way, lines and files of lengths that matter."""

import re

from common.net import file_of

BYTES = b" \n\r\t\0()-+0123456789.,abegnoprstuwxE_\x7f\x80\xa0\xff"
NUMBER = re.compile(r"-?[0-9]+")

MISSPELT = (
    "", " ", "(end) ", " (end)", "(end", "end", "()", "(End)", "(end))", "((end))", "(end )", "(end 0)", "(end)\r", "(end)\t", "(end)\0",
    "(problem)", "(problem )", "(problem 2 )", "(problem 2 2)", "(problem (2))", "(problem two)", "(Problem 2)", "(problem\xa02)", "(problem2)",
    "(problem 02)", "(problem +2)", "(problem -0)", "(problem 2.0)", "(problem 0x2)", "(problem --2)", "(problem 2-)", "(problem -)", "(problem -02)",
    "(scale 4)", "(scale 4 4 4)", "(scale (4 4))", "(scale 4  4)", "(scale 4,4)", "(scale 4 04)", "(scale -0 4)", "(scales 4 4)",
    "(row 1 ())", "(row 1 (1 ))", "(row 1 ( 1))", "(row 1 (1  2))", "(row 1 1)", "(row 1 1 2)", "(row (1))", "(row 1 (1)", "(row 1 (1)) ", "(row 1(1))",
    "(row 01 (1 2))", "(row 1 (-0 1))", "(row 1 (00))", "(row 1 (1\t2))", "(row 1 (1 2) (3 4))", "(row 1 ((1 2)))", "(row 1 (1 2)))", "(rows 1 (1 2))",
    "(right 1 (5))", "(right 1 (5 0 0))", "(right 1 ())", "(right 1 (5 ))", "(right 1 ( 5 0))", "(right 1 (5  0))", "(right 1 (5 0)", "(right 1 (5 0) )",
    "(right 1 (5 0)))", "(right 1 ((5 0)))", "(right 1 (5 (0)))", "(right 1 (5) 0)", "(right 1 5 (0))", "(right 1(5 0))", "(right 1 (5 -0))", "(right 1 (05 0))",
    "(right 1 (5 00))", "(right 1 (5 +0))", "(right 1 (5,0))", "(right 1 (5\t0))", "(right (1 5 0))", "(right (5 0))", "(right 1 (5 0) (5 0))", "(guess 1 (5 0))",
    "(weight 1 (1 0))", "(right 1)", "(right 1 5 0)", "(right 1 05)", "(right 1 -0)", "(right 1 5", "right 1 5", "(right 1 5)(right 2 5)", "(right  1 5)",
    "(guess 1 (23 1))", "(guess 1 2 3)", "(guess 1 1e3)", "(guess 1 \xb2)", "(guess 1 - 3)", "(guess -0 3)", "(guess 1 000)",
    "(inverse 1 4 1)", "(inverse 1 (4, 1))", "(inverse 1 (4 1)", "(inverses 1 (4 1))", "(inverse (4 1))", "(inverse 1 (4 1) )", "(inverse 1  (4 1))",
    "(weight 1 )", "(weight 1)", "(weight 1 (1))", "(weight 1 1)x", "x(weight 1 1)", "(weigh 1 1)", "(weight 1 1) (end)", "(bounds 2)", "(entry 1 (1 1))",
    "; note",
)


def by_bytes(rng, net, lines):
    """One to three bytes replaced, put in, taken out, doubled or exchanged."""
    file = bytearray(file_of(lines))
    for _ in range(rng.choice((1, 1, 1, 2, 3))):
        at = rng.randrange(len(file))
        kind = rng.randrange(5)
        if kind == 0:
            file[at] = rng.choice(BYTES)
        elif kind == 1:
            file.insert(at, rng.choice(BYTES))
        elif kind == 2:
            del file[at]
        elif kind == 3:
            file.insert(at, file[at])
        else:
            other = max(0, at - 1)
            file[at], file[other] = file[other], file[at]
    return bytes(file)


def misspelt(rng, net, lines):
    """A line that is none of the eight forms put in anywhere, or in the place of another."""
    at = rng.randrange(len(lines))
    return file_of(lines[:at] + [rng.choice(MISSPELT)] + lines[at + rng.randrange(2) :])


# One form with its spaces, brackets, zeros, signs or line end written another way.
WAYS = (
    lambda line: line.replace(" ", "  ", 1),
    lambda line: line.replace(" ", "\t", 1),
    lambda line: line + "\r",
    lambda line: line + " ",
    lambda line: " " + line,
    lambda line: line.upper(),
    lambda line: line.replace("(", "[", 1).replace(")", "]", 1),
    lambda line: NUMBER.sub(lambda match: "0" + match.group(), line, count=1),
    lambda line: NUMBER.sub(lambda match: "+" + match.group(), line, count=1),
    lambda line: NUMBER.sub("-0", line, count=1),
    lambda line: re.sub(r"(?<=[ (])0(?=[ )])", "-0", line, count=1),
    lambda line: line[:-1],
    lambda line: line + ")",
    lambda line: line[1:],
    lambda line: line.replace("-", "\xe2\x88\x92"),
    lambda line: line.replace(")", " )", 1),
)


def respelt(rng, net, lines):
    at = rng.randrange(len(lines))
    return file_of(lines[:at] + [rng.choice(WAYS)(lines[at])] + lines[at + 1 :])


def list_line(rng, length):
    """A row or inverse form of exactly so many bytes, all its numbers in range."""
    head = rng.choice(("(row 1 (", "(inverse 1 ("))
    room = length - len(head) - 2
    numbers = ["1"] * ((room + 1) // 2)
    if room % 2 == 0:
        numbers[-1] = "11"
    return head + " ".join(numbers) + "))"


def at_length(rng, net, lines):
    """A line of 319 to 322 bytes or more: a long list, a long number, no form, a form with bytes after it."""
    length = rng.choice((319, 320, 320, 321, 321, 321, 322, 400, 1000))
    long_number = "(right 1 " + "9" * (length - 10) + ")"
    ways = (list_line(rng, length), long_number, "x" * length, "(end)" + " " * (length - 5), "(end)" + "\r" * (length - 5))
    at = rng.choice((0, 1, 2, rng.randrange(len(lines)), len(lines)))
    file = file_of(lines[:at] + [rng.choice(ways)] + lines[at:])
    return file[:-1] if at == len(lines) and rng.random() < 0.5 else file


def large(rng, net, lines):
    """A file about or above 65,536 bytes: long after its end, or with one long line, or with endless forms."""
    size = rng.choice((65535, 65536, 65537, 70000, 131072, 200000))
    file = file_of(lines)
    at = rng.choice((len(file), file.rindex(b"(end)"), 0, len(file_of(lines[:2]))))
    fill = rng.choice((b"\n", b"x", b"1", b" ", b"(end)\n", b"(problem 2)\n", b"x" * 320 + b"\n", b"x" * 65536 + b"\n"))
    room = max(0, size - len(file))
    return file[:at] + (fill * (room // len(fill) + 1))[:room] + file[at:]
