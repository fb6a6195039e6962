"""Sample lines of the file (document 01, "The file") and what each is, by the oracle's reading."""

from common.format import LONGEST_LINE, is_within, read_form

CAP = 2**40


def capped(numbers):
    return [str(max(-CAP, min(CAP, number))) for number in numbers]


def described(line, printing):
    """What a line is, as the program prints it. A tolerance of 0 is not printed, given or not."""
    form = read_form(line) if len(line) <= LONGEST_LINE else None
    if form is None:
        return f"refused {printing.refused(2 if len(line) <= LONGEST_LINE else 1)}"
    place = () if form.place is None else (form.place,)
    if form.kind in ("row", "inverse"):
        within = "in range:" if is_within(form.kind, form.values) else "not in range:"
        return " ".join([form.kind, *capped(place), "of", str(len(form.values)), within, *capped(form.values[:32])])
    values = form.values[:1] if form.kind == "right" and form.values[1:] == (0,) else form.values
    return " ".join([form.kind, *capped(place + values)])


def heads():
    """The forms with a slot for one number each, and for a list."""
    yield from (b"(problem %s)", b"(scale %s 4)", b"(scale 4 %s)")
    for word in (b"right", b"guess", b"weight"):
        yield b"(" + word + b" %s 1)"
        yield b"(" + word + b" 1 %s)"
    for word in (b"row", b"inverse"):
        yield b"(" + word + b" %s (1 2))"
        yield b"(" + word + b" 1 (%s))"
        yield b"(" + word + b" 1 (%s 2))"
        yield b"(" + word + b" 1 (1 %s 3))"
        yield b"(" + word + b" 1 (1 %s))"


# Numbers at the ends of the ranges, at the cap, at the machine's word, and longer.
EDGES = (1, 20, 21, 32, 33, 1024, 1025, 2**20, 2**20 + 1, 2**30, 2**30 + 1, 2**36, 2**36 + 1, 2**40 - 1, 2**40, 2**40 + 1, 2**63, 2**64, 2**64 + 1)
# What is no number.
NO_NUMBERS = (b"", b"-", b"--1", b"-0", b"00", b"01", b"-01", b"+1", b"1.", b"1e3", b"0x1", b"1_0", b"a", b"1-", b"0-", b"0 0", b"1 ", b" 1", "−1".encode())


def numbers():
    for edge in EDGES:
        yield b"(guess 1 %d)" % edge
        yield b"(guess 1 %d)" % -edge
    for edge in (0, 2**64 + 1, -(2**64) - 1):
        yield from (head % (b"%d" % edge) for head in heads())
    for length in (13, 19, 20, 21, 300):
        for digit in b"19":
            yield b"(guess 1 %s)" % (bytes([digit]) * length)
            yield b"(guess 1 -%s)" % (bytes([digit]) * length)
    for word in (b"row", b"inverse"):
        yield b"(" + word + b" " + b"7" * 300 + b" (1))"
        yield b"(" + word + b" 1 (" + b"8" * 300 + b"))"
        yield b"(" + word + b" 1 (0 -" + b"9" * 298 + b"))"
    for no_number in NO_NUMBERS:
        yield from (head % no_number for head in (b"(problem %s)", b"(scale %s 0)", b"(right 1 %s)", b"(row %s (1))", b"(inverse 1 (%s))", b"(row 1 (2 %s))"))


def lists():
    for word in (b"row", b"inverse"):
        for count in (1, 2, 31, 32, 33, 40, 100, 151):
            yield b"(" + word + b" 1 (" + b" ".join([b"7"] * count) + b"))"
        for count in (31, 32, 33, 39):
            yield b"(" + word + b" 1 (" + b" ".join(b"%d" % (1 - at) for at in range(count)) + b" 1048577))"
            yield b"(" + word + b" 1 (" + b" ".join(b"%d" % at for at in range(count)) + b" -1048576))"
        yield from (b"(" + word + tail for tail in (b" 1 ())", b" 1 ( ))", b" 1 (1)", b" 1 (1)) ", b" 1 (1)))", b" 1 1))", b" 1 (1 (2)))", b" 1(1))", b" (1))", b" 1 2 (1))", b" 1 (1,2))"))


# A line of each form, with a list of the most numbers that 320 bytes hold: 155 and 153.
WHOLE = (
    b"(problem 2)", b"(scale 4 4)", b"(row 1 (4 -1))", b"(right 1 5)", b"(guess 1 23)", b"(inverse 1 (4 1))", b"(weight 1 1)", b"(end)",
    b"(row 1 (" + b"0 " * 154 + b"0))", b"(inverse 1 (" + b"0 " * 152 + b"0))",
)


def rights():
    """02, Paper 5: right sides with a tolerance, and what looks like one."""
    slots = (b"(right %s (5 3))", b"(right 1 (%s 3))", b"(right 1 (5 %s))")
    for edge in (0, -1, 1, 2**20, 2**20 + 1, 2**30, 2**30 + 1, 2**40, -(2**40) - 1, 2**64, 2**64 + 1, -(2**64) - 1):
        yield from (slot % (b"%d" % edge) for slot in slots)
    yield from (slot % (digit * 300) for slot in slots for digit in (b"1", b"9"))
    yield from (slot % no_number for slot in slots for no_number in NO_NUMBERS)
    for count in (1, 2, 3, 4, 31, 32, 33, 34, 100, 154):
        yield b"(right 1 (" + b" ".join([b"7"] * count) + b"))"
        yield b"(right 1 (" + b" ".join([b"1048577"] * min(count, 38)) + b"))"
    yield from (b"(right" + tail for tail in (b" 1 ())", b" 1 ( ))", b" 1 (5 3)", b" 1 (5 3)) ", b" 1 (5 3)))", b" 1 5 3))", b" 1 (5 3) 3)", b" 1 5 (3))", b" 1 ((5 3)))"))
    yield from (b"(right" + tail for tail in (b" 1(5 3))", b" (5 3))", b" (1 5 3))", b" 1 2 (5 3))", b" 1 (5,3))", b" 1 (5 3)(5 3))", b" 1 [5 3])"))
    yield from (b"(guess 1 (5 3))", b"(weight 1 (5 3))", b"(rights 1 (5 3))", b"(righ 1 (5 3))")
    for length in (319, 320, 321, 322):
        yield b"(right 1 (5 " + b"5" * (length - 14) + b"))"
        yield b"(right 1 (" + b"5 " * ((length - 13) // 2) + b"5" * (1 + (length - 13) % 2) + b"))"


def damaged(line):
    """A line with a byte less, a byte more or another byte, at its ends and at some places between."""
    places = sorted({0, 1, line.find(b" ") + 1, len(line) // 2, len(line) - 2, len(line) - 1})
    for at in places:
        yield line[:at] + line[at + 1:]
        yield line[:at] + b" " + line[at:]
    yield from (line + tail for tail in (b" ", b")", b"\n", b"\r", b"\t", b"\0", b"(end)", bytes([128])))
    yield from (first + line for first in (b" ", b"(", b"\n", b"\0"))
    space = line.find(b" ")
    if space > 0:
        yield from (line[:space] + byte + line[space + 1:] for byte in (b"\t", b"\0", b"\n", b"\r", b"  ", bytes([160]), bytes([254])))
    yield line.upper()
    yield line[:1] + line[1:2].upper() + line[2:]


def lengths():
    """Lines of 319 to 322 bytes: forms and no forms."""
    for length in (319, 320, 321, 322):
        yield b"(guess 1 " + b"5" * (length - 10) + b")"
        yield b"(guess 1 -" + b"5" * (length - 11) + b")"
        yield b"(right 1 0" + b"5" * (length - 11) + b")"
        yield b" " * length
        yield bytes(length)
    yield b"(row 1 (" + b"0 " * 155 + b"0))"
    yield b"(row 10 (" + b"0 " * 154 + b"0))"


def lines():
    """All lines, each once, in a fixed order."""
    words = (b"", b" ", b"(", b")", b"()", b"(end", b"end", b"end)", b"(ends)", b"(en)", b"(problem)", b"(problem  2)", b"(problem 2 )", b"(problem 2 3)", b"(scale 4)", b"(scale 4 4 4)", b"(scale 44)", b"(weights 1 1)", b"(r 1 1)", b"(row)", b"(end )", b"( end)", b"(end) (end)", b"(end)(end)", b"(matrix 1 1)", b"(right 1 (5))", b"(guess 1 5 6)")
    every = [*WHOLE, *words, *numbers(), *lists(), *lengths()]
    for line in WHOLE[:8]:
        every += damaged(line)
    every += [*rights(), *damaged(b"(right 1 (5 3))")]
    return list(dict.fromkeys(every))


def entries(printing):
    """Each line as a command of the script, with what the program prints of it."""
    for line in lines():
        yield b"\xfel" + line, described(line, printing) + "\n"
