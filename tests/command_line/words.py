"""What is said in words: --explain, and the documents beside the table of refusals, --help and 01's whole file."""

import re

from command_line.register import WHOLE

EXAMPLE = re.compile(r"`([^`]+)`: `([^`]+)`")

# For each example: what --explain quotes of it, and the fault that it names, where there is one.
EXPLAINED = {
    "1-long-row-twice": ("line 3 is \"(row 1 (1000000 ", "it has 338 bytes\n"),
    "2-two-spaces": ("line 5 is \"(right 1  5)\"", "two spaces stand at character 9, where one belongs"),
    "2-leading-zero": ("line 5 is \"(right 1 05)\"", "the number 05 has a leading zero"),
    "2-minus-zero": ("line 5 is \"(right 1 -0)\"", "-0 is no number"),
    "2-empty-list": ("line 3 is \"(row 1 ())\"", "its list is empty"),
    "2-row-twice": ("line 3 is \"(row 1 (4 -1))(row 1 (4 -1))\"", "a second form stands after the first, at character 15"),
    "2-right-list-of-three": ("line 5 is \"(right 1 (5 3 1))\"", "its list has 3 numbers, and there should be 2, b and its tolerance d"),
    "2-empty-line": ("line 3 is \"\"", "it is empty"),
    "2-carriage-returns": ("line 1 is \"(problem 2)\"", "it ends with a carriage return"),
    "2-byte-order-mark": ("line 1 is \"(problem 2)\"", "it begins with a byte order mark"),
    "2-unicode-minus": ("line 3 is \"(row 1 (4 ?1))\"", "a minus sign or dash that is not the - of ASCII stands at character 11"),
    "2-decimals": ("line 5 is \"(right 1 5.0)\"", "a number with a decimal point stands at character 10"),
    "2-commas": ("line 3 is \"(row 1 (4,-1))\"", "a comma stands at character 10"),
    "2-tab": ("line 5 is \"(right 1?5)\"", "a tab stands at character 9"),
    "2-trailing-space": ("line 2 is \"(scale 4 4) \"", "a space stands after its last bracket"),
    "2-capitals": ("line 4 is \"(Row 2 (-1 3))\"", "the word Row has capital letters"),
    "3-weight-of-0": ("line 11 is \"(weight 1 0)\"", "the weight w is 0\n  expected: w: 1 to 1,024\n"),
    "3-place-above-n": ("line 6 is \"(right 3 1)\"", "the place i is 3\n  expected: i: 1 to n, and n is 2\n"),
    "3-more-than-32-marks": ("line 1 is \"(problem 33)\"", "the number of marks n is 33\n  expected: n: 1 to 32\n"),
    "3-large-tolerance": ("line 5 is \"(right 1 (5 1048577))\"", "the tolerance d is 1048577\n  expected: d: 0 to 1,048,576\n"),
    "3-large-number-in-a-row": ("line 3 is \"(row 1 (4 -1048577))\"", "number 2 of the row is -1048577\n  expected: a: -1,048,576 to 1,048,576\n"),
    "4-short-row": ("line 3 is \"(row 1 (4))\"", "its list has 1 number, and there should be 2"),
    "4-long-inverse": ("line 10 is \"(inverse 2 (1 6 0))\"", "its list has 3 numbers, and there should be 2"),
    "5-inverse-of-0": ("row 1 of the inverse is \"(inverse 1 (0))\"", ""), "5-coarse-steps": ("row 1 of the inverse is \"(inverse 1 (0))\"", ""),
    "5-rows-exchanged": ("row 1 of the inverse is \"(inverse 1 (4 1))\"", ""),
    "6-poor-guess": ("equation 1 is \"(row 1 (4 -1))\" and \"(right 1 5)\"", ""), "6-wrong-sign": ("equation 1 is \"(row 1 (4 -1))\" and \"(right 1 -5)\"", ""),
    "6-tolerance-for-fine-steps": ("equation 1 is \"(row 1 (1))\" and \"(right 1 (0 33))\"", ""),
    "7-poor-inverse": ("column 2 of the inverse does not fit equation 1, which is \"(row 1 (4 -1))\"", ""),
    "11-row-before-scale": ("line 2 is \"(row 1 (4 -1))\"", "no scale stands before it"),
    "12-right-side-twice": ("line 6 is \"(right 1 5)\"", "line 5 gave it first, as \"(right 1 5)\", and the two are the same"),
    "12-damaged-copy": ("line 5 is \"(row 1 (4))\"", "line 3 gave it first, as \"(row 1 (4 -1))\", and the two differ"),
    "12-tolerance-added": ("line 7 is \"(right 1 (5 1))\"", "line 5 gave it first, as \"(right 1 5)\", and the two differ"),
    "13-two-missing": ("guess 2, inverse 1 are missing", ""), "14-line-after-end": ("line 14 is \"\"", "the end is line 13"),
    "15-no-end": ("the last line is \"(weight 2 1)\"", ""), "15-empty-file": ("the file is empty", ""),
}

# For each line after problem and scale: the number, the fault and what was expected.
FAULTS = {
    b"(height 1 2)": (2, '"height" is none of the words', "a form, as docs/FORMAT.md has them"),
    b"(row 1 4 -1)": (2, "its numbers after i do not stand in brackets of their own", "(row i (a .. a))"),
    b"(row (4 -1))": (2, "before its list stand 0 numbers, and there should be 1, i", "(row i (a .. a))"),
    b"(right (5 0))": (2, "before its list stand 0 numbers, and there should be 1, i", "(right i b) or (right i (b d))"),
    b"(right 1 (5 0) 1)": (2, "more stands after its list, at character 15", "(right i b) or (right i (b d))"),
    b"(right 1)": (2, "it has 1 number, and there should be 2", "(right i b) or (right i (b d))"),
    b"(weight 1 (1))": (2, "it has a list, and its form has none", "(weight i w)"),
    b"(end 1)": (2, "it has 1 number, and there should be 0", "(end)"),
    b"(guess 1 +5)": (2, "the number +5 has a plus sign", "(guess i X)"),
    b"(guess 1 5e3)": (2, '"5e3" is no whole number', "(guess i X)"),
    b"(guess 1 5": (2, "a closing bracket is missing", "(guess i X)"),
    b"guess 1 5": (2, "it does not begin with an opening round bracket", "(guess i X)"),
    b" (guess 1 5)": (2, "a space stands before its first bracket", "(guess i X)"),
    b"(row 1 ( 4 -1))": (2, "a space is missing, or one too many, beside the bracket at character 8", "(row i (a .. a))"),
    b"(guess 1 5) ; north": (2, "more stands after its last bracket, at character 12", "(guess i X)"),
    b"(guess\xc2\xa01 5)": (2, "a space that is not the one of ASCII stands at character 7", "(guess i X)"),
    b"(guess 1 5)\x00": (2, "a control byte of value 0 stands at character 12", "(guess i X)"),
    b"(guess 1 " + b"9" * 60 + b")": (3, "the guess X is " + "9" * 40 + "..", "X: -2^36 to 2^36"),
    b"(guess 1 -68719476737)": (3, "the guess X is -68719476737", "X: -2^36 to 2^36"),
    b"(right 1 1073741825)": (3, "the right side b is 1073741825", "b: -2^30 to 2^30"),
    b"(inverse 0 (1 2))": (3, "the place i is 0", "i: 1 to n, and n is 2"),
    b"(inverse 1 (1 -1048577 3))": (3, "number 2 of the row of the inverse is -1048577", "g: -1,048,576 to 1,048,576"),
    b"(scale 0 0)": (12, 'line 2 gave it first, as "(scale 4 4)", and the two differ', "problem and scale once, and each i once of each kind"),
    b"(right 2 7)\n(right 2 (7 0))": (12, 'line 3 gave it first, as "(right 2 7)", and the two have the same numbers', "problem and scale once, and each i once of each kind"),
}

CLERKS_PART = "enter nothing, change nothing in the file, and send it"


def table(sandbox):
    """The rows of docs/refusals.tsv by number."""
    rows = [line.split("\t") for line in (sandbox.root / "docs/refusals.tsv").read_text().splitlines()]
    return {row[0]: row for row in rows}


def examples(sandbox):
    """Every example of the table: number, file, first line of its listing."""
    for number, row in table(sandbox).items():
        for name, line in EXAMPLE.findall(row[4]):
            yield number, sandbox.root / "examples/refused" / name, line


def examples_give_their_lines(box):
    return all(box.run(path)[1].decode().split("\n")[0] == line for _, path, line in examples(box))


def every_example_is_in_the_table(box):
    """Each file of examples/refused stands in the table, and each refusal that a file can meet has one there, with its number."""
    said = [(number, path.name, line) for number, path, line in examples(box) if number != "0"]
    numbered = all(name.split("-")[0] == number and line.startswith(f"(refused {number} (") for number, name, line in said)
    files = sorted(path.name for path in (box.root / "examples/refused").iterdir())
    of_files = {number for number, row in table(box).items() if number not in ("Number", "0") and " alone: " not in row[4]}
    return numbered and sorted(name for _, name, _ in said) == files and {number for number, _, _ in said} == of_files


def format_has_the_table(box):
    """FORMAT's table of refusals is docs/refusals.tsv, row for row and cell for cell; of an accepted file it says the same."""
    text = (box.root / "docs/FORMAT.md").read_text()
    said = [line.strip("|").split("|") for line in text.split("\n") if re.match(r"\| (Number|\d+) \|", line)]
    rows = [row for number, row in table(box).items() if number != "0"]
    accepted = table(box)["0"]
    sentences = [accepted[2][0].upper() + accepted[2][1:] + ".", accepted[3][0].upper() + accepted[3][1:] + "."]
    return [[cell.strip() for cell in row] for row in said] == rows and all(sentence in text.replace("\n", " ") for sentence in sentences)


def explained(box, path):
    """The listing with --explain is the listing without, and the words have the table's row; gives the words and the row."""
    status, out, err = box.run("--explain", path)
    plain = box.run(path)
    number = re.match(rb"\(refused (\d+)", out)
    row = table(box)[number.group(1).decode() if number else "0"]
    words = err.decode()
    cells = row[1:2] + row[3:4] if row[0] in ("2", "3") else row[1:4] # of a line that is no form, and of a number, just what was expected of it
    has_row = all(cell.replace("`", "") in words for cell in cells)
    to_whom = row[0] == "0" or f"to do: {CLERKS_PART} with these lines to whoever wrote it\n  for whoever wrote it: {row[3].replace('`', '')}\n" in words
    return words if (status, out) == plain[:2] and plain[2] == b"" and has_row and to_whom and str(path) in words else ""


def explains_every_example(box):
    """The line is quoted and its fault named, and what was expected and what to do are said, to the clerk and to whoever wrote the file."""
    said = {path.stem: explained(box, path) for number, path, _ in examples(box) if number != "0"}
    quoted = all(f"found: {line}" in said[name] and (f"  fault: {fault}" in said[name] if fault else "fault:" not in said[name]) for name, (line, fault) in EXPLAINED.items())
    return said.keys() == EXPLAINED.keys() and quoted


def names_the_very_fault(box):
    """Of lines that are wrong in other ways; and what was expected of that line, and nothing else."""
    for line, (number, fault, expected) in FAULTS.items():
        _, out, err = box.run("--explain", text=b"(problem 2)\n(scale 4 4)\n" + line + b"\n")
        if not out.startswith(f"(refused {number} (".encode()) or f"  fault: {fault}".encode() not in err or f"  expected: {expected}\n".encode() not in err or CLERKS_PART.encode() not in err:
            print(line, err)
            return False
    return True


def field_comes_first(box):
    """With 5, 6 and 7, which a damaged equation can give."""
    return all(table(box)[number][3].startswith("first compare rows and right sides with the field") for number in "567")


def clerk_reads_the_same(box):
    """CLERK says of a refused file what --explain says, and of a file without tolerances; it begins with what is entered."""
    text = (box.root / "docs/CLERK.md").read_text()
    note = "the limits are about solving these equations alone, and not about the measuring"
    heading, first = text.split("\n\n")[:2]
    entered = first.startswith("**What is entered** are the entry lines") and "fixed mark" in first and "names or units" in first and heading.startswith("# ")
    return entered and CLERKS_PART in text and note in text and note in (box.root / "docs/FORMAT.md").read_text()


def dropped_tolerance_gives_smaller_limits(box):
    """CLERK's example of what an edit by a clerk does: without its last right side the file is accepted with limits of 1, without the first one with 5."""
    lines = (box.root / "examples/refused/12-tolerance-added.txt").read_bytes().splitlines(keepends=True)
    limits = []
    for place in (6, 4):
        listing = box.run(text=b"".join(lines[:place] + lines[place + 1 :]))[1].decode()
        limits.append(re.findall(r"\(solution \d+ \(\d+ (\d+)\)\)", listing))
    return limits == [["1", "1"], ["5", "5"]] and "accepted with limits of 1, where 5 was meant" in (box.root / "docs/CLERK.md").read_text()


def explains_an_accepted_file(box):
    """With a tolerance and without, or with tolerances of 0, which is said."""
    words, tolerant = explained(box, box.root / WHOLE), explained(box, box.root / "examples/tolerance.txt")
    zero = box.write("zero.txt", (box.root / WHOLE).read_bytes().replace(b"(right 1 5)", b"(right 1 (5 0))"))
    note = "the file gives no tolerance, so the limits are about solving these equations alone, and not about the measuring"
    said = [note in text for text in (words, tolerant, explained(box, zero))] == [True, False, True]
    return said and all("is accepted" in text and "concluded: every exact height" in text and "expected:" not in text for text in (words, tolerant))


def explains_what_is_read_once(box):
    """From a pipe, which is read to its end though the first bytes decide: its writer meets no closed end. The line quoted is the one that was judged."""
    writer = "{ printf '(problem 2)\n(scale 4 4)\n(row 1 (4 -1)) \n'; head -c 3000000 /dev/zero; echo $? >written; }"
    status, out, err = box.shell(f"{writer} | ./register --explain")
    said = b"standard input is refused with 2" in err and b'line 3 is "(row 1 (4 -1)) "\n' in err
    return (status, out, said) == (1, b"(refused 2 (3))\n", True) and (box.root / "written").read_text() == "0\n"


def quotes_no_control_bytes(box):
    _, out, err = box.run("--explain", text=b"(problem 2)\n\x1b[31m\x00\t\xff(end)\n")
    return out == b"(refused 2 (2))\n" and b'line 2 is "?[31m???(end)"\n' in err


def quotes_a_long_line_in_part(box):
    """A line of 30,000 bytes, before the end of what is kept and past it."""
    lines = [box.run("--explain", text=b"(problem 2)\n" + b"x" * length)[2] for length in (30_000, 100_000)]
    return all(err.count(b"x") < 200 and b'line 2 is "xxx' in err and b'x .."\n' in err for err in lines)


def names_many_missing_forms_in_part(box):
    _, _, err = box.run("--explain", text=b"(problem 32)\n(scale 4 4)\n(right 2 1)\n(end)\n(row 1 (1))\n")
    return b"row 1, row 2, row 3, row 4, row 5, row 6, row 7, row 8 and 119 more are missing" in err


def help_text(sandbox):
    return sandbox.run("--help")[1].decode()


def readme_has_a_file_and_its_listing(box):
    """README's first block has 01's whole file on the left and its listing on the right, each with its meaning after two spaces or more."""
    block = (box.root / "README.md").read_text().split("\n```\n")[1].split("\n")
    half = block[0].find("(bounds ")
    columns = ["".join(line[at:end].split("  ")[0] + "\n" for line in block if line[at:end]) for at, end in ((0, half), (half, None))]
    return half > 0 and columns == [(box.root / WHOLE).read_text(), box.run(WHOLE)[1].decode()]


def manual_has_the_help(box):
    """Every paragraph and every option of the help, word for word."""
    manual = re.sub(r"\\f[BIR]", "", (box.root / "docs/register.1").read_text())
    manual = " ".join(re.sub(r"(?m)^\.\S+ ?", "", manual).replace("\\-", "-").split())
    text = re.sub(r"(?m)^(usage:)? +(register|--|-h|\d )", r"\n\n\2", help_text(box)).replace("usage: ", "").replace("Exit status:", "")
    paragraphs = [" ".join(paragraph.split()) for paragraph in text.split("\n\n")]
    return len(paragraphs) > 8 and all(paragraph in manual for paragraph in paragraphs)
