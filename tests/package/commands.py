"""The commands: what they print beside the oracle, their statuses, and every kind of bad input."""

import os
import random
import re
import tempfile
from fractions import Fraction
from pathlib import Path

from calls.build.oracle import Build, Builder, FieldLine
from calls.check.oracle import Problem, check
from calls.common.oracle import CommonInterval, Pair, Proposal
from calls.doubles.oracle import Doubles, Outward
from calls.listing.oracle import Program
from calls.quality.oracle import Inquiry, Quality
from calls.weights.oracle import Request, WeightSearch
from common import generate
from common.checks import entries_in, faults, net_from
from common.exact import inverse_of, product
from common.mutated import open_folder
from common.net import file_of, lines_of, right_line
from common.rules import Refusal
from common.systems.usual import levelling_lines

from package.loaded import ROOT

TOWN = ROOT / "examples" / "town"
FIELD = (TOWN / "field.txt").read_bytes()
WHOLE = (ROOT / "examples" / "whole-file.txt").read_bytes()
BOOKS = 12


def command(package, *words, **options):
    return package.python("-m", "kodarfi", *words, **options)


def acted(package, name, *files, **options):
    """What a command prints, or what is refused, in this process."""
    commands = __import__("kodarfi.commands", fromlist=["COMMANDS"])
    try:
        return commands.COMMANDS[name].act(commands.Given(list(files), **options))
    except package.calls.Refused as refused:
        return refused.form()
    except commands.Unmade:
        return None


def book(index):
    """Field lines by chance with reading limits, some sent twice: n, and pairs of a line and its limit."""
    rng = random.Random(f"package book/{index}")
    n = rng.choice((1, 2, 5, 9, 20, 32))
    pairs = levelling_lines(rng, n, rng.choice((1, 8, 64)))[:120]
    lines = [(FieldLine(key, *rng.choice(((low, high), (high, low))), rng.randint(-9999, 9999), weight), rng.choice((0, 1, 2, 6, 40)) if index % 3 else 0) for key, (low, high, weight) in enumerate(pairs, 1)]
    lines += [rng.choice(lines) for _ in range(rng.choice((0, 3)))]
    rng.shuffle(lines)
    return n, lines


def text_of(lines):
    return "".join(f"{line.key} {line.start} {line.to} {line.difference} {line.weight}{f' {limit}' if limit or line.key % 2 else ''}\n" for line, limit in lines).encode()


def equations(n, lines):
    """The forms that the oracle builds, with tolerances computed mark by mark, and the tolerances."""
    built = Builder().build(Build(n, tuple(line for line, _ in lines)))
    distinct = dict((line.key, (line, limit)) for line, limit in lines).values()
    tolerance = [sum(line.weight * limit for line, limit in distinct if k in (line.start, line.to)) for k in range(1, n + 1)]
    rows = [f"(row {i + 1} ({' '.join(map(str, built.matrix[i * n : i * n + n]))}))" for i in range(n)]
    return file_of([f"(problem {n})", *rows, *map(right_line, range(1, n + 1), built.right, tolerance)]), tolerance


def books_are_built_as_the_oracle_does(package):
    return all(acted(package, "build", text_of(lines)) == equations(n, lines)[0] for n, lines in map(book, range(BOOKS))) and acted(package, "build", FIELD) == b"".join(
        line + b"\n" for line in (TOWN / "net.txt").read_bytes().split(b"\n") if line.startswith((b"(problem", b"(row", b"(right"))
    )


def tolerances_cover_the_readings(package):
    """The right sides of readings anywhere within their limits, at the ends of all too, lie within the tolerances that are printed."""
    for index in range(BOOKS):
        n, lines = book(index)
        problem = re.findall(rb"\(right \d+ (?:\((-?\d+) (\d+)\)|(-?\d+))\)", acted(package, "build", text_of(lines)))
        box = [(int(b or alone), int(d or 0)) for b, d, alone in problem]
        rng = random.Random(index)
        distinct = list(dict((line.key, (line, limit)) for line, limit in lines).values())
        for way in range(2 * n + 6):
            right = [Fraction(0)] * n
            for line, limit in distinct:
                mark = way // 2 + 1
                toward = 1 if line.to == mark else -1
                move = Fraction(limit * toward * (-1) ** way if way < 2 * n else rng.randint(-97, 97) * limit, 1 if way < 2 * n else 97)
                for at, sign in ((line.to, 1), (line.start, -1)):
                    if at:
                        right[at - 1] += sign * line.weight * (line.difference + move)
            if any(abs(true - b) > d for true, (b, d) in zip(right, box)):
                return False
            if way < 2 * n and abs(right[way // 2] - box[way // 2][0]) != box[way // 2][1]:
                return False  # the two ends are met: no smaller tolerance covers them
    return True


CSV = (
    b"key,from,to,difference,weight,reading limit\n7,0,1,10,2,3\n8,1,2,-3,5,\n9,2,0,4,1,1\n",
    b"\xef\xbb\xbfKey;From;To;Difference;Weight;Limit\r\n7;0;1;10;2;3\r\n\r\n8;1;2;-3;5;0\r\n# again\r\n8;1;2;-3;5;\r\n9;2;0;4;1;1\r\n",
    b'weight, "to",from,key,limit,difference\n2,1,0,"7", 3 ,10\n5,2,1,8,,-3\n1,0,2,9,1,4',
)
TEXT = b"# key from to difference weight limit\n\n7 0 1 10 2 3\n8 1 2 -3 5\n  9 2\t0 4 1 1\n"
SMALL = b"(problem 2)\n(row 1 (7 -5))\n(row 2 (-5 6))\n(right 1 (35 6))\n(right 2 (-19 1))\n"


def csv_is_read_as_text_is(package):
    return all(acted(package, "build", file) == SMALL for file in (TEXT, *CSV))


# Field books that are refused, with the line of the form.
REFUSED = (
    (b"7 0 1 10 2\n8 0 1 70000 2\n", "(refused 3 (2))"),
    (b"# comment\n70000 0 1 10 2\n", "(refused 3 (2))"),
    (b"7 0 1 10 65\n", "(refused 3 (1))"),
    (b"7 0 1 10 1\n7 0 33 10 1\n", "(refused 3 (2))"),
    (b"7 0 -1 10 1\n", "(refused 3 (0))"),
    (b"7 0 1 10 1\n7 1 -1 10 1\n", "(refused 3 (2))"),
    (b"7 1 1 10 1\n", "(refused 16 (1))"),
    (b"7 0 1 10 1\n\n7 0 1 11 1\n", "(refused 17 (3))"),
    (b"7 0 1 10 1 2\n7 0 1 10 1 3\n", "(refused 17 (2))"),
    (b"7 0 1 10 1 2\n7 0 1 10 1\n8 1 1 0 1\n", "(refused 17 (2))"),
    (b"7 0 1 10 1 2\n8 1 1 0 1\n7 0 1 10 1\n", "(refused 16 (2))"),
    (b"7 0 1 10 1 -1\n", "(refused 3 (1))"),
    (b"7 0 1 10 1 1048577\n", "(refused 3 (1))"),
    (b"7 0 1 10 64 16384\n", None),
    (b"7 0 1 10 64 16385\n", "(refused 3 (0))"),
    (b"7 0 1 10 1 %s\n" % (b"9" * 5000), "(refused 3 (1))"),
    (b"7 0 1 -%s 1\n" % (b"9" * 5000), "(refused 3 (1))"),
    (b"", "(refused 3 (0))"),
    (b"7 0 1 10 1\n" * 256, None),
    (b"7 0 1 10 1\n" * 257, "(refused 3 (0))"),
)
# Field books that cannot be read, with words of what is said.
UNREADABLE = (
    (b"7 0 1 10\n", "line 1: 4 numbers"),
    (b"7 0 1 10 1 2 3\n", "line 1: 7 numbers"),
    (b"7 0 1 10 1\n7 0 1 10.5 1\n", "line 2: '10.5' is not a whole number"),
    (b"7 0 1 +10 1\n", "'+10' is not"),
    ("7 0 1 ١ 1\n".encode(), "is not a whole number"),
    (b"7 0 1 1_0 1\n", "'1_0' is not"),
    (b"7 0 1 10 1\n7,0,1,10,1\n", "line 2: '7,0,1,10,1' is not"),
    (b"7 0 1 \xff 1\n", "line 1: not text in UTF-8"),
    (b"\x00\n", "is not a whole number"),
    (b"key,from,to,difference\n", "line 1: the columns are"),
    (b"key,from,to,difference,weight,weight\n", "line 1: the columns are"),
    (b"key,from,to,difference,weight,limt\n7,0,1,10,2,3\n", "there is no column 'limt'"),
    (b"key,from,to,difference,weight\n7,0,1,10\n", "line 2: 4 cells under 5 columns"),
    (b"key,from,to,difference,weight\n7,0,1,,2\n", "line 2: '' is not"),
    (b'key,from,to,difference,weight\n7,0,1,"10,2\n', "line 2: "),
    (b"7,0,1,10,2\n", "there is no column '7'"),
    (b"7 0 1 10 1\n" * 100000, "more than 1,048,576 bytes"),
)


def bad_field_books_are_reported(package):
    """A refused one by its number and line, with status 1; one that cannot be read with status 2; each with one line of words."""
    for text, form in REFUSED:
        answer = acted(package, "build", text)
        if (answer != form) if form else not isinstance(answer, bytes):
            return False
    for text, form in REFUSED[4:9:4]:
        status, out, err = command(package, "build", input=text)
        if (status, out) != (1, f"{form}\n".encode()) or err.count(b"\n") != 1 or not err.startswith(b"build: standard input: refused with "):
            return False
    for text, words in UNREADABLE[::2] + UNREADABLE[-1:]:
        status, out, err = command(package, "build", "-", input=text)
        if (status, out) != (2, b"") or err.count(b"\n") != 1 or words.encode() not in err or not err.startswith(b"build: standard input: "):
            return False
    field = __import__("kodarfi.field", fromlist=["read"])
    reported = lambda text: next((str(error) for error in [raised(field.read, text)] if type(error).__name__ == "TextError"), "")
    return all(words in reported(text) for text, words in UNREADABLE[:-1])


def raised(act, *words):
    try:
        return act(*words)
    except ValueError as error:
        return error


def proposals_are_good(package):
    """Of every book the proposal is for the equations, accepted, and right in exact fractions; with tolerances the entry limits are no wider, in sum, than
    with weights of 1, and narrower for some."""
    narrower = 0
    for index in range(BOOKS):
        n, lines = book(index)
        made, tolerance = equations(n, lines)
        file = acted(package, "propose", made)
        if not isinstance(file, bytes) or not all(line in file.split(b"\n") for line in made.split(b"\n")):
            return False
        problem = Program().load(file)
        listing = Program().printed(problem)
        if isinstance(problem, Refusal) or not listing.startswith(b"(bounds ") or (n < 21 and faults(net_from(problem), listing)):
            return False
        summed = lambda text: sum(limit for _, limit in entries_in(text))
        ones = summed(Program().printed(problem._replace(weights=[1] * 32)))
        if summed(listing) > ones or problem.t < 12 or (not any(tolerance) and problem.s < 10):
            return False
        narrower += 10 * summed(listing) < 9 * ones
    return narrower >= 2


def wide_tolerances_leave_room(package):
    """A tolerance of 2^20 has to share 2^25 with the residual: s is made for it. A proposal that is there is passed over, its damage too."""
    wide = acted(package, "propose", b"(problem 1)\n(row 1 (64))\n(right 1 (640 1048576))\n")
    again = acted(package, "propose", WHOLE.replace(b"(guess 1 23)", b"(guess 1 23) "))
    far = acted(package, "propose", b"(problem 1)\n(row 1 (1))\n(right 1 1073741824)\n")
    return all(Program().listing(file).startswith(b"(bounds ") for file in (wide, again, far)) and b"(scale 4 " in wide


# Equations that are refused, or of which nothing can be made.
UNPROPOSED = (
    (b"", "(refused 15 (0))"),
    (b"(row 1 (1))\n", "(refused 11 (1))"),
    (b"(problem 2)\n(row 1 (1 0))\n(right 1 5)\n", "(refused 13 (2))"),
    (b"(problem 2)\n(row 1 (1 0))\n(row 1 (1 0))\n", "(refused 12 (3))"),
    (b"(problem 2)\n(row 1 (1))\n", "(refused 4 (2))"),
    (b"(problem 33)\n", "(refused 3 (1))"),
    (b"(problem 1)\n(row 1 (1048577))\n", "(refused 3 (2))"),
    (b"(problem 1)\n(row 1 (1))\n(right 1 5)\nx\n", "(refused 2 (4))"),
    (b"(problem 1)\n(row 1 (0))\n(right 1 5)\n", None),
    (b"(problem 2)\n(row 1 (1 -1))\n(row 2 (-1 1))\n(right 1 5)\n(right 2 -5)\n", None),
    (b"(refused 17 (2))\n", None),
)


def what_cannot_be_proposed_is_reported(package):
    if any(acted(package, "propose", text) != form for text, form in UNPROPOSED):
        return False
    for text, form in UNPROPOSED[2], UNPROPOSED[-2], UNPROPOSED[-1]:
        status, out, err = command(package, "propose", input=text)
        if (status, out) != (1, f"{form}\n".encode() if form else b"") or err.count(b"\n") != 1 or not err.startswith(b"propose: standard input: "):
            return False
    return True


def problems():
    """Whole files by chance: the file, and its problem with the matrices in lists as long as the oracle has them."""
    for index in range(40):
        rng = random.Random(f"package commands/{index}")
        make, size, _ = generate.TABLE[generate.ORDER[index]]
        net = generate.made(rng, make, min(size(rng), 12))
        file = file_of(lines_of(net))
        yield file, Program().load(file)


def form_of(refusal):
    return f"(refused {refusal.number} ({' '.join(map(str, refusal.values or (0,)))}))"


def interval_lines(head, pairs):
    return "".join(line + "\n" for line in (head, *(f"(interval {i} ({low} {high}))" for i, (low, high) in enumerate(pairs, 1)), "(end)")).encode()


def files_are_judged_as_the_oracle_does(package):
    """check, weights, quality and intervals on whole files, and each on a file that is refused in a line."""
    met = set()
    for file, problem in problems():
        n = problem.n
        bounds = check(problem)
        if acted(package, "check", file) != (form_of(bounds) if isinstance(bounds, Refusal) else Program().listing(file)):
            return False
        for allowance in (1, 64):
            found = WeightSearch().find(Request(n, problem.t, problem.matrix, problem.inverse, allowance))
            weighted = form_of(found) if isinstance(found, Refusal) else file_of(lines_of(net_from(problem).with_(weights=found.weights)))
            if acted(package, "weights", file, allowance=allowance) != weighted:
                return False
        rated = Quality().rate(Inquiry(n, problem.t, problem.matrix, problem.inverse, problem.weights))
        if acted(package, "quality", file) != (form_of(rated) if isinstance(rated, Refusal) else f"(quality {rated.numerator} {rated.denominator})\n".encode()):
            return False
        ends = form_of(bounds) if isinstance(bounds, Refusal) else interval_lines(f"(intervals {n})", Doubles().intervals(Outward(n, problem.s, problem.guess, bounds.solution)))
        if acted(package, "intervals", file) != ends:
            return False
        met.add(bounds.number if isinstance(bounds, Refusal) else 0)
    lines = [acted(package, name, WHOLE.replace(b"(weight 2 1)", b"(weight 3 1)")) for name in ("check", "weights", "quality", "intervals")]
    missing = [acted(package, name, WHOLE.replace(b"(guess 2 13)\n", b"")) for name in ("check", "weights")]
    unended = [acted(package, name, WHOLE.replace(b"(end)\n", b"")) for name in ("check", "quality")]
    refused = lines == ["(refused 3 (12))"] * 4 and missing == ["(refused 13 (1))"] * 2 and unended == ["(refused 15 (0))"] * 2
    return refused and met >= {0, 5, 6}


def common_ends_are_the_oracles(package):
    """Of a file and the same equations in other steps, in either order; and where one or both are refused."""
    accepted = 0
    as_pair = lambda *both: Pair(*(Proposal(Problem(*(tuple(part) if isinstance(part, list) else part for part in one))) for one in both))
    for file, problem in problems():
        other = problem._replace(s=max(0, problem.s - 1), guess=[round(Fraction(X, 2 if problem.s else 1)) for X in problem.guess])
        other_file = file_of(lines_of(net_from(other)))
        for (one, first), (two, second) in (((file, problem), (other_file, other)), ((other_file, other), (file, problem))):
            found = CommonInterval().find(as_pair(first, second))
            is_found = hasattr(found, "low")
            right = interval_lines(f"(common {problem.n} {problem.s})", zip(found.low, found.high)) if is_found else form_of(found.refusal)
            accepted += is_found
            if acted(package, "common", one, two) != right:
                return False
    different = acted(package, "common", WHOLE, WHOLE.replace(b"(right 1 5)", b"(right 1 (5 1))"))
    return accepted > 20 and different == "(refused 20 (0))" and acted(package, "common", WHOLE, WHOLE[:-1].replace(b"(end)", b"(end")) == "(refused 2 (13))"


def called_as_a_filter(package):
    """Files by name, by - and by nothing; two files; statuses; a refusal on standard output with its words; long input read to its end."""
    whole, listing = ROOT / "examples" / "whole-file.txt", Program().listing(WHOLE)
    refused = ROOT / "examples" / "refused" / "5-inverse-of-0.txt"
    with tempfile.TemporaryDirectory(dir=open_folder()) as folder:
        odd = Path(folder) / "-a\nb"
        odd.write_bytes(b"")
        named = command(package, "quality", "--", "-a\nb", cwd=folder)
        folders = command(package, "check", folder)
    second = command(package, "common", whole, refused)
    long = package.shell("{ cat examples/whole-file.txt; head -c 3000000 /dev/zero; } | python3 -m kodarfi check; echo ${PIPESTATUS[*]}")
    return (
        command(package, "check", whole) == command(package, "check", "-", input=WHOLE) == command(package, "check", input=WHOLE) == (0, listing, b"")
        and command(package, "check", refused) == (1, Program().listing(refused.read_bytes()), b"")
        and named[:2] == (1, b"(refused 15 (0))\n") and named[2].startswith(b"quality: -a?b: refused with 15") and named[2].count(b"\n") == 1
        and second[:2] == (1, b"(refused 5 (1))\n") and b"the second of the two, row 1" in second[2] and second[2].count(b"\n") == 1
        and folders[:2] == (2, b"") and folders[2].count(b"\n") == 1
        and long == (0, b"(refused 14 (14))\n0 1\n", b"")
        and command(package, "weights", "--allowance", "65", whole)[:2] == (1, b"(refused 3 (0))\n")
        and command(package, "weights", "--allowance", "2", whole)[:1] == (0,)
    )  # fmt: skip


def called_as_a_filter_of_two(package):
    """Which of two files has the line that is refused."""
    unended = ROOT / "examples" / "refused" / "15-no-end.txt"
    whole = ROOT / "examples" / "whole-file.txt"
    answers = [command(package, "common", *names) for names in ((whole, unended), (unended, whole))]
    return [answer[:2] for answer in answers] == [(1, b"(refused 15 (0))\n")] * 2 and b"the second of the two" in answers[0][2] and b"the first of the two" in answers[1][2]


GOOD = ROOT / "examples" / "whole-file.txt"
MISUSED = (
    (), ("judge",), ("check", GOOD, GOOD), ("common", GOOD), ("common", "-", "-"), ("common", GOOD, GOOD, GOOD), ("check", "--explain"), ("weights", "--allowance"),
    ("weights", "--allowance", "x"), ("weights", "--allowance", "-1"), ("check", "no such file"), ("build", "no\nfile"), ("--helpp",), ("check", "a" * 5000),
)  # fmt: skip


def mistakes_are_2(package):
    """Each with one line on standard error and nothing else; help and version have status 0."""
    for words in MISUSED:
        status, out, err = command(package, *words)
        if (status, out) != (2, b"") or err.count(b"\n") != 1 or not err.startswith(f"{words[0] if words and words[0] in ('check', 'build', 'common', 'weights') else 'kodarfi'}: ".encode()):
            return False
    helped = [command(package, *words) for words in (("--help",), ("-h",))]
    each = [command(package, name, "--help") for name in ("build", "common")]
    version = (0, f"kodarfi {(ROOT / 'VERSION').read_text().strip()}\n".encode(), b"")
    reported = helped[0] == helped[1] and helped[0][0] == 0 and all(name.encode() in helped[0][1] for name in ("build [FIELD]", "propose", "check", "weights", "common A B", "intervals", "quality"))
    return reported and command(package, "--version") == version and all(status == 0 and out.startswith(b"usage: ") and not err for status, out, err in each)


def lost_output_is_2(package):
    """A full device and a closed output; a reader that has gone is no fault, and the status is that of the file."""
    failed = lambda answer, word: answer[:2] == (2, b"") and answer[2].count(b"\n") == 1 and word in answer[2]
    on = "python3 -m kodarfi"
    full = [package.shell(f"{on} {words} >/dev/full") for words in ("check examples/whole-file.txt", "build examples/town/field.txt", "quality examples/refused/15-no-end.txt", "--help")]
    closed = [package.shell(f"{on} {words} >&-") for words in ("check examples/whole-file.txt", "propose examples/town/net.txt", "--version")]
    gone = [package.shell(f"{{ sleep 0.2; {on} {words}; echo $? >&2; }} | exec true") for words in ("check examples/whole-file.txt", "check examples/refused/15-no-end.txt", "--help")]
    silent = [package.shell(f"{on} check {name} 2>&- >/dev/full; echo $?") for name in ("examples/whole-file.txt", "nowhere")]
    no_input = package.shell(f"{on} check <&-")
    return (
        all(failed(answer, b"standard output could not be written") for answer in (*full, *closed))
        and gone == [(0, b"", b"0\n"), (0, b"", b"1\n"), (0, b"", b"0\n")]
        and silent == [(0, b"2\n", b"")] * 2
        and failed(no_input, b"standard input is closed")
    )


def missing_library_is_2(package):
    status, out, err = command(package, "check", input=WHOLE, env=package.environment(KODARFI_LIBRARY="/nowhere.so"))
    return (status, out) == (2, b"") and err.count(b"\n") == 1 and err.startswith(b"check: there is no /nowhere.so") and b"make lib" in err


def field_lines_to_listing(package):
    """README's lines from field lines to the listing, as they stand there but for the library, which is made: the listing is the one beside the field lines, and
    no limit is wrong."""
    readme = (ROOT / "README.md").read_text()
    first, line = re.search(r"(?m)^    (make lib && .*)\n    (.*kodarfi propose.*)$", readme).groups()
    made = package.shell("python3 -m kodarfi build examples/town/field.txt | python3 -m kodarfi propose")
    reported = first == "make lib && export PYTHONPATH=python" and made == (0, (TOWN / "net.txt").read_bytes(), b"")
    piped = package.shell(line, KODARFI_AS_BUILT="silent")
    listing = (TOWN / "listing.txt").read_bytes()
    return reported and piped == (0, listing, b"") and faults(net_from(Program().load(made[1])), listing) == []
