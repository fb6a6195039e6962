"""The command sheet: what a page says beside the listing; names files; and every kind of bad input of sheet and draw."""

import hashlib
import random
import re
from html.parser import HTMLParser

from package.commands import GOOD, ROOT, WHOLE, Program, acted, book, command, entries_in, equations

VERSION = (ROOT / "VERSION").read_text().strip()
MADE_OF = ("Brücke", "<b>&amp;", 'O"Neil\'s', "Große Röder, Nordpfeiler", "駅前", "St. Ærø & Sønner", "x" * 40, "]]>", "Höhe 5 m")
WHOLE_NAMES = b"unit mm\n0 Church door\n1 Town hall\n2 Mill\n"


def names(rng, n):
    """Names by chance for a net of n marks, each once."""
    return [f"{rng.choice(MADE_OF)} {rng.choice(MADE_OF)} {mark}"[-80:] for mark in range(n + 1)]


def names_text(unit, marks):
    return "".join(f"{what} {name}\n" for what, name in [("unit", unit), *enumerate(marks)]).encode()


def files(loaded):
    """Accepted files of books by chance, each with names, the unit, and the book's lines."""
    for index in range(8):
        n, lines = book(index)
        rng = random.Random(f"package names/{index}")
        yield acted(loaded, "propose", equations(n, lines)[0]), names(rng, n), rng.choice(("mm", "tenths of a <mm>")), lines


class Cells(HTMLParser):
    """The elements of a page, with their text; open elements left over are kept."""

    def __init__(self, page):
        super().__init__()
        self.open, self.found, self.wrong = [], [], False
        self.feed(page)
        self.close()

    def handle_starttag(self, tag, attributes):
        self.wrong |= any(name in ("src", "href", "onload") for name, _ in attributes) or tag in ("script", "link", "img")
        self.found.append((tag, []))
        if tag != "meta":
            self.open.append(self.found[-1])

    def handle_endtag(self, tag):
        self.wrong |= not self.open or self.open.pop()[0] != tag

    def handle_data(self, data):
        if self.open:
            self.open[-1][1].append(data)

    def texts(self, tag):
        return ["".join(parts) for name, parts in self.found if name == tag]


def sheets_say_what_listings_say(package):
    """Of every mark its name, V and limit, with the unit; above which mark; the file's hash and the version; as text and as HTML."""
    for file, marks, unit, _ in files(package):
        named = names_text(unit, marks)
        text = acted(package, "sheet", file, named).decode()
        cells = Cells(acted(package, "sheet", file, named, is_html=True).decode())
        entries = entries_in(Program().listing(file))
        rows = [(str(mark), marks[mark], f"{V} {unit}", f"{limit} {unit}") for mark, (V, limit) in enumerate(entries, 1)]
        title, source = f"Heights above the fixed mark {marks[0]}", [hashlib.sha256(file).hexdigest(), f"kodarfi {VERSION}"]
        lines = text.split("\n")
        reported = [re.sub(r"  +", "|", line.strip()) for line in lines[3 : 3 + len(rows)]]
        if lines[0] != title or reported != ["|".join(row) for row in rows] or len({len(line) for line in lines[2 : 3 + len(rows)]}) != 1:
            return False
        if [line.split(": ")[-1] for line in lines[-3:-1]] != source or not text.endswith("\n") or any(line != line.rstrip() for line in lines):
            return False
        said = cells.texts("h1"), cells.texts("title"), cells.texts("td"), cells.texts("dd")
        if cells.wrong or cells.open or said != ([title], [title], [cell for row in rows for cell in row], source):
            return False
        style = cells.texts("style")[0]
        if not all(word in style for word in ("prefers-color-scheme: dark", "@media print", "color-scheme: light dark")):
            return False
    return True


# Names files that cannot be read, with words of what is said; for a net of two marks.
BAD_NAMES = (
    (b"", "there is no name for the unit"),
    (b"unit mm\n0 a\n1 b\n", "there is no name for mark 2"),
    (b"unit mm\n1 b\n2 c\n", "there is no name for mark 0"),
    (b"0 a\n1 b\n2 c\n", "there is no name for the unit"),
    (WHOLE_NAMES + b"3 d\n", "mark 3 has a name, and the net has the marks 0 to 2"),
    (WHOLE_NAMES + b"2 d\n", "line 5: 2 has a name already"),
    (WHOLE_NAMES + b"Unit cm\n", "line 5: unit has a name already"),
    (WHOLE_NAMES.replace(b"Mill", b"Town  hall"), "line 4: another mark has the name 'Town hall'"),
    (WHOLE_NAMES.replace(b"Mill", b"Mu\xcc\x88hle").replace(b"Church door", "Mühle".encode()), "line 4: another mark has the name"),
    (WHOLE_NAMES.replace(b"Mill", b""), "line 4: there is no name"),
    (WHOLE_NAMES.replace(b"Mill", b"a\x07b"), "line 4: the name has a character"),
    (WHOLE_NAMES.replace(b"Mill", "a\u202eb".encode()), "line 4: the name has a character"),
    (WHOLE_NAMES.replace(b"Mill", b"x" * 81), "line 4: a name of 81 letters, and 80 at most"),
    (WHOLE_NAMES.replace(b"2 M", b"two M"), "line 4: 'two' is not a mark's number"),
    (WHOLE_NAMES.replace(b"2 M", b"02 M"), "line 4: '02' is not a mark's number"),
    (WHOLE_NAMES.replace(b"2 M", b"main:2 M"), "line 4: 'main:2' is not"),
    (WHOLE_NAMES.replace(b"Mill", b"\xff"), "line 4: not text in UTF-8"),
    (b"\x7fELF\x00\x01\x02\n", "line 1: "),
    (b"mark,name\nunit,mm\n0,a\n1,b,c\n2,d\n", "line 4: 3 cells under 2 columns"),
    (b'mark,name\nunit,mm\n0,"a\n', "line 3: "),
    (b"# x\n" * 300000, "more than 1,048,576 bytes"),
)
SAME_NAMES = (
    b"mark,name\nunit,mm\n0,Church door\n1,Town hall\n2,Mill\n",
    b'\xef\xbb\xbfName;Mark\r\nmm;Unit\r\n"Church door";0\r\nTown hall;1\r\n# none\r\n\r\nMill;2\r\n',
    "# names\n2\tMill\n\n1  Town\u00a0hall \n0 Church door\nUNIT mm".encode(),
)


def names_are_read(package):
    """Text or CSV; one that cannot be read is reported in one line, of the second file, with a status of 2."""
    named = __import__("kodarfi.names", fromlist=["read"])
    page = acted(package, "sheet", WHOLE, WHOLE_NAMES)
    if any(acted(package, "sheet", WHOLE, text) != page for text in SAME_NAMES) or b"Church door" not in page:
        return False
    commas = named.read(WHOLE_NAMES.replace(b"Mill", b"Mill, old; upper"), 2).marks[2] == "Mill, old; upper"
    quoted = named.read(SAME_NAMES[0].replace(b",Mill", b',"Mill, old"'), 2).marks[2] == "Mill, old"

    def reported(text):
        try:
            return str(named.read(text, 2))
        except ValueError as error:
            return str(error)

    whole = ROOT / "examples" / "whole-file.txt"
    for name, text, words in [("sheet", *BAD_NAMES[i]) for i in (1, 16, 17, 20)] + [("draw", *BAD_NAMES[4])]:
        status, out, err = command(package, name, whole, "-", input=text)
        if (status, out) != (2, b"") or err.count(b"\n") != 1 or not err.startswith(f"{name}: standard input: ".encode()) or words.encode() not in err:
            return False
    return all(words in reported(text) for text, words in BAD_NAMES[:-1]) and commas and quoted


MISUSED = (
    ("sheet", GOOD), ("sheet", "-", "-"), ("draw", "--html", GOOD), ("sheet", "--html"), ("dependent", GOOD), ("propose", "--scale", "21"), ("propose", "--scale", "x"),
    ("draw", GOOD, GOOD, GOOD), ("dependent", "--main", GOOD, GOOD),
)  # fmt: skip


def pages_as_filters(package):
    """Statuses and one line for what cannot be read, written or judged."""
    on, whole, named = "python3 -m kodarfi", "examples/whole-file.txt", "<(printf '%s\\n' 'unit mm' '0 a' '1 b' '2 c')"
    one = lambda answer, status, *words: answer[0] == status and answer[1] == b"" and answer[2].count(b"\n") == 1 and all(word in answer[2] for word in words)
    drawn = f"draw {whole}", "draw examples/refused/6-poor-guess.txt"
    written = f"sheet {whole} {named}", f"sheet --html {whole} {named}", *drawn, f"dependent {whole} examples/town/field.txt"
    full = [package.shell(f"{on} {words} >/dev/full") for words in written]
    gone = package.shell(f"{{ sleep 0.2; {on} draw {whole}; echo $? >&2; }} | exec true")
    refused = command(package, "sheet", ROOT / "examples" / "refused" / "5-inverse-of-0.txt", "-", input=WHOLE_NAMES)
    binary = command(package, "draw", input=b"\x89PNG\r\n\x00\xff" * 9000)
    mistakes = [command(package, *words) for words in MISUSED]
    return (
        all(one(answer, 2, b"standard output could not be written") for answer in full)
        and gone == (0, b"", b"0\n")
        and refused[:2] == (1, b"(refused 5 (1))\n") and refused[2].count(b"\n") == 1
        and binary[:2] == (1, b"(refused 2 (1))\n") and binary[2].count(b"\n") == 1
        and all(one(answer, 2, b"usage: python3 -m kodarfi ") for answer in mistakes)
        and one(command(package, "sheet", ROOT / whole, ROOT / "examples"), 2, b"sheet: ", b"examples: ")
        and one(command(package, "sheet", ROOT / whole, "no\nnames"), 2, b"sheet: no?names: ")
    )  # fmt: skip
