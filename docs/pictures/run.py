"""The pictures of the documents, each made from a file that says what is in it; the map of docs/CRATES.md; and the largest numbers of docs/DESIGN.md.

  python3 docs/pictures/run.py --write       writes all
  python3 docs/pictures/run.py --check       compares all, the map with crates.txt, and the numbers with the laws; the last line is 'N passed, M failed'
  python3 docs/pictures/run.py --self-test   the same on mutants of what they are made from
  python3 docs/pictures/run.py --gate LOG    makes gate.tsv and its picture from what a gate printed with an older kit; today's tells no seconds of a crate

docs/town.svg and docs/office.svg are drawn by the Python package (`python3 -m kodarfi draw`), and tests/package compares them."""

import sys
from pathlib import Path

ROOT = Path(__file__).resolve().parent.parent.parent
sys.path[:0] = [str(ROOT / "tests"), str(ROOT / "bench")]
import figures  # noqa: E402
import gate  # noqa: E402
import plot  # noqa: E402
import storeys  # noqa: E402
import way  # noqa: E402
from common.mutated import close, main, report  # noqa: E402
from svg import Fault  # noqa: E402


def read(name):
    return (ROOT / name).read_text(encoding="utf-8")


# Each picture, what it is made from, and how.
PICTURES = {
    "docs/storeys.svg": ("crates.txt", storeys.draw),
    "docs/way.svg": ("crates.txt", way.draw),
    "docs/gate.svg": ("docs/pictures/gate.tsv", gate.draw),
    "bench/speed.svg": ("bench/README.md", plot.draw),
}


def fault_of_picture(picture, source, draw):
    def fault_of(text):
        return "" if read(picture) == draw(text) else f"{picture} is not what {source} gives: python3 docs/pictures/run.py --write"

    return fault_of


# What is compared: the file that it hangs on, and a function from this file's text to what is wrong, nothing where all is right.
COMPARED = {picture: (source, fault_of_picture(picture, source, draw)) for picture, (source, draw) in PICTURES.items()}
COMPARED["the map"] = ("crates.txt", lambda text: storeys.fault_of_map(read("docs/CRATES.md"), text))
COMPARED["the largest numbers"] = ("docs/DESIGN.md", lambda text: figures.fault_of(text, read))

# What must be detected: what is compared, a text in the file that it hangs on, another text for it, and a part of the fault.
MUTANTS = {
    "a crate less": ("docs/storeys.svg", "half_fill: integer linear rules\n", "", "is not what crates.txt gives"),
    "a crate in another storey": ("docs/storeys.svg", "# A matrix by its lower half\n", "", "is not what crates.txt gives"),
    "a crate that looks up": ("docs/storeys.svg", "check_held: ", "check_held: listing ", "check_held looks up: it names listing"),
    "a line that is no crate": ("docs/storeys.svg", "linear: integer\n", "linear integer\n", "neither a storey"),
    "a storey twice": ("docs/storeys.svg", "# Calls\n", "# The check\n", "is there already"),
    "a step's crate is gone": ("docs/way.svg", "check_margins: ", "check_margin: ", "names the crate check_margins"),
    "another time": ("docs/gate.svg", "The check\t", "The check\t1", "is not what docs/pictures/gate.tsv gives"),
    "a time that is none": ("docs/gate.svg", "The check\t", "The check\tlong", "invalid literal"),
    "no word of which gate": ("docs/gate.svg", "# ", "", "does not begin with '# '"),
    "a field less": ("docs/gate.svg", "The check\t", "The check ", "has not four fields"),
    "another ratio": ("bench/speed.svg", "| check, office | naive in C | 0.", "| check, office | naive in C | 1.", "is not what bench/README.md gives"),
    "a ratio of 0": ("bench/speed.svg", "| check, office | quick in C | ", "| check, office | quick in C | 0 | ", "cannot be read"),
    "a crate that the map lacks": ("the map", "check_held: ", "check_kept: ", "in the storey 'The check'"),
    "a storey that the map lacks": ("the map", "# Calls\n", "# All calls\n", "in the storey 'All calls'"),
    "a larger number": ("the largest numbers", "| 2^51 | 2^5 · 2^20 · 2^26 |", "| 2^52 | 2^5 · 2^20 · 2^26 |", "2^52 is not what ups_small says"),
    "a product that is larger": ("the largest numbers", "| 2^10 · 2^50 |", "| 2^12 · 2^50 |", "2^12 · 2^50 is not at most 2^60"),
    "another law": ("the largest numbers", "`load_magnitude` in", "`term_magnitude` in", "2^62 is not what term_magnitude says"),
    "no table": ("bench/speed.svg", "| Time of |", "| Times of |", "there is not one table"),
}

CRATES = "# Mathematics\ninteger:\n# A file and its listing\nlisting: integer\n"
LOG = """== times
crate         proof s  edits  edits s
integer             5      6       24
listing            10      2       20
all                15      8       44
proofs                    100 s       10 passed      0 failed
all: 130 s
18 passed, 0 failed
"""
LOG_GIVES = f"""{gate.HEAD}\nMathematics\t5\t24\t0\nA file and its listing\t10\t20\t0\n{gate.AFTER}\t0\t0\t30
# 2 crates and 8 must-fail edits. By the clock: 100 s for proofs, edits and programs, then 30 s for the tests.
"""


def fault_of(what, text):
    """What is wrong with what is compared, where the file that it hangs on has this text."""
    try:
        return COMPARED[what][1](text)
    except Fault as fault:
        return str(fault)


def detected(what, old, new, said):
    text = read(COMPARED[what][0])
    return old in text and said in fault_of(what, text.replace(old, new))


def table_of_log():
    """A gate's log gives its table."""
    return gate.table(LOG, CRATES) == LOG_GIVES


def no_table(log, said):
    try:
        return not gate.table(log, CRATES)
    except Fault as fault:
        return said in str(fault)


def self_test():
    found = [(f"mutant '{name}' is detected", detected(*mutant)) for name, mutant in MUTANTS.items()]
    found.append(("the table of a log", table_of_log()))
    found.append(("a log without times is detected", no_table("18 passed, 0 failed\n", "no times of crates")))
    found.append(("a log without a crate is detected", no_table(LOG.replace("listing ", "other "), "no time of listing")))
    return report(found)


def write():
    for picture, (source, draw) in PICTURES.items():
        (ROOT / picture).write_text(draw(read(source)), encoding="utf-8")
    return 0


def run():
    words = sys.argv[1:]
    try:
        if words == ["--check"]:
            return close(len(COMPARED), filter(None, (fault_of(what, read(source)) for what, (source, _) in COMPARED.items())))
        if words == ["--self-test"]:
            return self_test()
        if words == ["--write"]:
            return write()
        if len(words) == 2 and words[0] == "--gate":
            (ROOT / "docs/pictures/gate.tsv").write_text(gate.table(Path(words[1]).read_text(encoding="utf-8"), read("crates.txt")), encoding="utf-8")
            return write()
    except (Fault, OSError, UnicodeDecodeError) as error:
        print(f"docs/pictures/run.py: {error}", file=sys.stderr)
        return 2
    print("usage: python3 docs/pictures/run.py --write | --check | --self-test | --gate LOG", file=sys.stderr)
    return 2


if __name__ == "__main__":
    main(run)
