"""The reading list: what must be read to believe what is promised, worked out from the `use` lines of the sources.

  python3 tests/reading/run.py --write       writes docs/READING.md
  python3 tests/reading/run.py --check       docs/READING.md is what --write would write, and README quotes a contract as it stands; the last line is 'N passed, M failed'
  python3 tests/reading/run.py --why FILE    why tier 1 has a file of the list: for each public call the imports that lead there, the fewest
  python3 tests/reading/run.py --self-test   the list of made-up sources, right ones and the mutants of self_test.py

Tier 1 is what the `ensures` of the public calls cite, with all that it imports from specs/ and the structs and enums that it takes from src/. The public
calls are those of the table "Public calls" of docs/API.md and all that crates/kodarfi exports. Those of document 01 come first: the calls of the crates BASE,
and the calls for C that stand in their rows. Tier 2 are the statements, crates/promises/specs, and what else they import. Tier 3 is what
stands in a file whose name is one of CASES, with nothing, a number or a paper's number behind it, and is cited by no public contract: tables of cases and
comparisons with earlier rules. Every name of the library that these files import has a meaning in words.tsv or is one of STANDARD."""

import re
import sys
import textwrap
from pathlib import Path

HERE = Path(__file__).resolve().parent
sys.path.insert(1, str(HERE.parent))

from common.mutated import ROOT, close, main
from sources import Fault, Sources

BASE = ("check_lists", "entry", "line", "listing", "loader")
CASES = re.compile(r"(Cases|Before|Tightened|Example)\d*")
STANDARD = (
    "Bool true false not ◌&&◌ ◌||◌ ℕ zero suc ◌+◌ ◌-◌ ◌*◌ ◌/◌ ◌%◌ ◌^◌ ◌<◌ ◌≤◌ ◌==◌ max min ℤ ◌+ℤ◌ ◌-ℤ◌ ◌*ℤ◌ ◌<ℤ◌ ◌≤ℤ◌ "
    "List [] ◌∷◌ ◌++◌ Option none some String ◌≡◌ ◌↔◌ ◌⊎◌"
).split()
INTRODUCTION = """# What to read to believe it

For readers of proofs. `python3 tests/reading/run.py --write` makes this page from the `use` lines of the sources, and the gate compares it with them.
Files are named from `crates/`; each comes after what it imports. Read document 01 and the papers of 02 beside it.

- Tier 1 is what the contracts of the public calls cite.
- Tier 2 are the statements, sentence by sentence, with the words that only they need.
- Tier 3 are tables of cases, and comparisons with earlier rules.

Nothing else of `specs/` is needed to know what is promised: it serves contracts inside the chain. Proofs need not be read.
"""


SIGNS = """`-` of two numbers from 0 on stops at 0, `/` rounds down; `==` is the test that two are equal; `×` is and, `⊎` or, `⊥` what never holds; a sign with ℤ is that of whole numbers."""


class Reading:
    """The reading list of a repository."""

    def __init__(self, root, words):
        self.sources = Sources(root)
        self.meanings = dict(line.split("\t") for line in words.splitlines())
        calls = self.sources.public_calls()
        if not calls:
            raise Fault("docs/API.md names no public call, and kodarfi exports none")
        self.contracts = [(name, *self.sources.contract(name, crate, function)) for name, crate, function in calls]
        papers = [name for name, crate, _ in calls if (self.sources.beneath(name) if crate == "kodarfi" else crate) not in BASE]
        self.base = self.cited(lambda name: name not in papers)
        self.papers = [unit for unit in self.cited(lambda name: True) if unit not in self.base]
        files = [("promises", path.stem) for path in sorted((self.sources.crates / "promises" / "specs").glob("*.antt")) if path.stem != "Lib"]
        rest = [unit for unit in self.sources.closure(files) if unit not in self.base + self.papers]
        self.cases = [unit for unit in rest if unit[0] != "promises" and CASES.fullmatch(unit[1])]
        self.statements = [unit for unit in rest if unit[0] == "promises"]
        self.terms = [unit for unit in rest if unit not in self.cases + self.statements]

    def cited(self, wanted):
        return self.sources.closure([unit for name, _, units in self.contracts if wanted(name) for unit in units])

    def why(self, file):
        """A line for each public call whose contract leads to a file, named from crates/."""
        ways = [(name, self.sources.way(units, file)) for name, _, units in self.contracts]
        return [f"{name}: " + " > ".join(map(self.sources.path_of, way)) for name, way in ways if way]

    def tiers(self):
        return (
            ("Tier 1: the contracts of document 01", self.base), ("Tier 1: the contracts of the papers of 02, and beyond", self.papers),
            ("Tier 2: words that only statements need", self.terms), ("Tier 2: the statements", self.statements),
            ("Tier 3: cases, and comparisons with earlier rules", self.cases),
        )

    def head(self, unit):
        """The first sentence of the comment above a unit, at most 150 characters of it; of a struct or an enum without one what it holds."""
        text = self.sources.text_of(unit)
        comment = " ".join(line[3:] for line in re.match(r"(?:(?:--|//) \S.*\n)*", text).group(0).split("\n"))
        sentences = re.split(r"(?<!\.)\. (?=[A-Z0-9\"])", comment.strip())
        words = sentences.pop(0)
        while sentences and (words.count('"') % 2 or len(words) < 15):
            words += ". " + sentences.pop(0)
        words = words.rstrip(".:") or ", ".join(re.findall(r"(?m)^    (?:pub )?(\w+)", text))
        return (words if len(words) <= 150 else words[:146].rsplit(" ", 1)[0] + " ..").replace("|", "\\|")

    def row(self, unit):
        name = f"`{self.sources.path_of(unit)}`" + (f", `{unit[2]}`" if len(unit) == 3 else "")
        return f"| {name} | {self.sources.lines_of(unit)} | {self.head(unit)} |"

    def lines(self, units):
        return sum(self.sources.lines_of(unit) for unit in units)

    def page(self):
        parts = [INTRODUCTION, "| Tier | Files, structs and enums | Lines |\n|---|---|---|"]
        tiers = self.tiers()
        parts += [f"| {title} | {len(units)} | {self.lines(units)} |" for title, units in tiers]
        every = [unit for _, units in tiers for unit in units]
        parts.append(f"| together | {len(every)} | {self.lines(every)} |")
        for title, units in tiers:
            parts += [f"\n## {title}\n\n| File | Lines | What its head says |\n|---|---|---|", *map(self.row, units), f"| together | {self.lines(units)} | |"]
        parts.append("\n## The contracts of the public calls\n\n`.now` is what a list holds that is only read, `.old` what a list holds before the call and `.new` after it; `result` is the answer.\n")
        for name, ensures, _ in self.contracts:
            parts.append(f"`{name}`\n")
            parts += ["    " + textwrap.fill(clause, 150, break_long_words=False, break_on_hyphens=False, subsequent_indent=" " * 8) for clause in ensures] + [""]
        return "\n".join(parts) + "\n" + self.glossary(every)

    def glossary(self, every):
        used = self.sources.words(every)
        for name, unit in used.items():
            if name not in self.meanings and name not in STANDARD:
                raise Fault(f"{name} of the library, imported by crates/{self.sources.path_of(unit)}, has no meaning in words.tsv")
        for name in self.meanings:
            if name not in used:
                raise Fault(f"{name} of words.tsv is imported by no file of the list")
        rows = [f"| `{name}` | {self.meanings[name]} |" for name in sorted(self.meanings, key=str.lower)]
        standard = " ".join(f"`{name.replace('◌', '')}`" for name in STANDARD if name in used)
        standard = textwrap.fill(f"Standard, as their signs say: {standard}.", 150, break_long_words=False, break_on_hyphens=False)
        return "\n".join(["## The library's words", "", standard, SIGNS, "", "| Word | Meaning |", "|---|---|", *rows, ""])


def check(reading, path):
    """One line for each line that is missing or too many, one for each wrong quote in README, and the sum."""
    made, there = reading.page().split("\n"), path.read_text().split("\n") if path.is_file() else []
    faults = [f"lacks: {line}" for line in made if line not in there] + [f"should not have: {line}" for line in there if line not in made]
    if made != there and not faults:
        faults = ["has its lines in another order, or not as often"]
    faults = [f"docs/{path.name} {fault}" for fault in faults] + reading.sources.misquoted()
    return close(max(len(made) + 1, len(faults)), faults)


def run(arguments):
    if arguments == ["--self-test"]:
        from self_test import self_test

        return self_test()
    asked = arguments[1] if arguments[:1] == ["--why"] and len(arguments) == 2 else None
    if arguments not in (["--write"], ["--check"]) and not asked:
        print(__doc__)
        return 2
    path = ROOT / "docs" / "READING.md"
    try:
        reading = Reading(ROOT, (HERE / "words.tsv").read_text())
        if arguments == ["--check"]:
            return check(reading, path)
        if asked:
            print("\n".join(reading.why(asked)) or f"no contract of a public call leads to {asked}")
            return 0
        path.write_text(reading.page())
    except Fault as fault:
        return close(1, [f"reading: {fault}"])
    return 0


if __name__ == "__main__":
    main(lambda: run(sys.argv[1:]))
