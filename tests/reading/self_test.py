"""The reading list of made-up sources, and mutants of them: each must be detected by --check, and by what it says."""

from common.made_up import results, said_of
from common.mutated import report
from run import Reading, check
from sources import Fault

FILES = {
    "README.md": "# Made up\n\n```\n(a file)\n```\n\n```\npub size_of : ℤ\n    → ℕ\n```\n",
    "docs/API.md": "# Made up\n\n## Public calls\n\n| In Rattle | In C | Gives |\n|---|---|---|\n| `entry::enter(x) -> Kind` | `kodarfi_enter` | what it enters |\n"
    "| `half::fill(x) -> usize` | `kodarfi_fill`; with a line: `kodarfi_line` | a half |\n| `entry::look(x) -> Kind` | | what is there |\n\n## Linking\n",
    "crates/entry/specs/Size.antt": "-- Sizes of numbers. Any number.\nuse Rattle.std.specs.Prelude.{ℕ}\nuse Rattle.std.specs.Int.{ℤ, nat_abs}\n\nabbrev pub size_of : ℤ → ℕ\n"
    "size_of z = nat_abs z\n",
    "crates/entry/specs/Entered.antt": "-- What is entered.\nuse Rattle.std.specs.Prelude.{ℕ}\nuse Rattle.entry.specs.Size.{size_of}\n"
    "use Rattle.entry.specs.declared.Kind.{Kind}\n",
    "crates/entry/specs/Inner.antt": "-- Nothing that a contract cites.\nuse Rattle.std.specs.Prelude.{ℕ, ◌+◌}\n",
    "crates/entry/src/lib.rt": "// Entries.\nghost use Rattle.entry.specs.Entered.{EnteredAs};\nghost use Rattle.entry.specs.Inner.{inner};\n\n"
    "// Of two kinds.\n#[derive(Clone, Copy)]\npub enum Kind {\n    One,\n    Two,\n}\n\n"
    "pub fn enter(x: i64) -> Kind\n    ensures { EnteredAs x result }\n{\n    Kind::One\n}\n\n"
    "pub fn look(x: i64) -> Kind\n    ensures kind { EnteredAs x result }\n    ensures twice { EnteredAs x\n        result }\n{\n    Kind::Two\n}\n",
    "crates/half/specs/Filled.antt": "-- What is filled.\nuse Rattle.entry.specs.Size.{size_of}\nuse Rattle.std.specs.Prelude.{get_or}\n",
    "crates/half/src/lib.rt": "ghost use Rattle.half.specs.Filled.{FilledAs};\n\npub fn fill(x: i64) -> usize\n    ensures { FilledAs x result }\n{\n"
    "    0\n}\n",
    "crates/kodarfi/src/lib.rt": "ghost use Rattle.entry.specs.Entered.{EnteredAs};\nghost use Rattle.half.specs.Filled.{FilledAs};\n\n"
    'pub extern "C" fn kodarfi_enter(x: i64) -> u32\n    ensures { EnteredAs x result }\n{\n    0\n}\n\n'
    'pub extern "C" fn kodarfi_fill(x: i64) -> u32\n    ensures { FilledAs x result }\n{\n    0\n}\n',
    "crates/entry/specs/Cases.antt": "-- Two entries.\nuse Rattle.entry.specs.Entered.{EnteredAs}\n",
    "crates/promises/specs/Lib.antt": "pub mod Paper01\n",
    "crates/promises/specs/Paper01.antt": "-- 02, Paper 1. Entries.\nuse Rattle.entry.specs.Cases.{cases}\nuse Rattle.half.specs.Stated.{Stated}\n",
    "crates/half/specs/Stated.antt": "-- Each refusal of a half.\nuse Rattle.half.specs.Filled.{FilledAs}\n",
    "words.tsv": "nat_abs\tthe size of a whole number\nget_or\ta number of a list\n",
}

# One change may be as many lines of the page.
ANY = 999

# name: file, what stands there, what stands there then, what must be said
MUTANTS = {
    "a line more in a file": ("crates/entry/specs/Size.antt", "size_of z = nat_abs z\n", "size_of z = nat_abs z\n\n", "entry/specs/Size.antt` | 7"),
    "another head": ("crates/half/specs/Filled.antt", "What is filled", "What is left", "What is left"),
    "a file that a contract needs now": (
        "crates/entry/specs/Entered.antt", "use Rattle.entry.specs.Size",
        "use Rattle.entry.specs.Inner.{inner}\nuse Rattle.entry.specs.Size", "Inner.antt",
    ),
    "a contract that cites another file": ("crates/entry/src/lib.rt", "EnteredAs x result", "EnteredAs (inner x) result", "Inner.antt"),
    "another contract": ("crates/half/src/lib.rt", "FilledAs x result", "FilledAs result x", "FilledAs result x"),
    "another name of a clause": ("crates/entry/src/lib.rt", "ensures twice", "ensures once", "lacks:     once: EnteredAs x result"),
    "a clause less": ("crates/entry/src/lib.rt", "    ensures twice { EnteredAs x\n        result }\n", "", "should not have:     twice: EnteredAs x result"),
    "a case more in an enum": ("crates/entry/src/lib.rt", "    Two,\n", "    Two,\n    Three,\n", "`Kind` | 7"),
    "a call that is exported and in no table": ("docs/API.md", "`kodarfi_fill`;", "", "has no row for kodarfi_fill"),
    "a call in the table that is not there": ("docs/API.md", "`half::fill(x)", "`half::filled(x)", "no public function filled"),
    "no table": ("docs/API.md", "## Public calls", "## Calls", "no one section 'Public calls'"),
    "another quote in README": ("README.md", "pub size_of : ℤ", "pub size_of : ℕ", "no file of specs/ has: pub size_of"),
    "no quote in README": ("README.md", "pub size_of", "size_of", "quotes no contract"),
    "a call without a contract": ("crates/half/src/lib.rt", "    ensures { FilledAs x result }\n", "", "has no ensures"),
    "a call less in the table": ("docs/API.md", "`half::fill(x) -> usize`", "`half::filled`", "should not have: `half::fill`"),
    "a call for C by another call": (
        "docs/API.md", "`kodarfi_fill`; with a line: `kodarfi_line` | a half |\n| `entry::look(x) -> Kind` | |",
        "| a half |\n| `entry::look(x) -> Kind` | `kodarfi_fill` |", "Tier 1: the contracts of document 01 | 4",
    ),
    "a file that is not there": ("crates/half/specs/Stated.antt", "specs.Filled", "specs.Field", "half/specs/Field.antt is imported and is not there"),
    "a struct that is not there": ("crates/entry/specs/Entered.antt", "declared.Kind", "declared.Sort", "declares no Sort"),
    "a word without a meaning": (
        "crates/half/specs/Stated.antt", "-- Each refusal of a half.\n",
        "-- Each refusal of a half.\nuse Rattle.std.specs.Prelude.{drop}\n", "drop of the library",
    ),
    "a word behind a module's": (
        "crates/half/specs/Stated.antt", "-- Each refusal of a half.\n",
        "-- Each refusal of a half.\nuse Rattle.std.proofs.Math.Seq as seq\n-- seq.sets\n", "sets of the library",
    ),
    "a meaning of no word": ("words.tsv", "get_or\t", "take\tthe first of a list\nget_or\t", "take of words.tsv"),
    "another meaning": ("words.tsv", "a number of a list", "the last of a list", "the last of a list"),
    "a case that a contract cites": (
        "crates/half/specs/Filled.antt", "use Rattle.std.specs.Prelude",
        "use Rattle.entry.specs.Cases.{cases}\nuse Rattle.std.specs.Prelude", "should not have: | Tier 3",
    ),
}


def reading_of(folder):
    return Reading(folder, (folder / "words.tsv").read_text())


def checked(folder):
    """What --check says of the page of the right files."""
    try:
        check(reading_of(folder), folder / "READING.md")
    except Fault as fault:
        print("FAILED", fault)


def begin(folder):
    """The right page, which is left in the folder, and one with an empty line more."""
    right = reading_of(folder)
    tiers = [[right.sources.path_of(unit) for unit in units] for _, units in right.tiers()]
    expected = [
        ["entry/specs/Size.antt", "entry/src/lib.rt", "entry/specs/Entered.antt"], ["half/specs/Filled.antt"], ["half/specs/Stated.antt"],
        ["promises/specs/Paper01.antt"], ["entry/specs/Cases.antt"],
    ]
    yield f"the tiers of the made-up sources are {tiers}", tiers == expected
    why = right.why("entry/specs/Size.antt")
    ways = ["half::fill: half/specs/Filled.antt > entry/specs/Size.antt", "kodarfi_enter: entry/specs/Entered.antt > entry/specs/Size.antt"]
    yield f"why Size is read: {why}", why[1::2] == ways and not right.why("entry/specs/Inner.antt")
    (folder / "READING.md").write_text(right.page().replace("## Tier 2: the statements", "\n## Tier 2: the statements"))
    yield "an empty line more", "another order, or not as often" in said_of(checked, folder)
    (folder / "READING.md").write_text(right.page())


def self_test():
    return report(results(checked, FILES, MUTANTS, ANY, begin))
