"""Made-up documents and sources, and mutants of them, each of which must be detected by what is said of it, and nothing else."""

FILES = {
    "README.md": "# Made up\n\n`sums::add_all` adds, as `sum_of` of `sums/specs/Sum.antt` says (`sum_zero` in `sums/proofs/Sum.antt`); `Adder::put` puts.\n"
    "`python3 tests/adds.py --all` tries it, and docs/PROMISES.md has `never_far_away`. In target/bin/none and `CRATE/must-fail/NAME.edit` nothing is cited.\n",
    "docs/PROMISES.md": "| Sentence | Statement |\n|---|---|\n| a sum | `Sums.SumIsSum` |\n",
    "docs/landings/first.md": "`sums/specs/Gone.antt` was there, with `old_law`.\n",
    "include/made.h": "/* `sums::add_all`, by crates/sums/src/lib.rt */\nint made(void);\n",
    "tests/README.md": "`adds.py` tries sums.\n",
    "tests/adds.py": "def adds():\n    return 1\n",
    "crates/sums/specs/Sum.antt": "-- Sums, with their laws in proofs/Sum. `sum_of` is theirs.\n--   sum_of n — the sum\nuse Rattle.std.specs.Prelude.{ℕ}\n\n"
    "abbrev pub sum_of : ℕ → ℕ\nsum_of n = n\n-- `never_cited` here is no head comment\n",
    "crates/sums/proofs/Sum.antt": "-- Laws of `sum_of` (specs/Sum), for `sums::add_all`.\nuse Rattle.std.specs.Prelude.{ℕ}\n\npub sum_zero : ℕ\nsum_zero = 0\n\n"
    "pub never_far_away : ℕ\nnever_far_away = 1\n\npub far_law : (a : ℕ) → a ≡ sum_of a\nfar_law a = sum_zero\n",
    "crates/sums/src/lib.rt": "// Adds: `sum_of` of specs/Sum.antt.\npub struct Adder {\n    sum: u64,\n}\n\nimpl Adder {\n    pub fn put(self) -> u64\n    {\n"
    "        0\n    }\n}\n\npub fn add_all(n: u64) -> u64\n{\n    called(n)\n}\n",
    "crates/sums/proofs/add_all/Answers.antt": "use Rattle.sums.proofs.add_all.Goals as goal\nuse Rattle.sums.proofs.add_all.Goals.{Start}\n\npub helper : ℕ\nhelper = 2\n\n"
    "small : (s : Start) → 0 ≡ 0\nsmall s = refl\n\npub returns : goal.returns\nreturns c = helper\n",
    "crates/sums/proofs/add_one/Answers.antt": "use Rattle.sums.proofs.add_one.Goals as goal\nuse Rattle.sums.proofs.add_one.Goals.{Start}\n\n"
    "sum_zero : (s : Start) → 0 ≡ 0\nsum_zero s = refl\n\npub returns : goal.returns\nreturns c = helper\n\npub far_law : goal.far_law\nfar_law c = helper\n",
    "crates/promises/specs/Sums.antt": "-- Sums.\nabbrev pub SumIsSum : Type 0\nSumIsSum = ⊥\n",
    "crates/promises/specs/False.antt": "-- For `SumIsSum` of Sums.\n",
    "crates.txt": "sums:\npromises: sums\n",
    "crates/promises/proofs/Sums.antt": "-- Theorems of specs/Sums.\npub sum_is_sum : statement.SumIsSum\nsum_is_sum = 0\n\nuse Rattle.sums.specs.Sum.{sum_of}\n",
}

# name: file, what stands there, what stands there then, what must be said
MUTANTS = {
    "a file that is not there": ("README.md", "sums/proofs/Sum.antt", "sums/proofs/Total.antt", "there is no sums/proofs/Total.antt"),
    "a file of another folder": ("README.md", "`sums/specs/Sum.antt`", "`sums/src/Sum.antt`", "there is no sums/src/Sum.antt"),
    "a script that is not there": ("README.md", "tests/adds.py", "tests/added.py", "there is no tests/added.py"),
    "a bare file": ("tests/README.md", "`adds.py`", "`added.py`", "there is no added.py"),
    "a document": ("README.md", "docs/PROMISES.md", "docs/PROMISE.md", "there is no docs/PROMISE.md"),
    "a file in a header": ("include/made.h", "src/lib.rt", "src/main.rt", "there is no crates/sums/src/main.rt"),
    "an item that no source declares": ("README.md", "sums::add_all", "sums::add_some", "declares no add_some"),
    "an item that is called and not declared": ("README.md", "sums::add_all", "sums::called", "declares no called"),
    "an item of no crate": ("README.md", "`sums::add_all`", "`totals::add_all`", "there is no crate totals"),
    "an item in a header": ("include/made.h", "sums::add_all", "sums::add_each", "declares no add_each"),
    "an item in a head comment": ("crates/sums/proofs/Sum.antt", "sums::add_all", "sums::add_none", "declares no add_none"),
    "a method": ("README.md", "Adder::put", "Adder::take", "no crate has an impl of Adder with take"),
    "a definition of a file": ("README.md", "`sum_of` of", "`sum` of", "sums/specs/Sum.antt declares no sum"),
    "a theorem of a file": ("README.md", "`sum_zero` in", "`never_far_away`, `sum_one` in", "sums/proofs/Sum.antt declares no sum_one"),
    "a theorem of the other file": ("README.md", "`sum_of` of", "`sum_zero` of", "sums/specs/Sum.antt declares no sum_zero"),
    "a theorem by itself": ("README.md", "never_far_away", "never_near", "no source has never_near"),
    "a definition by itself": ("crates/sums/specs/Sum.antt", "`sum_of` is theirs", "`total_of` is theirs", "no source has total_of"),
    "a file of the own crate": ("crates/sums/specs/Sum.antt", "in proofs/Sum", "in proofs/Total", "there is no crates/sums/proofs/Total"),
    "a definition of the own crate": ("crates/sums/src/lib.rt", "`sum_of` of", "`sums` of", "specs/Sum.antt declares no sums"),
    "a statement that is not there": ("docs/PROMISES.md", "| a sum |", "| a sum: `Sums.SumIsLess` |", "promises/specs/Sums.antt states no SumIsLess"),
    "a statement of another file": ("crates/promises/specs/False.antt", "SumIsSum", "SumIsLess", "promises/specs/Sums.antt states no SumIsLess"),
    "a statement without a row": ("docs/PROMISES.md", "`Sums.SumIsSum`", "", "it has no Sums.SumIsSum"),
    "a statement without a theorem": ("crates/promises/proofs/Sums.antt", "statement.SumIsSum", "statement.SumIs", "has no theorem of SumIsSum"),
    "two laws of one name": ("crates/sums/proofs/Sum.antt", "pub never_far_away : ℕ", "pub sum_of : ℕ\nsum_of = 0\npub never_far_away : ℕ", "sum_of is defined in"),
    "two laws of one name, one in a function's folder": ("crates/sums/proofs/add_all/Answers.antt", "helper", "never_far_away", "never_far_away is defined in"),
    "a type of the code and a definition of one name": ("crates/sums/src/lib.rt", "pub struct Adder {", "pub enum SumIsSum {\n    None,\n}\n\npub struct Adder {", "SumIsSum is defined in"),
    "one definition by two names": ("crates/sums/proofs/Sum.antt", "pub sum_zero :", "abbrev total : ℕ → ℕ\ntotal k = k\n\npub sum_zero :", "total in sums/proofs/Sum.antt and sum_of in"),
    "one law by two names": ("crates/sums/proofs/Sum.antt", "pub sum_zero :", "same_law : (k : ℕ) → k ≡ sum_of k\nsame_law k = refl\n\npub sum_zero :", "far_law in"),
    "one definition in a function's folder": ("crates/sums/proofs/add_all/Answers.antt", "helper = 2", "helper = 1", "are one: one law"),
    "a law in a function's folder that speaks of no stage": ("crates/sums/proofs/add_one/Answers.antt", "(s : Start)", "(s : ℕ)", "sum_zero is defined in"),
    "a law in a function's folder that is no goal": ("crates/sums/proofs/add_one/Answers.antt", "goal.far_law", "ℕ", "far_law is defined in"),
    "a crate that is named and not listed": ("crates.txt", "promises: sums", "promises:", "promises names sums"),
    "a crate that is listed and not named": ("crates.txt", "sums:\n", "sums: promises\n", "sums does not name promises"),
    "a long way back": ("crates/sums/proofs/Sum.antt", "sum_zero = 0", "sum_zero = c" + " .before" * 6, "6 steps back"),
    "a long line": ("docs/PROMISES.md", "a sum", "a sum " * 40, "the line has"),
}
