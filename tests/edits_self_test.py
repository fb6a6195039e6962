"""The test of edits.py: a made-up repository of edits that are right, and then a named mutant each."""

from common.box import Box
from common.mutated import edit, report, results
from edits import Edits

ANSWERS = """use Rattle.sum.proofs.total.Goals as goal
use Rattle.sum.proofs.total.Goals.{Start}

small : (s : Start) → s.args.n < 32
small s = search rules

pub returns : goal.returns
returns c = search rules

pub overflow_add-sum : goal.overflow_add-sum
overflow_add-sum c = search rules
"""

# What `rt` says of each edit, behind its name.
LOGS = {
    "sum/before": "refused, as it must be: ./proofs/total/Answers.antt:8:5: error: 1 declaration that depends on `small`, which was rejected, was not checked: returns",
    "sum/no_proof": "refused, as it must be: ./proofs/Law.antt:7:3: error: `total_even`: expected type `Even n`",
    "sum/other_sign": "refused, as it must be: ./proofs/total/Answers.antt:8:13: error: `returns`: `search`: no proof of `n ≡ m`",
    "sum/side": "refused, as it must be: ./proofs/total/Answers.antt:11:22: error: `overflow_add-sum`: `search`: no proof",
    "sum/small_part": "refused, as it must be: ./proofs/total/Answers.antt:5:11: error: `small`: `search`: no proof",
    "sum/too_large": "refused, as it must be (only by a limit of the prover, which gave no verdict): ./proofs/Law.antt:7:3: error: `total_even`: antt ran out of stack",
    "text/cut": "refused, as it must be: note: src/lib.rt:2:1: it is not proved that what `put` requires holds at this call (`put-requires-cla",
    "text/no_proof_file": "refused, as it must be: note: src/lib.rt:2:1: it is not proved that what the function ensures holds when it returns (`returns-then-a`); `search` gave up",
    "text/of_loop": "refused, as it must be: note: src/lib.rt:5:5: it is not proved that the invariant of the loop holds (`loop-i-preserved`); the facts known there allow it",
}

RIGHT = {
    "sum/before": "`total/Answers.antt`, `small`",
    "sum/no_proof": "`Law.antt`, `total_even`",
    "sum/other_sign": "`total/Answers.antt`, `returns`",
    "sum/side": "first at `total/Answers.antt`, `overflow_add-sum`",
    "sum/small_part": "`total/Answers.antt`, `small`",
    "sum/too_large": "only by a limit at `Law.antt`, `total_even`",
    "text/cut": "first at `src/lib.rt`, `put-requires-cla..` of `put`",
    "text/no_proof_file": "`src/lib.rt`, `returns-then-a` of `put`",
    "text/of_loop": "`src/lib.rt`, `loop-i-preserved` of `take`",
}

PROMISES = "| Promise | Edits |\n|---|---|\n| sums | sum/other_sign, before, too_large, side, small_part; sum/no_proof |\n| bytes | text/no_proof_file, of_loop, cut |\n"

TABLE = """# The must-fail edits

## sum

| Edit | What it breaks | Refused at |
|---|---|---|
| before | \\|before\\| is kept | `total/Answers.antt`, `small` |
| no_proof | \\|no_proof\\| is kept | `Law.antt`, `total_even` |
| other_sign | \\|other_sign\\| is kept | `total/Answers.antt`, `returns` |
| side | \\|side\\| is kept | first at `total/Answers.antt`, `overflow_add-sum` |
| small_part | \\|small_part\\| is kept | `total/Answers.antt`, `small` |
| too_large | \\|too_large\\| is kept | only by a limit at `Law.antt`, `total_even` |

## text

| Edit | What it breaks | Refused at |
|---|---|---|
| cut | \\|cut\\| is kept | first at `src/lib.rt`, `put-requires-cla..` of `put` |
| no_proof_file | \\|no_proof_file\\| is kept | `src/lib.rt`, `returns-then-a` of `put` |
| of_loop | \\|of_loop\\| is kept | `src/lib.rt`, `loop-i-preserved` of `take` |"""

SIGN, SIDE, LARGE = (f"crates/sum/must-fail/{label}.edit" for label in ("other_sign", "side", "too_large"))
LINE = "refused at: `total/Answers.antt`, `returns`\n"
LOG = "target/must-fail.log"
FACT = "other_sign.edit: " + LOGS["sum/other_sign"]
# What each one changes: a file, a text in it and another text for it, or nothing, which takes the file or folder away.
MUTANTS = {
    "a line that is missing": (SIGN, LINE, ""),
    "a line twice": (SIGN, LINE, LINE + LINE),
    "a second line of another fact": (SIGN, LINE, LINE + "refused at: `Law.antt`, `total_even`\n"),
    "a line at the end": (SIGN, f"{LINE}file: src/lib.rt\n", f"file: src/lib.rt\n{LINE}"),
    "a line first": (SIGN, f"|other_sign| is kept\n{LINE}", f"{LINE}|other_sign| is kept\n"),
    "a line without a fact": (SIGN, LINE, "refused at:\n"),
    "a definition that is none": (LOG, FACT, "other_sign.edit: refused, as it must be: ./specs/Sum.antt:3:1: error: `sum_of`: no clause covers 0"),
    "another fact": (SIGN, "`returns`", "`returns-2`"),
    "another file": (SIGN, "`total/Answers.antt`", "`other/Answers.antt`"),
    "a side condition for the promise": (SIDE, "first at ", ""),
    "the promise for a side condition": (SIGN, "refused at: ", "refused at: first at "),
    "a limit for the promise": (LARGE, "only by a limit at ", ""),
    "another function": ("crates/text/must-fail/of_loop.edit", "of `take`", "of `put`"),
    "no first line": (SIGN, "|other_sign| is kept\n", ""),
    "an empty first line": (SIGN, "|other_sign| is kept\n", "\n"),
    "an edit not promised": ("docs/PROMISES.md", ", too_large", ""),
    "a promise of no edit": ("docs/PROMISES.md", "too_large", "too_large, too_small"),
    "no log": (LOG, "", None),
    "a log without an edit": (LOG, "rt: must-fail sum/" + FACT + "\n", ""),
    "a log of another edit": (LOG, "sum/other_sign.edit", "sum/other_size.edit"),
    "a log of another fact": (LOG, FACT, "other_sign.edit: refused, as it must be: ./proofs/Law.antt:1:1: error: `total_even`: expected type"),
    "a log that names no fact": (LOG, FACT, "other_sign.edit: refused, as it must be"),
    "a clause that cannot be read": (LOG, FACT, "other_sign.edit: refused, as it must be: src/lib.rt:2:7: error: `ensures-1`: a projection is written right after a name"),
    "an edit that is bad": (LOG, FACT, "other_sign.edit: BAD EDIT: an 'old:' text is in src/lib.rt 0 times, and not once"),
    "an edit that is proved": (LOG, FACT, "other_sign.edit: NOT REFUSED: the crate is still proved with this edit"),
    "an edit that is not tried": (LOG, FACT, "other_sign.edit: NOT TRIED: its check was killed"),
    "a proof that names what is gone": (
        LOG, "refused, as it must be: ./proofs/total/Answers.antt:8",
        "refused, as it must be (only because a proof file names what the edit took away): ./proofs/total/Answers.antt:8",
    ),
    "no edits": ("crates", "", None),
}


class Repository(Box):
    """The made-up repository with its edits right, then with a mutant's change."""

    def __init__(self, edits=()):
        super().__init__()
        for name in LOGS:
            crate, label = name.split("/")
            self.write(f"crates/{crate}/must-fail/{label}.edit", f"|{label}| is kept\nrefused at: {RIGHT[name]}\nfile: src/lib.rt\nold: a\nnew: b\n")
        self.write("crates/text/src/lib.rt", "// Text.\n#[unsafe(no_mangle)]\npub extern \"C\" fn put() {}\npub fn take() {\n    for i in 0..4 {}\n}\n")
        self.write("crates/sum/proofs/total/Answers.antt", ANSWERS)
        self.write("crates/sum/proofs/Law.antt", "total_even : Even total\ntotal_even = refl\n")
        self.write(LOG, "".join(f"rt: must-fail {name}.edit: {said}\n" for name, said in LOGS.items()))
        self.write("docs/PROMISES.md", PROMISES)
        for name, old, new in edits:
            if new is None:
                (self.root / name).rename(self.root / "gone")
            else:
                edit(self.root, [(name, old, new)])

    def texts(self):
        return {str(path.relative_to(self.root)): path.read_text() for path in self.root.glob("crates/*/must-fail/*.edit")}


def edits_are_right(box):
    edits = Edits(box.root)
    faults = list(edits.faults())
    print("".join(f"{fault}\n" for fault in faults), end="")
    return edits.all and not faults


def the_table_has_every_edit(box):
    return Edits(box.root).table() == TABLE


def a_line_is_written_for_every_log(box):
    """Whatever the second lines were, they are written as the logs have them, and nothing else is changed."""
    right = box.texts()
    for name in ("a line that is missing", "a line twice", "a second line of another fact", "a line at the end", "a line without a fact", "another fact"):
        edit(box.root, [MUTANTS[name]])
        if box.texts() == right or Edits(box.root).write() or box.texts() != right:
            return False
    return not Edits(box.root).write() and box.texts() == right


def a_line_without_log_stays(box):
    """What has no log, or a log that names no fact, keeps its line and is reported; the others are written."""
    right = box.texts()
    edit(box.root, [MUTANTS["another fact"], MUTANTS["a side condition for the promise"], MUTANTS["a log that names no fact"]])
    left, texts = Edits(box.root).write(), box.texts()
    return left == ["sum/other_sign"] and "`returns-2`" in texts[SIGN] and texts[SIDE] == right[SIDE]


def logs_may_be_named(box):
    """Those that are named count, and no other."""
    (box.root / LOG).rename(box.root / "one.log")
    box.write("two.log", "rt: must-fail sum/more.edit: BAD EDIT: none\n")
    named = [box.root / name for name in ("one.log", "two.log")]
    return list(Edits(box.root).faults()) and not list(Edits(box.root, named).faults()) and len(Edits(box.root, named[1:]).write()) == len(LOGS)


TESTS = [edits_are_right, the_table_has_every_edit, a_line_is_written_for_every_log, a_line_without_log_stays, logs_may_be_named]
TABLE_MUTANTS = {
    "another purpose in the table": (LARGE, "|too_large| is kept", "it is kept"),
    "another fact in the table": (SIGN, "`returns`", "`returns-2`"),
    "a table without an edit": (SIGN, "", None),
}


def self_test():
    mutants = {name: (*change, edits_are_right) for name, change in MUTANTS.items()}
    mutants |= {name: (*change, the_table_has_every_edit) for name, change in TABLE_MUTANTS.items()}
    return report(results(TESTS, mutants, Repository))
