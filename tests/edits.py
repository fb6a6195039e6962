"""The must-fail edits: what each breaks, where the prover refuses it, and which promise names it.

The first line of an edit says what it breaks, the second where the prover refuses it: 'refused at: ' and the first fact that `rt` names, by its file (under the
crate's proofs/ where no other folder is named) and its name: what a function returns, what a loop keeps, or a law. 'first at ..' names a side condition (a bound,
a cast, a `requires`), and 'only by a limit at ..' a fact at which the prover gave up. `rt` passes over both lines.

  python3 tests/edits.py --list            prints all edits, a table for each crate, from these lines
  python3 tests/edits.py --write [LOG..]   writes the second lines from what `rt must-fail` or the gate printed into these files, else from target/must-fail.log,
                                           which the gate leaves; an edit of which they say nothing keeps its line and is reported
  python3 tests/edits.py --check [LOG..]   each edit has both lines, the second as the logs have it, and docs/PROMISES.md names every edit and no other;
                                           the last line is 'N passed, M failed'
  python3 tests/edits.py --self-test       these three on made-up edits, right and then with each mutant of edits_self_test.py"""

import re
import sys
from pathlib import Path

from common.mutated import ROOT, close, main
from refused_at import lines_of, refused_at

REFUSED = "refused at: "
RULES = ("file:", "old:", "new:")  # how the lines begin that `rt` reads


def cell(text):
    return text.replace("|", "\\|")


class Edit:
    """A must-fail edit: its lines, and what a run said of it; None where it said nothing."""

    def __init__(self, path, logs):
        self.path = path
        self.crate, self.label = path.parts[-3], path.stem
        self.name = f"{self.crate}/{self.label}"
        self.lines = path.read_text().split("\n")
        self.log = logs.get(self.name)

    @property
    def breaks(self):
        """What the edit breaks; None where it does not say so first."""
        first = self.lines[0]
        return first if first.strip() and not first.startswith((REFUSED.strip(), *RULES)) else None

    @property
    def said(self):
        """The lines that say where it is refused."""
        return [line for line in self.lines if line.startswith(REFUSED.strip())]

    @property
    def logged(self):
        """Where the run refused it; None where it does not say."""
        return refused_at(self.path.parents[1], self.log) if self.log is not None else None

    def row(self):
        return f"| {self.label} | {cell(self.breaks or '?')} | {cell('; '.join(line.removeprefix(REFUSED) for line in self.said) or '?')} |"

    def write(self):
        """Writes the second line as the log has it; gives whether there is such a log."""
        logged = self.logged
        if logged is None or self.breaks is None:
            return False
        lines = [line for line in self.lines if not line.startswith(REFUSED.strip())]
        lines.insert(1, REFUSED + logged)
        if lines != self.lines:
            self.lines = lines
            self.path.write_text("\n".join(lines))
        return True

    def fault(self):
        """What is wrong with it, a sentence; None where nothing is."""
        logged = self.logged
        if self.breaks is None:
            return f"{self.name} does not say in its first line what it breaks"
        if self.said != self.lines[1:2]:
            return f"{self.name} must have one line that begins with '{REFUSED.strip()}', its second (python3 tests/edits.py --write)"
        if logged is None:
            return f"no log shows that {self.name} is refused, at what fact: {self.log or 'run the gate first'}"
        if self.lines[1] != REFUSED + logged:
            return f"{self.name} has '{self.lines[1]}', its log '{REFUSED}{logged}' (python3 tests/edits.py --write)"
        return None


class Edits:
    """The edits of a repository, with the logs of their run and the promises that name them."""

    def __init__(self, root, logs=()):
        self.root = root
        texts = [path.read_text(errors="replace") for path in [*map(Path, logs)] or [root / "target" / "must-fail.log"] if logs or path.is_file()]
        said = lines_of("\n".join(texts))
        self.all = [Edit(path, said) for path in sorted(root.glob("crates/*/must-fail/*.edit"))]

    def table(self):
        lines = ["# The must-fail edits"]
        for crate in dict.fromkeys(edit.crate for edit in self.all):
            lines += ["", f"## {crate}", "", "| Edit | What it breaks | Refused at |", "|---|---|---|"]
            lines += [edit.row() for edit in self.all if edit.crate == crate]
        return "\n".join(lines)

    def write(self):
        """Writes every second line that a log gives, and gives the names of the other edits."""
        return [edit.name for edit in self.all if not edit.write()]

    def named(self):
        """Every edit that the promises name: 'crate/edit', and then further edits of the same crate after commas."""
        crates, found = {edit.crate for edit in self.all}, set()
        for line in (self.root / "docs" / "PROMISES.md").read_text().split("\n"):
            crate = None
            for word in re.split(r"[\s|]+", line.rsplit("|", 2)[-2] if line.startswith("|") else line):
                word = word.strip(".,;`")
                if "/" in word and word.split("/")[0] in crates and re.fullmatch(r"[a-z_]+/[a-z0-9_]+", word):
                    crate = word.split("/")[0]
                    found.add(word)
                elif crate and re.fullmatch(r"[a-z0-9_]+", word):
                    found.add(f"{crate}/{word}")
        return found

    def faults(self):
        """What is wrong, a sentence each."""
        names, named = [edit.name for edit in self.all], self.named()
        yield from (fault for fault in map(Edit.fault, self.all) if fault)
        yield from (f"docs/PROMISES.md does not name {name}" for name in names if name not in named)
        yield from (f"docs/PROMISES.md names {name}, which is no edit" for name in sorted(named - set(names)))


def run():
    command, logs = sys.argv[1:2], sys.argv[2:]
    edits = Edits(ROOT, logs)
    if sys.argv[1:] == ["--list"]:
        print(edits.table())
        return 0
    if command == ["--write"]:
        left = edits.write()
        print("".join(f"no log says where {name} is refused, or it does not say what it breaks\n" for name in left), end="")
        return int(bool(left))
    if command == ["--check"]:
        return close(2 * len(edits.all), edits.faults())
    if sys.argv[1:] == ["--self-test"]:
        from edits_self_test import self_test

        return self_test()
    print(__doc__)
    return 2


if __name__ == "__main__":
    main(run)
