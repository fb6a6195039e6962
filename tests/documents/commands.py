"""The commands that pages show: run in a folder of their own, some in a shorter form, or left to the part of the gate that runs them, or not run, each for a stated reason.

Commands of the kit, in a crate's folder ('cd crates/NAME && rt ..') or above it, and edits of sources ('sed -i .. crates/..'), run in a tree of the crates that a
page names, so that a page can show an edit and what the prover says to it. The lines shown below such a command are parts of what it prints; with 'error:' in them its status is 1."""

import os
import re
import shutil
import subprocess
import tempfile
from pathlib import Path

from common.walked import made

# what is not run, and why
NOT_RUN = (
    (r"(?:bash )?\.ci/run|make check|rt ci", "the gate itself"),
    (r"\./batch .*--sshlogin", "it needs other machines"),
)
# what another part of the gate runs: the command, its pages, the test, and what must stand in that test; PAGE is the page's file name, WORD the command's file
ELSEWHERE = (
    (r".*", r"docs/(?:CLERK|OFFICE)\.md", "tests/package/pages.py", '"PAGE"'),
    (r".*", r"docs/LARGE-NETS\.md", "tests/package/region.py", '"PAGE"'),
    (r"(?:cc|c\+\+|rustc) ", r".*", "tests/languages.py", "PAGE"),
    (r"make(?: lib| archive| install\b.*| uninstall\b.*)?$", r".*", "tests/install/cases.py", "box.make("),
    (r"rt must-fail(?: \w+)? >\S+$", r".*", "tests/edits_self_test.py", "rt: must-fail"),
    (r"python3 tests/edits\.py --write", r".*", "tests/edits_self_test.py", ".write()"),
    (r"tests/run(?! --list)", r".*", ".ci/run", "tests/parts.sh"),
    (r"(?:tests/link/run)", r".*", "tests/registry", "tests/link/run"),
)
# what runs in a shorter form, which its own help describes
SHORTER = ((r"bench/run(?! --quick)", "bench/run --quick"),)
# what stands for any file of a kind, with an example of it
FOR_ANY = (
    ("BEFORE.a AFTER.a", "target/staticlib/libkodarfi.a target/staticlib/libkodarfi.a"),
    ("AFTER.a", "target/staticlib/libkodarfi.a"),
    ("FILE NAMES", "target/named.txt examples/office/names.txt"),
    ("MAIN FIELD", "target/main.txt examples/region/east.txt"),
    ("REGISTER FILE", "target/documents.db examples/whole-file.txt"),
    ("A B", "examples/whole-file.txt examples/whole-file.txt"),
    ("FILE", "examples/whole-file.txt"),
    ("FIELD", "examples/town/field.txt"),
    ("REGISTER", "target/documents.db"),
)
# the examples that are made before a command that names them
MADE = {
    "target/named.txt": "python3 -m kodarfi build examples/office/field.csv | python3 -m kodarfi propose > target/named.txt",
    "target/main.txt": "python3 -m kodarfi build examples/region/main.txt | python3 -m kodarfi propose > target/main.txt",
    "./batch": "me=batch here=$PWD; . scripts/command_line.sh; link_batch target/bin/batch",
}
# for rt: the library is taken as it is built, and nothing else is made
STAND_IN = """#!/bin/sh
[ "$*" != lib ] || { mkdir -p out && exec cp ../../target/staticlib/libkodarfi.a out/; }
echo 'nothing is proved for a page' >&2
exit 2
"""
OF_KIT = re.compile(r"(?:cd crates/\w+ && )?rt \w|sed -i .* crates/")
ANYTHING = re.compile(r"(?<![\w/.$-])[A-Z][A-Z]*(?![\w/.=-])")


def filled(command):
    """A command in its shorter form, with examples for the words that stand for any file; options in square brackets are left out."""
    plain = re.sub(r"[\[\]]", "", re.sub(r"\[-[^\]]*\] *", "", command))
    for begins, shorter in SHORTER:
        plain = re.sub(rf"^{begins}", shorter, plain)
    for words, examples in FOR_ANY:
        plain = re.sub(rf"(?<![\w/.-]){words}(?![\w/.=-])", examples, plain)
    return plain


def elsewhere(root, of_page, command):
    """Which test runs a command, and whether that is still to be seen there: (test, seen); None where none does."""
    for begins, page, test, text in ELSEWHERE:
        match = re.match(begins, command)
        if match and re.fullmatch(page, of_page):
            needed = text.replace("PAGE", Path(of_page).name).replace("WORD", match.groupdict().get("word") or "")
            path = root / test
            return test, path.is_file() and needed in path.read_text(encoding="utf-8")
    return None


def not_run(command):
    """Why a command is not run; None where it is."""
    return next((why for begins, why in NOT_RUN if re.match(rf"(?:\w+=\S* )*(?:{begins})", command)), None)


class Tree:
    """The crates that commands name and those beneath them. Of a named one's must-fail edits the first is kept: each costs a check."""

    def __init__(self, root, path):
        self.root, self.path, self.held = root, path, set()
        lines = re.findall(r"(?m)^((\w+)(?: staticlib)?:(.*))", (root / "crates.txt").read_text())
        self.lines, self.named = {crate: line for line, crate, _ in lines}, {crate: others for _, crate, others in lines}

    def add(self, crate, edits=0):
        if crate in self.held or crate not in self.named:
            return
        self.held.add(crate)
        for other in self.named[crate].split():
            self.add(other)
        shutil.copytree(self.root / "crates" / crate, self.path / "crates" / crate, ignore=lambda folder, names: made(self.root, folder, names))
        for edit in sorted((self.path / "crates" / crate).glob("must-fail/*.edit"))[edits:]:
            edit.unlink()

    def run(self, command):
        """The status of a command of the kit, and what it prints."""
        self.path.mkdir(exist_ok=True)
        for word in re.findall(r"(?:crates/|rt [a-z-]+ )(\w+)", command):
            self.add(word, edits=1)
        (self.path / "crates.txt").write_text("".join(f"{line}\n" for crate, line in self.lines.items() if crate in self.held))
        return finished(["bash", "-c", command], cwd=self.path)


def finished(words, **settings):
    """The status of a command and what it prints; what hangs is given up after ten minutes."""
    try:
        done = subprocess.run(words, timeout=600, stdin=subprocess.DEVNULL, stdout=subprocess.PIPE, stderr=subprocess.STDOUT, text=True, **settings)
    except subprocess.TimeoutExpired:
        return None, "it did not end within ten minutes"
    return done.returncode, done.stdout


class Folder:
    """A folder in which commands run, made for the first of them: a copy of the repository, and a target of its own with what is built."""

    def __init__(self, root):
        self.root, self.held = root, tempfile.TemporaryDirectory()
        self.path = Path(self.held.name) / "clone"
        self.tree = Tree(root, Path(self.held.name) / "tree")

    def make(self):
        root = self.root
        shutil.copytree(root, self.path, ignore=lambda folder, names: made(root, folder, names))
        for path in [*root.glob("target/bin/*"), *root.glob("target/lib/*"), *root.glob("target/staticlib/*")]:
            place = self.path / path.relative_to(root)
            place.parent.mkdir(parents=True, exist_ok=True)
            place.symlink_to(path)
        (self.path / "target" / "tools").mkdir(parents=True)
        (self.path / "target" / "tools" / "rt").write_text(STAND_IN)
        (self.path / "target" / "tools" / "rt").chmod(0o755)
        (self.path / "nets").mkdir()
        for path in root.glob("examples/*.txt"):
            (self.path / "nets" / path.name).write_bytes(path.read_bytes())

    def __enter__(self):
        return self

    def __exit__(self, *_):
        self.held.cleanup()

    def run(self, command):
        """The status of a command, and what it prints."""
        if OF_KIT.match(command):
            return self.tree.run(command)
        if not self.path.exists():
            self.make()
        # nothing is proved for a page: programs and library are taken as they are
        environment = os.environ | {"PYTHONPATH": "python", "KODARFI_AS_BUILT": "silent", "LC_ALL": "C.UTF-8"}
        environment["PATH"] = f"{self.path}/target/tools:{environment['PATH']}"
        return finished(["bash", "-o", "pipefail", "-c", command], cwd=self.path, env=environment)


def full_lines(text):
    return [line.rstrip() for line in text.split("\n") if line.strip()]


def fault_of(root, folder, shown):
    """What is wrong with a command that a page shows; None where nothing is."""
    kept = []
    for part in shown.text.split(" && "):
        other = elsewhere(root, shown.page, part)
        if other and not other[1]:
            return f"{other[0]} no longer names what runs '{part}'"
        kept += [] if other or not_run(part) else [part]
    command = filled(" && ".join(kept))
    if not kept:
        return None
    unknown = ANYTHING.search(re.sub(r"'[^']*'|\"[^\"]*\"", "", command))
    if unknown:
        return f"'{shown.text}': there is no example for {unknown[0]}"
    for name, made in MADE.items():
        if f"{name} " in f"{command} " and not (folder.path / name.replace("./", "target/bin/")).exists():
            folder.run(made)
    status, printed = folder.run(command)
    lines = full_lines("\n".join(shown.printed or []))
    of_kit = OF_KIT.match(command)
    refused = any("error:" in line for line in lines) if of_kit else "examples/refused/" in command
    if status != int(refused):
        return f"'{command}' has status {status}: {printed.strip()[:200]}"
    if not (all(line.strip() in printed for line in lines) if of_kit else lines in ([], full_lines(printed))):
        return f"'{command}' prints something else: {printed.strip()[:200]}"
    return None
