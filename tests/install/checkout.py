"""A copy of the checkout, without the crates, with a stand-in for rt and a folder to install into."""

import functools
import shutil
import subprocess

from common.box import Box
from common.mutated import ROOT

NAMES = ("register", "convert", "batch")
PROVED = ("register", "convert", "kodarfi")
PARTS = ("Makefile", "VERSION", "CHANGELOG.md", "README.md", *NAMES, "docs", "examples", "include", "programs", "scripts", "target/bin", "target/staticlib")
PATIENCE = 600

# The stand-in for rt, called in a crate's folder: everything is proved already, and what is asked for is left in the folder out as it was built.
RT = """#!/bin/sh
[ "$1" = version ] && { echo kit-of-the-tests; exit; }
name=${PWD##*/}
echo "$name: $*" >>"$CALLS"
mkdir -p out
[ "$1" = lib ] && cp ../../built/libkodarfi.a out/ || cp "../../built/$name" out/
"""


@functools.cache
def built_batch():
    """The program of ./batch, built once by make."""
    subprocess.run(["make", "--no-print-directory", "-C", ROOT, "target/bin/batch"], check=True, capture_output=True)
    return ROOT / "target" / "bin" / "batch"


class Checkout(Box):
    """It has crates, none of which is built here, and a gate."""

    def __init__(self, edits=()):
        super().__init__(edits, PARTS, "the checkout", {"target/bin/batch": built_batch()})
        self.prefix = self.folder / "prefix"
        self.write("crates.txt", "")
        self.write(".ci/run", "echo the gate\n")
        self.write("../tools/rt", RT, 0o755)
        for name in PROVED:
            (self.root / "crates" / name).mkdir(parents=True)
        (self.root / "built").mkdir()
        for name in ("staticlib/libkodarfi.a", "bin/register", "bin/convert"):
            shutil.copy2(self.root / "target" / name, self.root / "built")

    def run(self, *command, path="", cwd=None, **options):
        """Status, standard output and standard error; the environment has the system's PATH, and what is asked for."""
        environment = {"PATH": f"{path}{':' if path else ''}/usr/bin:/bin", "LC_ALL": "C", "CALLS": str(self.folder / "calls")} | options.pop("environment", {})
        done = subprocess.run([str(word) for word in command], cwd=cwd or self.folder, env=environment, capture_output=True, text=True, stdin=subprocess.DEVNULL, timeout=PATIENCE, **options)
        return done.returncode, done.stdout, done.stderr

    def make(self, *words, rt=True, **options):
        return self.run("make", "--no-print-directory", "-C", self.root, *words, path=str(self.folder / "tools") if rt else "", **options)

    def install(self, *words):
        return self.make("install", *(words or (f"PREFIX={self.prefix}",)), rt=False)[0] == 0

    def uninstall(self, *words):
        return self.make("uninstall", *(words or (f"PREFIX={self.prefix}",)), rt=False)[0] == 0

    def installed(self, name, *words, **options):
        """The same of an installed script."""
        return self.run(self.prefix / "bin" / name, *words, **options)

    def tree(self, below=None):
        """Every path below a folder, with its kind, mode and contents."""
        below = below or self.prefix
        return {str(path.relative_to(below)): (path.is_symlink(), path.lstat().st_mode, path.read_bytes() if path.is_file() else b"") for path in sorted(below.rglob("*"))}
