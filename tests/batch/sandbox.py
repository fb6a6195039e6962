"""The program of ./batch, built from the sources with some text changed, and a folder to run it in."""

import os
import shutil
import signal
import subprocess
from pathlib import Path

from common.box import Box
from common.mutated import ROOT, NoText, edit

SOURCES = ROOT / "programs" / "batch"
ARCHIVE = ROOT / "target" / "staticlib" / "libkodarfi.a"
REGISTER = ROOT / "target" / "bin" / "register"


def compile_program(folder, edits=()):
    """Builds the program in a folder; `edits` are those of mutated.py."""
    sources = Path(folder) / "sources"
    shutil.rmtree(sources, ignore_errors=True)
    shutil.copytree(SOURCES, sources)
    edit(sources, edits)
    program = Path(folder) / "batch"
    command = ["cc", "-std=c11", "-O1", "-w", f"-I{ROOT / 'include'}", *sorted(sources.glob("*.c")), ARCHIVE, "-o", program]
    if subprocess.run(command, check=False).returncode:
        raise NoText(f"the program does not compile with the edits {edits}")
    return program


class Sandbox(Box):
    """A fresh folder with nets to write and a program to run."""

    def __init__(self, program):
        super().__init__()
        self.program = program

    def standing_in(self, *calls):
        """A library that stands before that of C, with these calls in place of its own."""
        self.write("calls.c", "#define _GNU_SOURCE\n" + "".join(f"#include <{head}.h>\n" for head in ("errno", "fcntl", "signal", "string", "sys/syscall", "unistd")) + "".join(calls))
        subprocess.run(["cc", "-shared", "-fPIC", "-w", self.root / "calls.c", "-o", self.root / "calls.so"], check=True)
        return self.root / "calls.so"

    def start(self, *words, path=None, library=None, **options):
        settings = {"stdin": subprocess.DEVNULL, "stdout": subprocess.PIPE, "stderr": subprocess.PIPE, "cwd": self.root} | options
        environment = os.environ | {"KODARFI_BATCH": str(self.program), "KODARFI_REGISTER": str(ROOT / "register"), "KODARFI_AS_BUILT": "silent", "LC_ALL": "C"}
        if path:
            environment["PATH"] = f"{path}:{os.environ['PATH']}"
        if library:
            environment["LD_PRELOAD"] = str(library)
        before = settings.pop("before", lambda: None)

        def prepare():
            signal.signal(signal.SIGPIPE, signal.SIG_DFL)
            before()

        return subprocess.Popen([self.program, *map(str, words)], env=environment, preexec_fn=prepare, start_new_session=True, **settings)

    def run(self, *words, **options):
        """Status, lines of standard output, standard error."""
        process = self.start(*words, **options)
        out, err = process.communicate(timeout=600)
        return process.returncode, (out or b"").decode(errors="replace").splitlines(), (err or b"").decode(errors="replace")

    def files(self, folder="listings"):
        """Every file under a folder, by its name there."""
        root = self.root / folder
        return {str(path.relative_to(root)): path.read_bytes() for path in root.rglob("*") if path.is_file() and not path.is_symlink()}
