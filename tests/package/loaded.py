"""The package as the tests use it: imported from its folder, or from a copy with some text changed."""

import importlib
import os
import shutil
import subprocess
import sys
from pathlib import Path

from common.mutated import ROOT, edit

SOURCES = ROOT / "python"
SHARED = ROOT / "target" / "lib" / "libkodarfi.so"


class Package:
    """A folder with the package in it, the imported package, and its command."""

    def __init__(self, folder):
        self.folder = Path(folder)
        for name in [name for name in sys.modules if name.split(".")[0] == "kodarfi"]:
            del sys.modules[name]
        importlib.invalidate_caches()
        sys.path.insert(0, str(folder))
        try:
            self.calls = importlib.import_module("kodarfi")
        finally:
            sys.path.pop(0)

    def environment(self, **more):
        kept = {name: value for name, value in os.environ.items() if name not in ("KODARFI_LIBRARY", "PYTHONPATH")}
        return {**kept, "PYTHONPATH": str(self.folder), "KODARFI_LIBRARY": str(SHARED), "LC_ALL": "C", "PYTHONDONTWRITEBYTECODE": "1", **more}

    def python(self, *words, **options):
        """Status, standard output, standard error of python3 with these words."""
        settings = {"input": b"", "capture_output": True, "env": self.environment(), "timeout": 300, **options}
        if "stdin" in settings:
            del settings["input"]
        ended = subprocess.run([sys.executable, *map(str, words)], **settings)
        return ended.returncode, ended.stdout, ended.stderr

    def shell(self, line, **more):
        """The same of a line for bash."""
        ended = subprocess.run(["bash", "-c", line], capture_output=True, env=self.environment(**more), cwd=ROOT, timeout=300)
        return ended.returncode, ended.stdout, ended.stderr


def copied(folder, edits=()):
    """The package's sources in another folder, with the edits of mutated.py."""
    to = Path(folder) / "python"
    shutil.rmtree(to, ignore_errors=True)
    shutil.copytree(SOURCES, to, ignore=shutil.ignore_patterns("__pycache__", "build", "*.egg-info"))
    edit(to / "kodarfi", edits)
    return to
