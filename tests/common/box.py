"""A fresh folder with copies of the project's files and a mutant's edits in it; some tests are those of another user, who can pass through it."""

import shutil
import tempfile
from pathlib import Path

from common.mutated import ROOT, edit, open_folder


class Box:
    """`root` is the folder `inside` the temporary one; `names` are copied from the project, and `files` from elsewhere, by their names here."""

    def __init__(self, edits=(), names=(), inside="", files=()):
        self.outside = tempfile.TemporaryDirectory(dir=open_folder())
        self.folder = Path(self.outside.name)
        self.root = self.folder / inside
        for name, source in [*((name, ROOT / name) for name in names), *dict(files).items()]:
            (self.root / name).parent.mkdir(parents=True, exist_ok=True)
            if source.is_dir():
                shutil.copytree(source, self.root / name, ignore=shutil.ignore_patterns("__pycache__"))
            else:
                shutil.copy2(source, self.root / name)
        edit(self.root, edits)
        # whatever the umask was when the project was cloned, others may read it
        for path in [self.folder, *self.folder.rglob("*")]:
            mode = path.stat().st_mode
            path.chmod(mode | (0o555 if path.is_dir() or mode & 0o100 else 0o444))

    def __enter__(self):
        return self

    def __exit__(self, *_):
        for path in self.folder.rglob("*"):
            if path.is_dir() and not path.is_symlink():
                path.chmod(0o755)
        self.outside.cleanup()

    def write(self, name, text, mode=0o644):
        path = self.root / name
        path.parent.mkdir(parents=True, exist_ok=True)
        path.write_bytes(text if isinstance(text, bytes) else text.encode())
        path.chmod(mode)
        return path
