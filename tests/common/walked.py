"""The files of a repository, without what is made: target/, a crate's folder out, and what git and Python keep."""

import os
from pathlib import Path

MADE = {"target", ".git", "__pycache__"}


def made(root, folder, names):
    """The names in a folder that are not the repository's own."""
    parts = Path(folder).relative_to(root).parts
    return [name for name in names if name in MADE or (name == "out" and len(parts) == 2 and parts[0] == "crates")]


def walked(root):
    """Every file and folder under a root, in the order of their paths; what goes meanwhile is passed over."""
    found = []
    for folder, folders, files in os.walk(root):
        folders[:] = sorted(set(folders) - set(made(root, folder, folders)))
        found += [Path(folder) / name for name in [*folders, *files]]
    return sorted(found)
