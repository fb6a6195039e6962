"""Documents whose commands are run as they stand there, and print what stands below them."""

import subprocess
import tempfile
from pathlib import Path

from common.mutated import open_folder

from package.commands import acted
from package.loaded import ROOT
from package.region import commands_in

OFFICE = ROOT / "examples" / "office"
TOWN = ROOT / "examples" / "town"


def full_lines(text):
    """A page's empty lines are no part of what is compared."""
    return [line for line in text.split("\n") if line]


def prints_what_it_says(package, page):
    """How many commands a page has, where each prints what the page says, one after the other in a folder that has the examples; else 0."""
    reported = commands_in((ROOT / "docs" / page).read_text(encoding="utf-8"))
    with tempfile.TemporaryDirectory(dir=open_folder()) as folder:
        (Path(folder) / "target").mkdir()
        (Path(folder) / "examples").symlink_to(ROOT / "examples")
        settings = {"cwd": folder, "env": package.environment(), "stdout": subprocess.PIPE, "stderr": subprocess.STDOUT, "text": True}
        said = [subprocess.run(["bash", "-c", command], **settings).stdout for command, _ in reported]
    return len(reported) if list(map(full_lines, said)) == [full_lines(lines) for _, lines in reported] else 0


def clerks_page_prints_what_it_says(package):
    return prints_what_it_says(package, "CLERK.md") == 4


def offices_page_prints_what_it_says(package):
    """And its picture is the one that the command draws."""
    file = acted(package, "propose", acted(package, "build", (OFFICE / "field.csv").read_bytes()))
    picture = acted(package, "draw", file, (OFFICE / "names.txt").read_bytes())
    return prints_what_it_says(package, "OFFICE.md") == 18 and (ROOT / "docs" / "office.svg").read_bytes() == picture


def towns_picture_is_the_one_that_is_drawn(package):
    """docs/town.svg."""
    picture = acted(package, "draw", (TOWN / "net.txt").read_bytes(), (TOWN / "names.txt").read_bytes())
    return (ROOT / "docs" / "town.svg").read_bytes() == picture
