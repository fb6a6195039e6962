"""The headers beside the documents: versions, ranges, and the numbers in words."""

import re
import subprocess
import sys

from common.mutated import ROOT
from header.read import INCLUDE, constants, prototypes


def text_results():
    """What can be read off the header alone."""
    version = (ROOT / "VERSION").read_text()
    yield "the version is three numbers", re.fullmatch(r"\d+\.\d+\.\d+\n", version)
    yield "the header has the version", f'#define KODARFI_VERSION "{version.strip()}"\n' in (INCLUDE / "kodarfi.h").read_text()
    yield "the newest version of CHANGELOG.md", re.search(r"(?m)^## (\S+)$", (ROOT / "CHANGELOG.md").read_text())[1] == version.strip()
    header = (INCLUDE / "kodarfi.h").read_text()
    yield "every call's parameters are read", len(list(prototypes())) == len(re.findall(r"(?m)^\w+ kodarfi_\w+\(", header)) > 0
    made = subprocess.run([sys.executable, str(ROOT / "docs" / "refusals.py"), "--c"], capture_output=True, text=True, timeout=600)
    yield "kodarfi_text.h is made from docs/refusals.tsv", made.returncode == 0 and made.stdout == (INCLUDE / "kodarfi_text.h").read_text()
    numbers = {int(line.split("\t")[0]) for line in (ROOT / "docs" / "refusals.tsv").read_text().splitlines()[1:]}
    named = {int(number) for number in re.findall(r"^#define KODARFI_[A-Z_]+ (\d+)(?=\n| +/\*)", header[header.index("/* What an answer says") :], re.M)}
    yield "the table has a row for every number of the header", numbers == named
    yield "the listing's length is its buffer's", re.findall(r"uint8_t listing\[(\d+)\]", header) == [str(constants()["KODARFI_LISTING_LENGTH"])]
    tables = [ROOT / "crates" / name for name in ("rules/src/lib.rt",)]
    ranges = set(re.findall(r"highest: (\d+)", tables[0].read_text()))
    kinds = [name for name in constants() if name.endswith("_MAX") and name not in ("KODARFI_STACK_MAX", "KODARFI_OBSERVATIONS_MAX", "KODARFI_BOUND_MAX")]
    yield "the ranges are those of the table", {str(constants()[name]) for name in kinds} == ranges
    words = next(line.split("\t")[2] for line in (ROOT / "docs" / "refusals.tsv").read_text().splitlines() if line.startswith("3\t"))
    ends = {name: constants()[name] for name in [*kinds, "KODARFI_OBSERVATIONS_MAX"]}
    reported = set(re.findall(r"[\d,^]*\d", words))
    yield "the words of 3 tell every range", all({f"{end:,}", f"2^{end.bit_length() - 1}"} & reported for end in ends.values())
