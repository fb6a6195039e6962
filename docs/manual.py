"""The manual pages, docs/register.1, convert.1 and batch.1, made from what each script says with --help.

  python3 docs/manual.py --write   writes all three
  python3 docs/manual.py NAME      prints one

The gate compares them (tests/install/run.py)."""

import re
import subprocess
import sys
from pathlib import Path

from refusals import hand_out

ROOT = Path(__file__).resolve().parent.parent
# What each does, in one line.
PAGES = {
    "register": "judge a proposal for a levelling net",
    "convert": "write a net's file anew for offices on the old edition",
    "batch": "judge every file of a folder",
}
OPTION = re.compile(r"  (-\S.*?)(?:  +(.*))?$")
STATUS = re.compile(r"  (\d+)  +(.*)$")


def escaped(text):
    """Text for roff: a line that begins with a dot or a quote begins with nothing, and a dash is one that can be typed."""
    text = text.replace("\\", "\\e").replace("-", "\\-")
    return "\\&" + text if text.startswith((".", "'")) else text


def items(lines, pattern):
    """Tagged paragraphs: a line that the pattern fits begins one, and the lines after it go on."""
    out = []
    for line in lines:
        begun = pattern.fullmatch(line)
        if begun:
            out += [".TP", f".B {escaped(begun[1])}"] + ([escaped(begun[2])] if begun[2] else [])
        else:
            out.append(escaped(line.strip()))
    return out


def block(lines):
    """A block of the help between empty lines: options, statuses, lines as they are, or a paragraph."""
    if lines[0] == "Exit status:":
        return [".SH EXIT STATUS", *items(lines[1:], STATUS)]
    if OPTION.fullmatch(lines[0]):
        return [".SH OPTIONS", *items(lines, OPTION)]
    if lines[0].startswith("    "):
        return [".PP", ".nf", *map(escaped, lines), ".fi"]
    return [".PP", *map(escaped, lines)]


def page(name, text):
    version = (ROOT / "VERSION").read_text().strip()
    usage, *blocks = [part.split("\n") for part in text.strip("\n").split("\n\n")]
    lines = [f'.TH {name.upper()} 1 "" "Kodarfi {version}" "Kodarfi\'s checker"', ".SH NAME", f"{name} \\- {PAGES[name]}", ".SH SYNOPSIS", ".nf"]
    lines += [escaped(re.sub(r"^(usage:)? +", "", line)) for line in usage] + [".fi", ".SH DESCRIPTION"]
    seen = False
    for part in map(block, blocks):
        headed = part[0].startswith(".SH ")
        if seen and not headed:
            lines.append(".SH NOTES")
        lines += part
        seen = headed
    return "\n".join(lines) + "\n"


def manual(name):
    done = subprocess.run([str(ROOT / name), "--help"], capture_output=True, text=True, check=True)
    return page(name, done.stdout)


def main(words):
    try:
        if words[:1] in (["-h"], ["--help"]):
            hand_out(f"{__doc__}\n")
        elif words == ["--write"]:
            for name in PAGES:
                (ROOT / "docs" / f"{name}.1").write_text(manual(name))
        elif len(words) == 1 and words[0] in PAGES:
            hand_out(manual(words[0]))
        else:
            raise ValueError("usage: manual.py --write, or manual.py register | convert | batch")
    except (OSError, ValueError, subprocess.SubprocessError) as error:
        print(f"manual.py: {error}", file=sys.stderr)
        return 2
    return 0


if __name__ == "__main__":
    sys.exit(main(sys.argv[1:]))
