"""What a page of Markdown has: headings, links, code in backquotes, and blocks of indented or fenced lines with the commands in them."""

import re

# how a command of this repository begins, after variables that are set for it
COMMAND = re.compile(r"(?:export \w+=\S+ && |\w+=\S* |cd crates/\w+ && )*(?:\./\w+|tests/run|bench/run|tests/link/run|(?:python3|bash|make|cc|c\+\+|rustc|rt|pip|git)(?= |$))")


def slug(heading):
    """The name by which a heading is linked to."""
    kept = re.sub(r"[^\w\- ]", "", re.sub(r"\[([^\]]*)\]\([^)]*\)", r"\1", heading).replace("`", "").lower())
    return kept.strip().replace(" ", "-")


class Shown:
    """A command that a page shows: its text, and the lines below it that it prints, where the page gives them."""

    def __init__(self, page, number, text, printed=None):
        self.page, self.number, self.text, self.printed = page, number, text, printed

    @property
    def where(self):
        return f"{self.page}:{self.number}"


class Page:
    def __init__(self, root, name):
        self.name, self.path = name, root / name
        self.lines = self.path.read_text(encoding="utf-8").removesuffix("\n").split("\n")
        self.kinds = list(self._kinds())

    def _kinds(self):
        """Of each line whether it is of a 'block', a 'table', a 'fence' or 'text'."""
        fenced, before = False, ""
        for line in self.lines:
            if line.lstrip().startswith("```"):
                fenced = not fenced
                before = "fence"
            elif fenced or (line.startswith("    ") and line.strip() and before in ("", "block")):
                before = "block"
            elif line.strip():
                before = "table" if line.startswith("|") else "text"
            elif before != "block":
                before = ""
            yield before if line.strip() or fenced else "empty"

    def numbered(self, *kinds):
        return [(number, line) for number, (line, kind) in enumerate(zip(self.lines, self.kinds), 1) if kind in kinds]

    def headings(self):
        return {slug(line.lstrip("#").strip()) for _, line in self.numbered("text") if re.match(r"#+ ", line)}

    def links(self):
        """(line, target) of every link and picture."""
        for number, line in self.numbered("text", "table"):
            plain = re.sub(r"`[^`]*`", "", line)
            for target in re.findall(r"\]\(([^)\s]+)[^)]*\)", plain) + re.findall(r"^\[[^\]]+\]: (\S+)", plain) + re.findall(r"(?:src|href)=\"([^\"]+)\"", plain):
                yield number, target

    def spans(self):
        """(line, text) of all code in backquotes."""
        for number, line in self.numbered("text", "table"):
            for span in re.findall(r"`([^`]+)`", line):
                yield number, span

    def commands(self):
        """The commands in blocks: after '$ ' with what stands below them, or a line that begins with a command, up to two spaces and a word on it."""
        shown, last = [], None
        for number, (line, kind) in enumerate(zip(self.lines, self.kinds), 1):
            text = line.strip()
            if kind != "block":
                last = last if kind == "empty" else None
            elif last is not None and last.text.endswith("\\"):
                last.text = f"{last.text[:-1]}{text}"
            elif text.startswith("$ "):
                last = Shown(self.name, number, text[2:], [])
                shown.append(last)
            elif last is not None and last.printed is not None:
                last.printed.append(line.removeprefix("    "))
            elif COMMAND.match(text):
                last = Shown(self.name, number, re.split(r" {2,}| +# ", text)[0])
                shown.append(last)
        return shown
