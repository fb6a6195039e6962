"""What documents say of files, commands and options is so; their lines are short; the commands that they show run.

  python3 tests/documents/run.py               after `make` and `make lib`; the last line is 'N passed, M failed'
  python3 tests/documents/run.py --self-test   made-up documents, right ones and the mutants of self_test.py; needs nothing built

Read are README.md, CONTRIBUTING.md, docs/*.md, tests/README.md and bench/README.md; docs/landings, docs/PORT.md, docs/DESIGN-PASS.md, docs/LOOK-BACK.md and CHANGELOG.md describe the past: of
CHANGELOG.md only the lengths of lines are read.

1. Links lead to files of the repository, and what follows '#' is a heading there. No link leaves the repository.
2. Every page is reached from README.md, by links and names of pages, in one step or two.
3. A file that is named exists: in backquotes by its ending, a page (X.md) anywhere. tests/names reads paths, definitions and items of the other pages; those of
   CONTRIBUTING.md and bench/README.md are read here by the same rules. `./X` in backquotes is a script of the repository.
4. `FILE:N` in backquotes is a line of that file; where a page says of a file that it has N lines, it has.
5. An option in backquotes or in a block is one of the command that it follows, or of some script where it stands alone. What follows `rt` is a command of the
   kit, by its help or its page; what follows `make` a target of Makefile, what follows `tests/run` a part of the registry.
6. A command in a block of indented or fenced lines runs, and prints what stands below it where it follows '$ '. Its status is 0, or 1 where it names a file of
   examples/refused. Words for any file have an example. commands.py lists what is not run, what runs in a shorter form, and what another part of the gate runs.
7. No line is above 200 characters, but in tables and in what a command prints ('$ '). README.md has at most 150 lines of at most 120 characters, CONTRIBUTING.md
   at most 200 lines.
8. Every term of docs/GLOSSARY.md is used in another page."""

import importlib.util
import re
import subprocess
import sys
from functools import cached_property
from pathlib import Path

HERE = Path(__file__).resolve().parent
NAMES = HERE.parent / "names"
sys.path[:0] = [str(HERE.parent), str(HERE)]
sys.path.append(str(NAMES))  # after this folder: both have a run.py and a self_test.py

from commands import Folder, fault_of
from common.made_up import run
from common.mutated import close, main
from pages import Page

spec = importlib.util.spec_from_file_location("names_run", NAMES / "run.py")
names = importlib.util.module_from_spec(spec)
spec.loader.exec_module(names)

READ = r"README\.md|CONTRIBUTING\.md|docs/(?!(?:PORT|DESIGN-PASS|LOOK-BACK)\.md)[^/]+\.md|tests/README\.md|bench/README\.md"
LENGTHS = {"README.md": (150, 120), "CONTRIBUTING.md": (200, 200)}
FILE = re.compile(r"[\w./-]+\.(?:md|svg|txt|csv|h|c|cpp|rs|1|sh|toml)")
PAGE = re.compile(r"(?<![\w/.-])[A-Z][A-Z-]*\.md\b")
OPTION = re.compile(r"(?<![\w-])--[a-z][a-z-]*")
FOREIGN = {"--filter-hosts"}  # options of other programs that stand alone: GNU parallel's
# whose options a command's are: how it begins, and the files that know them; none for tools that are not the repository's
TOOLS = (
    (r"\./(?:register|convert)\b", ["register", "convert", "scripts/command_line.sh"]),
    (r"\./batch\b", ["batch", "programs/batch/*.c"]),
    (r"python3 -m kodarfi\b", ["python/kodarfi/*.py"]),
    (r"(?:tests|bench|tests/link)/run\b", ["tests/run", "bench/run", "tests/link/run"]),
    (r"(?:make|cc|c\+\+|rustc|pip|git|man|gcc|python3 -m (?!kodarfi))(?: |$)", None),
)


class Cited(names.Repository):
    """What the pages cite that tests/names does not read."""

    def texts(self):
        for name in ("CONTRIBUTING.md", "bench/README.md"):
            for number, line in enumerate(self.paths[name].read_text().split("\n") if name in self.paths else (), 1):
                yield f"{name}:{number}", line, name

    def promises(self):
        return ()


class Documents:
    def __init__(self, root):
        self.root, self.passed = root, 0
        self.cited = Cited(root)
        self.pages = {name: Page(root, name) for name in self.cited.paths if re.fullmatch(READ, name)}

    def judged(self, good, fault):
        self.passed += bool(good)
        return None if good else fault

    def faults(self):
        for page in self.pages.values():
            for check in (self.links, self.files, self.counts, self.options, self.words, self.lengths):
                yield from (f"{page.name}{fault}" for fault in check(page) if fault)
        past = [Page(self.root, name) for name in self.cited.paths if name == "CHANGELOG.md"]
        yield from (f"{page.name}{fault}" for page in past for fault in self.lengths(page) if fault)
        yield from (fault for check in (self.reached, self.names, self.commands, self.glossary) for fault in check() if fault)

    def links(self, page):
        for number, target in page.links():
            name, _, heading = target.partition("#")
            path = (page.path.parent / name).resolve() if name else page.path
            inside = path.is_relative_to(self.root.resolve()) and not re.match(r"\w+:", target)
            yield self.judged(inside and path.exists(), f":{number}: there is no {target} to link to")
            if heading and path.suffix == ".md" and path.is_file():
                other = Page(self.root.resolve(), path.relative_to(self.root.resolve()).as_posix())
                yield self.judged(heading in other.headings(), f":{number}: {name or page.name} has no heading #{heading}")

    def files(self, page):
        for number, line in page.numbered("text", "table"):
            for name in dict.fromkeys(PAGE.findall(line)):
                yield self.judged(self.cited.found(name), f":{number}: there is no {name}")
        for number, span in page.spans():
            if span.startswith("./") and " " not in span:
                yield self.judged((self.root / span).exists(), f":{number}: there is no {span}")
            elif FILE.fullmatch(span) and not re.match(r"target/|\.|/", span) and not names.ANYTHING.search(span):
                yield self.judged(self.cited.found(span), f":{number}: there is no {span}")

    def counts(self, page):
        for number, line in page.numbered("text", "table"):
            cited = [(file, int(at), False) for file, at in re.findall(r"`([\w./-]+\.\w+):(\d+)`", line)]
            cited += [(file, int(count), True) for file, count in re.findall(r"`([\w./-]+)` ?(?:\(|, |has )(\d+) lines", line)]
            cited += [(file, int(count), True) for count, file in re.findall(r"(\d+) lines of `([\w./-]+)`", line)]
            for file, count, exact in cited:
                found = [path for path in self.cited.found(file) if path.is_file()]
                lengths = [len(path.read_text(errors="replace").splitlines()) for path in found]
                good = any(length == count if exact else 1 <= count <= length for length in lengths)
                yield self.judged(good, f":{number}: {file} has {lengths or 'no'} lines, and not {count}")

    @cached_property
    def sources(self):
        """Every option that some script or program of the repository knows."""
        return set(OPTION.findall("\n".join(self.text(name) for name, path in self.cited.paths.items() if path.suffix in names.SOURCES and not name.startswith(("docs/", "crates/")))))

    def text(self, name):
        return self.cited.paths[name].read_text(errors="replace") if self.cited.paths[name].is_file() else ""

    @cached_property
    def kit_help(self):
        try:
            said = subprocess.run(["rt", "help"], stdout=subprocess.PIPE, stderr=subprocess.STDOUT, text=True, timeout=60).stdout
            page = Path(subprocess.run(["rt", "doc"], capture_output=True, text=True, timeout=60).stdout.strip())
        except OSError:
            return ""
        return said + (page.read_text(encoding="utf-8") if page.is_file() else "")

    @property
    def kit(self):
        return set(OPTION.findall(self.kit_help))

    def known(self, command):
        """The options of a command; None where they are not the repository's to know."""
        plain = re.sub(r"^(?:\$ |export |\w+=\S* |&& )*", "", command.strip())
        script = re.match(r"python3 ([\w./-]+)/[\w-]+\.py\b", plain)
        if script:
            return set(OPTION.findall("\n".join(self.text(name) for name in self.cited.paths if name.startswith(script[1] + "/") and name.endswith(".py"))))
        if re.match(r"rt ", plain):
            return self.kit
        for begins, files in TOOLS:
            if re.match(begins, plain):
                return files and set(OPTION.findall("\n".join(path.read_text(errors="replace") for name in files for path in self.root.glob(name) if path.is_file())))
        return self.sources | self.kit | FOREIGN

    def options(self, page):
        for number, text in [*page.spans(), *page.numbered("block")]:
            for command in re.split(r"\$\(|\||&&", re.split(r"(?<=\S) {3,}", text)[0]):
                known = None if "pkg-config" in command else self.known(command)
                for option in dict.fromkeys(OPTION.findall(command)) if known is not None else ():
                    yield self.judged(option in known, f":{number}: there is no option {option} ({command.strip()[:60]})")

    def words(self, page):
        """The word after rt, make or tests/run."""
        knows = {"rt": (r"(?m)^(?:usage:)? *rt (?:[a-z-]+\|)*{}(?![\w-])", self.kit_help), "make": (r"(?m)^{}:|\.PHONY:.* {}\b", self.file("Makefile")), "tests/run": (r"(?m)^{} \| ", self.file("tests/registry"))}
        for number, text in [*page.spans(), *page.numbered("block")]:
            for command in re.split(r"\||&&", re.split(r"(?<=\S) {3,}", text)[0].removeprefix("$ ")):
                tool, *after = re.sub(r"^ *(?:\w+=\S* )*", "", command).split() or [""]
                after = after if tool == "tests/run" else after[:1]
                for word in [word for word in after if re.fullmatch(r"[a-z][a-z-]*", word)] if tool in knows else ():
                    form, known = knows[tool]
                    yield self.judged(re.search(form.replace("{}", re.escape(word)), known), f":{number}: {tool} knows no {word}")

    def file(self, name):
        return self.text(name) if name in self.cited.paths else ""

    def lengths(self, page):
        most, longest = LENGTHS.get(page.name, (None, 200))
        if most:
            yield self.judged(len(page.lines) <= most, f": {len(page.lines)} lines, and at most {most}")
        printed = {shown.number + k for shown in page.commands() if shown.printed is not None for k in range(len(shown.printed) + 1)}
        for number, line in enumerate(page.lines, 1):
            free = page.name != "README.md" and (page.kinds[number - 1] == "table" or number in printed)
            yield self.judged(free or len(line) <= longest, f":{number}: the line has {len(line)} characters")

    def names(self):
        faults = list(dict.fromkeys(fault for fault in self.cited.faults()))
        self.passed += self.cited.passed
        return [fault for fault in faults if re.match(r"CONTRIBUTING\.md|bench/", fault)]

    def reached(self):
        """Pages by steps from README.md."""
        near = {"README.md"} & set(self.pages)
        for _ in range(2):
            for name in sorted(near):
                page = self.pages[name]
                linked = {(page.path.parent / target.split("#")[0]).resolve() for _, target in page.links() if not target.startswith("#")}
                near = near | {other for other in self.pages if other in page.path.read_text() or self.pages[other].path.resolve() in linked}
        for name in self.pages:
            yield self.judged(name in near, f"{name}: no way leads to it from README.md in two steps")

    def commands(self):
        for page in self.pages.values():
            with Folder(self.root) as folder:
                for shown in page.commands():
                    fault = fault_of(self.root, folder, shown)
                    yield self.judged(not fault, f"{shown.where}: {fault}")

    def glossary(self):
        page = self.pages.get("docs/GLOSSARY.md")
        yield self.judged(page, "there is no docs/GLOSSARY.md")
        others = "\n".join("\n".join(other.lines) for other in self.pages.values() if other is not page)
        terms = [line.split("|")[1].strip(' *"`') for _, line in page.numbered("table")[2:]] if page else []
        for term in terms:
            yield self.judged(re.search(rf"(?i)\b{re.escape(term)}(?:s|es)?\b", others), f"docs/GLOSSARY.md: no other page uses '{term}'")


def check(root):
    documents = Documents(root)
    faults = list(dict.fromkeys(documents.faults()))
    faults += [] if documents.passed else ["there is no document"]
    return close(documents.passed + len(faults), faults)


if __name__ == "__main__":
    main(lambda: run(check))
