"""Each name that a document or a head comment cites exists, and what the crates define has one name.

  python3 tests/names/run.py               the last line is 'N passed, M failed'
  python3 tests/names/run.py --self-test   made-up documents, right ones and the mutants of self_test.py

Read are README.md, tests/README.md, docs/*.md, include/*.h, and the head comments of crates: the lines of comment before the first other line of each file
of specs/, proofs/ and src/. docs/landings, docs/PORT.md, docs/DESIGN-PASS.md, docs/LOOK-BACK.md and CHANGELOG.md describe the past and are not read. What counts as a citation:

1. A file or a folder: a word with a slash that begins with a folder of the repository, or with a crate and specs, proofs, src or must-fail, anywhere; in
   backquotes also a word that ends like a file of the sources (.antt, .rt, .py, .edit, .awk, .tsv). There must be one whose path ends so; .antt may be left
   out. In a head comment the crate may be left out, and is its own.
2. `crate::item`, anywhere: the crate declares it in src/, and `Type::method`, in backquotes: some crate has an impl of the type with it. Of a longer path
   the first and the last count.
3. A name in backquotes, or several with commas or "and" between them, followed by "in", "of" or a bracket and a file of the crates by rule 1: the file
   declares each of them; after a bracket in a head comment, where the file may be that of its laws, it has each of them.
4. `File.Name`, in backquotes, where File is a file of promises/specs, and `Name` followed by "of File": Name is declared there. And docs/PROMISES.md names
   every statement of promises/specs, a theorem of the file of the same name in proofs/ has it as its type, or refutes it (False), and no line of the
   document is above 200 characters.
5. A word in backquotes that has the form of a definition or a theorem, lower-case words with underscores or hyphens between them or letters with a capital
   inside: it stands in some source of the repository outside the documents, and in crates outside comments.
6. Of the crates themselves (once.py): no two files of specs/ and proofs/ define one name at top level, but for the shapes X_none, X_next and X_end; no two
   definitions are equal, and no two laws state the same, up to their names and those of their variables. In the folders of functions what speaks of the function
   itself does not count. crates.txt lists for each crate the crates that its own files name, and no other; and no line of a proof has six `.before` or more.

Words for anything (CRATE, FILE, NAME, PREFIX), stars and what is made by a run (target/) are no citations."""

import re
import sys
from pathlib import Path

sys.path.insert(0, str(Path(__file__).resolve().parent.parent))

import once
from common.made_up import run
from common.mutated import close, main
from common.walked import walked

FOLDERS = "crates|docs|tests|examples|include|scripts|python|bench|programs|\\.ci"
PATH = re.compile(rf"(?<![\w/.*-])((?:{FOLDERS})/[\w./-]*\w|[a-z_]+/(?:specs|proofs|src|must-fail)(?:/[\w./-]*\w)?)")
LOCAL = re.compile(r"(?<![\w/.*-])((?:specs|proofs|src)/[\w./-]*\w)")
SUFFIX = re.compile(r"[\w/-]+\.(?:antt|rt|py|edit|awk|tsv)")
ITEM = re.compile(r"(?<![\w:])((?:\w+::)+\w+)")
ANYTHING = re.compile(r"(?:^|/)(?:CRATE|FILE|NAME|PREFIX)\b")
NAMES = re.compile(r"((?:`[^`\s]+`(?:, | and )?)+) (in |of |\()`?((?:[a-z_]+/)?(?:specs|proofs|src)/[\w./-]*\w)")
OF_FILE = re.compile(r"((?:`\w+`(?:, | and )?)+) of (\w+)\b(?!/)")
FORM = re.compile(r"[a-z][a-z0-9]*(?:-(?:[a-z][a-z0-9]*|[0-9]+))+|[a-z]\w*_\w+'*|[a-z]+[A-Z]\w*|[A-Z][a-z]+[A-Z]\w*")
SOURCES = {".antt", ".rt", ".py", ".c", ".h", ".cpp", ".rs", ".sh", ".awk", ""}
MODIFIERS = "(?:pub|abbrev|unfoldable|irreducible|data|record|def|class)"


def code_of(path):
    """A source without its comments."""
    text = path.read_text(errors="replace")
    if path.suffix == ".antt":
        return re.sub(r"--[^\n]*", "", text)
    return re.sub(r"//[^\n]*", "", text) if path.suffix == ".rt" else text


def words_of(code):
    return set(re.split(r"[\s(){}\[\].,;:«»⌜⌝\"'`=<>|/]+", code)) | set(re.findall(r"\w+", code))


def head_of(text):
    """The comment at the head of a file."""
    lines = []
    for line in text.split("\n"):
        if not re.match(r"--|//", line):
            break
        lines.append(re.sub(r"^(--|//) *", "", line))
    return " ".join(lines)


def declares(path, name):
    """Whether a file declares a name: of the proofs' language at the beginning of a line, or on an indented line before its colon; of the code's after its
    keyword, or as a case of an enum; of any other at the beginning of a line."""
    code, plain = code_of(path), re.escape(name)
    if path.suffix == ".rt":
        return bool(re.search(rf"(?m)\b(?:fn|struct|enum|const|mod) {plain}\b" + (rf"|^    {plain}\b(?:,|\(| \{{)" if name[0].isupper() else ""), code))
    if re.search(rf"(?m)^ +(?:{MODIFIERS} )*(?:[\w'-]+ )*{plain} (?:[\w'-]+ )*:", code):
        return True
    return bool(re.search(rf"(?m)^(?:{MODIFIERS} )*{plain}(?![\w'-])", code))


class Repository:
    """The files under a root that are there to be cited, and what is cited."""

    def __init__(self, root):
        self.root = root
        self.paths = {path.relative_to(root).as_posix(): path for path in walked(root)}
        self.crates = {name.split("/")[1] for name in self.paths if re.fullmatch(r"crates/\w+", name)}
        self.words, self.passed = set(), 0
        for name, path in self.paths.items():
            if path.is_file() and path.suffix in SOURCES and not name.startswith("docs/"):
                self.words |= words_of(code_of(path))

    def found(self, cited):
        """The files and folders that a cited path can mean."""
        ends = {cited, cited + ".antt"}
        return [path for name, path in self.paths.items() if any(name == end or name.endswith("/" + end) for end in ends)]

    def texts(self):
        """(where, text, file) of all that is read: documents line by line, and head comments."""
        for name, path in self.paths.items():
            if re.fullmatch(r"README\.md|tests/README\.md|docs/(?!(?:PORT|DESIGN-PASS|LOOK-BACK)\.md)[^/]+\.md|include/[^/]+\.h", name):
                for number, line in enumerate(path.read_text().split("\n"), 1):
                    yield f"{name}:{number}", line, name
            elif re.match(r"crates/\w+/(?:specs|proofs|src)/", name) and path.suffix in (".antt", ".rt"):
                yield name, head_of(path.read_text()), name

    def faults(self):
        for where, text, name in self.texts():
            own = "/".join(name.split("/")[:2]) if name.startswith("crates/") else None
            checks = (self.paths_in(text, own), self.items_in(text), self.names_in(text, own), self.statements_in(text), self.words_in(text))
            yield from (f"{where}: {fault}" for check in checks for fault in check if fault)
        yield from self.promises()
        yield from once.faults(self.root)

    def judged(self, good, fault):
        self.passed += bool(good)
        return None if good else fault

    def paths_in(self, text, own):
        for cited in dict.fromkeys(LOCAL.findall(text) if own else []):
            yield self.judged(self.found(f"{own}/{cited}"), f"there is no {own}/{cited}")
        quoted = [word for word in re.findall(r"`([^`\s]+)`", text) if SUFFIX.fullmatch(word) and not word.startswith(("target/", "specs/", "proofs/", "src/"))]
        for cited in [word for word in dict.fromkeys(PATH.findall(text) + quoted) if not ANYTHING.search(word)]:
            yield self.judged(self.found(cited.rstrip("./")), f"there is no {cited}")

    def items_in(self, text):
        quoted = set(ITEM.findall(" ".join(re.findall(r"`([^`]+)`", text))))
        for cited in dict.fromkeys(ITEM.findall(text)):
            first, last = cited.split("::")[0], cited.split("::")[-1]
            if first in self.crates:
                yield self.judged(any(declares(path, last) for path in self.sources(first)), f"crates/{first}/src declares no {last} ({cited})")
            elif cited in quoted and first[0].isupper():
                having = [path for path in self.sources(None) if re.search(rf"(?m)^(?:impl|enum|pub enum)\b.*\b{first}\b", code_of(path))]
                yield self.judged(any(declares(path, last) for path in having), f"no crate has an impl of {first} with {last} ({cited})")
            elif cited in quoted:
                yield self.judged(first in ("std", "core"), f"there is no crate {first} ({cited})")

    def sources(self, crate):
        return [path for name, path in self.paths.items() if re.fullmatch(rf"crates/{crate or '[a-z_]+'}/src/\w+\.rt", name)]

    def names_in(self, text, own):
        for names, joined, cited in NAMES.findall(text):
            files = [path for path in self.found(f"{own}/{cited}" if own and LOCAL.match(cited) else cited) if path.is_file()]
            has = declares if not own or joined != "(" else (lambda path, name: name in words_of(code_of(path)))
            for name in re.findall(r"`([^`]+)`", names):
                if files and re.fullmatch(r"[\w'-]+", name):
                    yield self.judged(any(has(path, name) for path in files), f"{cited} declares no {name}")

    def statements_in(self, text):
        pairs = re.findall(r"`(\w+)\.(\w+)`", text) + [(file, name) for names, file in OF_FILE.findall(text) for name in re.findall(r"`(\w+)`", names)]
        for file, name in dict.fromkeys(pairs):
            path = self.paths.get(f"crates/promises/specs/{file}.antt")
            if path and name != "antt":
                yield self.judged(declares(path, name), f"promises/specs/{file}.antt states no {name}")

    def words_in(self, text):
        for word in dict.fromkeys(re.findall(r"`([^`\s]+)`", text)):
            if FORM.fullmatch(word):
                yield self.judged(word in self.words, f"no source has {word}")

    def promises(self):
        """Every statement has its row and its theorem."""
        table = self.paths["docs/PROMISES.md"].read_text() if "docs/PROMISES.md" in self.paths else ""
        for number, line in enumerate(table.split("\n"), 1):
            if len(line) > 200:
                yield f"docs/PROMISES.md:{number}: the line has {len(line)} characters"
        for path in [path for name, path in self.paths.items() if re.fullmatch(r"crates/promises/specs/\w+\.antt", name)]:
            for name in re.findall(r"(?m)^abbrev pub (\w+) : Type 0$", path.read_text()):
                proofs = self.paths.get(f"crates/promises/proofs/{path.stem}.antt")
                end = r"$" if path.stem != "False" else r" → ⊥$"
                theorem = proofs and re.search(rf"(?m)^pub [\w-]+ : (?:\w+\.)?{name}{end}", proofs.read_text())
                for fault in (
                    self.judged(f"`{path.stem}.{name}`" in table, f"docs/PROMISES.md: it has no {path.stem}.{name}"),
                    self.judged(theorem, f"promises/proofs/{path.stem}.antt: it has no theorem of {name}"),
                ):
                    if fault:
                        yield fault


def check(root):
    repository = Repository(root)
    faults = list(dict.fromkeys(repository.faults()))
    faults += [] if repository.passed else ["nothing is cited"]
    return close(repository.passed + len(faults), faults)


if __name__ == "__main__":
    main(lambda: run(check))
