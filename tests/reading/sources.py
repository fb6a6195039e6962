"""The sources as a reader meets them: files of specs/ with what they import, the structs and enums that specs take from the code, the contracts of calls."""

import re
from pathlib import Path

USE = re.compile(r"(?m)^(?:ghost )?use ([^\s;{]+?)(?:\.\{([^}]*)\})?(?: as (\S+?))?;?$")
OWN = re.compile(r"Rattle\.(?!std\.)(\w+)\.specs\.(.+)")
DECLARED = r"(?m)((?:^//[^\n]*\n)*)(?:^#\[[^\n]*\]\n)*^(?:pub )?(?:enum|struct) {}\b[^{{;]*\{{[^}}]*^\}}\n"
ENSURES = re.compile(r"\bensures (?:(\w+) )?\{")


class Fault(Exception):
    """What keeps a list from being made, in a sentence."""


def uses(text):
    """What a file imports, a triple each: the module, the names in braces after it, and the word that stands for it, or ''."""
    return [(module, [name.split(" as ")[0].strip() for name in names.split(",") if name.strip()], alias) for module, names, alias in USE.findall(text)]


def clauses(signature):
    """What a signature ensures, each clause on one line, behind its name where it has one."""
    found = []
    for opened in ENSURES.finditer(signature):
        depth, at = 1, opened.end()
        while depth:
            depth += {"{": 1, "}": -1}.get(signature[at], 0)
            at += 1
        found.append((f"{opened[1]}: " if opened[1] else "") + " ".join(signature[opened.end() : at - 1].split()))
    return found


class Sources:
    """The crates under a root. A unit of reading is (crate, file of specs) or (crate, 'declared', struct or enum of src)."""

    def __init__(self, root):
        self.root = Path(root)
        self.crates = self.root / "crates"
        self.calls = (self.root / "docs" / "API.md").read_text()

    def unit_of(self, module):
        """The unit that a module is part of; None for a module of the library."""
        own = OWN.fullmatch(module)
        if not own:
            return None
        crate, path = own.group(1), own.group(2).split(".")
        return (crate, "declared", path[1]) if path[0] == "declared" else (crate, path[0])

    def path_of(self, unit):
        """Its file, from crates/."""
        return f"{unit[0]}/specs/{unit[1]}.antt" if len(unit) == 2 else self.declared(unit)[0]

    def text_of(self, unit):
        if len(unit) == 3:
            return self.declared(unit)[1]
        path = self.crates / self.path_of(unit)
        if not path.is_file():
            raise Fault(f"crates/{self.path_of(unit)} is imported and is not there")
        return path.read_text()

    def lines_of(self, unit):
        return self.text_of(unit).count("\n")

    def declared(self, unit):
        """A struct or an enum of src/: its file, and its text with the comment above it."""
        for path in sorted((self.crates / unit[0] / "src").glob("*.rt")):
            found = re.search(DECLARED.format(unit[2]), path.read_text())
            if found:
                return f"{unit[0]}/src/{path.name}", found.group(0)
        raise Fault(f"crates/{unit[0]}/src declares no {unit[2]}, which specs import")

    def imported(self, unit):
        """The units that a unit imports, in the order of its lines."""
        found = [self.unit_of(module) for module, _, _ in uses(self.text_of(unit))] if len(unit) == 2 else []
        return [other for other in found if other and other != unit]

    def closure(self, seeds):
        """The seeds and all that they import, each after what it imports."""
        order, seen = [], set()

        def visit(unit):
            if unit not in seen:
                seen.add(unit)
                for other in self.imported(unit):
                    visit(other)
                order.append(unit)

        for seed in seeds:
            visit(seed)
        return order

    def way(self, seeds, file):
        """The fewest imports that lead from a seed to a file, a unit each; none where it is not among theirs."""
        ways, seen = [[seed] for seed in seeds], set(seeds)
        for way in ways:
            if self.path_of(way[-1]) == file:
                return way
            for other in self.imported(way[-1]):
                if other not in seen:
                    seen.add(other)
                    ways.append([*way, other])
        return []

    def words(self, units):
        """The names of the library that these units import, or write behind a word for its module; each with one unit that does."""
        found = {}
        for unit in units:
            text = self.text_of(unit) if len(unit) == 2 else ""
            for module, names, alias in uses(text):
                if not OWN.fullmatch(module):
                    behind = re.findall(rf"(?<![\w.]){re.escape(alias)}\.(\w+)", text.split(f" as {alias}\n")[-1]) if alias else []
                    for name in names + behind:
                        found.setdefault(name, unit)
        return found

    def misquoted(self):
        """What is wrong with README's quotes: the blocks that begin with `pub` stand in files of specs/, but for their line breaks, and there is one."""
        quotes = re.findall(r"(?ms)^```\n(pub .*?)^```$", (self.root / "README.md").read_text())
        specs = [" ".join(path.read_text().split()) for path in sorted(self.crates.glob("*/specs/*.antt"))]
        wrong = [quote.split("\n")[0] for quote in quotes if not any(" ".join(quote.split()) in text for text in specs)]
        return [f"README.md quotes what no file of specs/ has: {line}" for line in wrong] or ([] if quotes else ["README.md quotes no contract"])

    def rows(self):
        """The rows of docs/API.md's table of public calls: the calls in Rattle, and those for C, both as they stand there."""
        parts = self.calls.split("\n## Public calls\n")
        if len(parts) != 2:
            raise Fault("docs/API.md has no one section 'Public calls'")
        return re.findall(r"(?m)^\| (`\w+::[^|]*) \| ([^|]*?) ?\|", parts[1].split("\n## ")[0])

    def public_calls(self):
        """(name, crate, function) of each call: those of the table, and those for C, which are all that kodarfi exports."""
        calls = []
        for row, _ in self.rows():
            for path in re.findall(r"`((?:\w+::)+\w+)\(", row):
                calls.append((path, path.split("::")[0].lower(), path.split("::")[-1]))
        for path in sorted((self.crates / "kodarfi" / "src").glob("*.rt")):
            calls += [(name, "kodarfi", name) for name in re.findall(r'(?m)^pub extern "C" fn (\w+)', path.read_text())]
        return calls

    def beneath(self, name):
        """The crate that a call for C goes down to: that of the call in Rattle in its row of the table."""
        for row, names in self.rows():
            if f"`{name}`" in names:
                return re.match(r"`(\w+)::", row).group(1).lower()
        raise Fault(f"docs/API.md's table of public calls has no row for {name}")

    def contract(self, name, crate, function):
        """The ensures of a call, and the units that they cite."""
        for path in sorted((self.crates / crate / "src").glob("*.rt")):
            text = path.read_text()
            found = re.search(rf'(?ms)^ *pub (?:extern "C" )?fn {function}\b(.*?)^ *\{{$', text)
            if found:
                ensures = clauses(found.group(1))
                if not ensures:
                    raise Fault(f"{name} in crates/{crate}/src/{path.name} has no ensures")
                reported = set(re.findall(r"[^\s(){}.,;«»]+", " ".join(ensures)))
                cited = [self.unit_of(module) for module, names, _ in uses(text) if reported & set(names)]
                return ensures, [unit for unit in cited if unit]
        raise Fault(f"crates/{crate}/src has no public function {function}, which docs/API.md names")
