#!/usr/bin/env python3
"""Respells the repository's own definitions, lemmas, fields and bound variables in snake case, once, after the kit's port.py: usage: respell.py [--table] FOLDER

port.py respells only some of the names that a repository declares. This script goes on, in every .antt file and in the clauses, 'ghost use' lines and comments of every .rt file:
  camelCase becomes snake_case: solutionBounds, solution_bounds;
  a dash in a name that specs/ or a file of laws declares becomes an underscore: written-more, written_more. A dash beside a sign stays: abs-*;
  a lemma that would then have the name of a definition gets _lem: column-of, on columnOf, becomes column_of_lem.
Names that only a function's own proof declares, below proofs/F/, keep their dashes: they are the prover's. CHOSEN has the names that need another word.
--table prints 'old TAB new' for each name and writes nothing.
"""
import os
import re
import sys

TOKEN = re.compile(r"\"(?:\\.|[^\"\\])*\"|[^\s(){}.;,@\"«»|]+")
DECLARED = re.compile(r"^ *(?:(?:unfoldable|abbrev|pub|data|record) )*([^\s(){}.;,@\"«»]+)(?: +(?:\{[^{}\n]*\}|\([^()\n]*\)))* *:(?!:)")
CAMEL = re.compile(r"^[a-z][a-z0-9_]*[A-Z]")
LETTER = re.compile(r"[A-Za-z0-9'ℕℤ₀₁₂₃]")
# Fields of two records, which may have one name; definitions that would meet the constructor of a statement about them, or a crate.
CHOSEN = {"solution-bounds": "solution_bounds", "inverse-bounds": "inverse_bounds", "tooShort": "is_too_short", "tooWide": "is_too_wide", "loaderNumbers": "numbers_of_loader"}


def files(top):
    for folder, dirs, names in os.walk(os.path.join(top, "crates")):
        dirs[:] = sorted(d for d in dirs if d != "out")
        for name in sorted(names):
            if name.endswith((".antt", ".rt")):
                yield os.path.join(folder, name)


def is_own_proof(path):
    """A function's own proof: a file below proofs/F/."""
    inside = path.split("/proofs/", 1)
    return len(inside) == 2 and "/" in inside[1]


def in_snake(name):
    return CHOSEN.get(name) or re.sub(r"(?<=[a-z0-9])[A-Z]+", lambda m: "_" + m[0].lower(), name)


def without_dashes(name):
    return re.sub(rf"(?<={LETTER.pattern})-(?={LETTER.pattern})", "_", name)


def words(path, text):
    """The tokens of a text that the script may turn, as (start, end): of a .rt file those of its clauses, 'ghost' items and comments."""
    for m in TOKEN.finditer(text):
        if not m[0].startswith('"'):
            yield m.start(), m.end()


def table(texts):
    tokens, declared = set(), set()
    for path, text in texts.items():
        for line in text.split("\n"):
            bare = re.sub(r"(--|//).*", "", line) if path.endswith(".antt") else re.sub(r"//.*", "", line)
            for a, b in words(path, bare):
                if path.endswith(".antt") and (a == 0 or bare[a - 1] != "."):
                    tokens.add(bare[a:b])
                elif CAMEL.match(bare[a:b]):
                    tokens.add(bare[a:b])
            if path.endswith(".antt") and not is_own_proof(path) and (m := DECLARED.match(line)):
                declared.add(m[1])
    turned = {}
    for name in sorted(tokens):
        if CAMEL.match(name) and in_snake(name) != name:
            turned[name] = in_snake(name)
    definitions = set(turned.values())
    for name in sorted(declared):
        new = without_dashes(turned.get(name, name))
        if name in turned:
            turned[name] = new
        elif new != name:
            turned[name] = CHOSEN.get(name) or (new + "_lem" if new in definitions or new in tokens else new)
        elif name in definitions:
            turned[name] = name + "_lem"
    return turned


def main(argv):
    top = [a for a in argv if a != "--table"][0]
    texts = {}
    for path in files(top):
        with open(path, encoding="utf-8") as f:
            texts[path] = f.read()
    turned = table(texts)
    taken = {}
    for name, new in turned.items():
        if new in taken:
            print(f"respell: {name} and {taken[new]} would both be {new}", file=sys.stderr)
        taken[new] = name
    if "--table" in argv:
        for name, new in sorted(turned.items()):
            print(f"{name}\t{new}")
        return 0
    for path, text in texts.items():
        rust = path.endswith(".rt")
        out, last = [], 0
        for a, b in words(path, text):
            old = text[a:b]
            new = turned.get(old, old)
            # A Rust name that is spelled as a lemma stays: only camelCase is turned in a .rt file, and dashes do not occur.
            if new != old and not (rust and re.fullmatch(r"[a-z0-9_]+", old)):
                out += [text[last:a], new]
                last = b
        new_text = "".join(out) + text[last:]
        if new_text != text:
            with open(path, "w", encoding="utf-8") as f:
                f.write(new_text)
    return 0


if __name__ == "__main__":
    raise SystemExit(main(sys.argv[1:]))
