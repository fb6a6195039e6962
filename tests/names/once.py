"""What the crates say once: names at top level, definitions and laws by whatever name, dependencies, and the way to a fact of a proof."""

import re
from collections import defaultdict

NAME = r"[^\s(){}.;,@\"«»]+"
DECLARED = re.compile(
    rf"(?P<marks>(?:(?:pub|abbrev|unfoldable|record|data|ruleset) )+)(?P<marked>{NAME})|(?P<name>{NAME})(?: \{{[^{{}}:]*\}})? :(?:\s|$)"
)
OTHERS = {"mod", "use", "module"}
SHAPES = re.compile(r".*[_-](?:none|next|end)")
# What a file of proofs takes from a module of its own crate, by a word for the module or by names in braces.
TAKEN = re.compile(r"(?m)^use Rattle\.(\w+)\.proofs\.([^\s{]+?)(?:\.\{([^}]*)\}| as (\S+))$")
CONSTRUCTORS = {"pos", "negsuc", "suc", "zero", "true", "false", "none", "some", "refl", "here", "there", "next", "tt"}
# One formula, two ideas: a bias of 2^25 and the largest residual that is allowed; the number of a refusal, and of which of two it is.
TWO_IDEAS = {("allowed_residual", "bias"), ("head", "which_of")}
KIT = {"std", "io", "libc", "os", "bytes"}
# What the kit wants beside them: the crate of a type that a value has in one of its fields.
FIELDS = {
    "file": {"loader_progress"},
    "convert_writer": {"loader_progress", "loader"},
    "converter": {"loader"},
    "samples": {"loader_progress"},
}


def blocks(text):
    """(name, lines) of each declaration of a file of laws that begins a line, up to the next; without comments."""
    found = []
    for line in re.sub(r"--[^\n]*", "", text).split("\n"):
        match = DECLARED.match(line)
        name = match and (match["marked"] or match["name"])
        if name and name not in OTHERS:
            found.append((name, [line]))
        elif re.match(r"(?:pub )?(?:use|mod|module)\b", line):
            found.append((None, []))
        elif found and line.strip():
            found[-1][1].append(line)
    return [(name, lines) for name, lines in found if name]


def own_words(root, text):
    """What a proof says of its own function is said by words of modules that the prover makes, the goals and what is known there: those without a file."""
    found = []
    for crate, module, names, alias in TAKEN.findall(text):
        if not (root / "crates" / crate / "proofs" / (module.replace(".", "/") + ".antt")).is_file():
            found += [re.escape(alias) + r"\."] if alias else [re.escape(name.split(" as ")[-1].strip()) + r"(?![\w'-])" for name in names.split(",")]
    return re.compile(r"(?<![\w'.-])(?:" + "|".join(found) + ")") if found else re.compile(r"(?!)")


def proofs_of(root):
    """The files of specs/ and proofs/ of all crates."""
    return sorted(path for part in ("specs", "proofs") for path in (root / "crates").glob(f"*/{part}/**/*.antt"))


def laws(root):
    """(name, lines, file) of what the files of laws declare at top level. In the folder of a function, whose names are the kit's, what speaks of that function
    itself does not count. An indented module's own laws do not count either: they have its parameters."""
    for path in proofs_of(root):
        parts = path.relative_to(root / "crates").parts
        if path.name != "Lib.antt":
            text = path.read_text()
            own = own_words(root, text)
            for name, lines in blocks(text):
                if len(parts) == 3 or not own.search("\n".join(lines)):
                    yield name, lines, "/".join(parts)


def types(root):
    """(name, file) of the structs and enums of the code."""
    for path in sorted((root / "crates").glob("*/src/**/*.rt")):
        for name in re.findall(r"(?m)^(?:pub )?(?:struct|enum) (\w+)", path.read_text()):
            yield name, path.relative_to(root / "crates").as_posix()


def equal_names(root):
    """Names that several files of laws define, or the code for a type. X-none, X-next and X-end are laws of X."""
    places = defaultdict(dict)
    for name, file in [*((name, file) for name, _, file in laws(root)), *types(root)]:
        places[name][file] = True
    for name, files in sorted(places.items()):
        if len(files) > 1 and not SHAPES.fullmatch(name):
            yield f"{name} is defined in {' and in '.join(files)}: one law, or two names"


def shape(name, lines):
    """A definition whole, or what a law states, without its own name, and with its variables numbered as they come."""
    signature = [lines[0]]
    for line in lines[1:]:
        if not line[0].isspace():
            break
        signature.append(line)
    defines = re.match(r"(?:pub )?(?:abbrev|unfoldable|record|data)\b", lines[0]) or not re.search(r"[≡≤<↔⊥]", "".join(signature))
    text = "\n".join(lines if defines else signature)
    bound = re.findall(r"[({]\s*([^(){}:=;]+?)\s*:\s", text) + re.findall(r"λ ([^(){}.]+)\.", text)
    heads = re.findall(rf"(?m)^{re.escape(name)}\s([^=\n]*?)=(?:\s|$)", text)
    variables = {word for group in bound for word in group.split()} | {word for head in heads for word in re.findall(r"(?<![\w.])[a-z]\w*'*", head)} - CONSTRUCTORS
    numbers, tokens = {name: "it"}, re.findall(r"[(){}.;,@\"«»]|[^\s(){}.;,@\"«»]+", text)
    words = [numbers.setdefault(word, len(numbers)) if word in variables else numbers.get(word, word) for word in tokens]
    return tuple(word for word in words if word not in ("pub", "abbrev", "unfoldable"))


def equal_laws(root):
    """Definitions that are equal, and laws that state the same, up to their own names and those of their variables."""
    places = defaultdict(list)
    for name, lines, file in laws(root):
        places[shape(name, lines)].append((name, file))
    for found in places.values():
        names = tuple(sorted({name for name, _ in found}))
        if len(found) > 1 and names not in TWO_IDEAS:
            yield f"{' and '.join(f'{name} in {file}' for name, file in found)} are one: one law, one name"


def named_crates(folder):
    """The crates that the files of a crate name."""
    for path in [path for part in ("src", "specs", "proofs") for path in (folder / part).rglob("*")]:
        if path.suffix in (".antt", ".rt"):
            text = path.read_text()
            yield from re.findall(r"Rattle\.([a-z0-9_]+)", text)
            if path.suffix == ".rt":
                yield from re.findall(r"(?<![\w:])([a-z0-9_]+)::", re.sub(r"//[^\n]*", "", text))


def dependencies(root):
    """A crate lists the crates that its own files name, what the kit wants beside them, and no other; the kit's own may stand there too."""
    path = root / "crates.txt"
    lines = re.findall(r"(?m)^([a-z0-9_]+)(?: staticlib)?:(.*)", path.read_text()) if path.is_file() else []
    crates = {name for name, _ in lines}
    for name, listed in lines:
        named = (set(named_crates(root / "crates" / name)) | FIELDS.get(name, set())) & crates - {name}
        for other in sorted(named ^ (set(listed.split()) - KIT)):
            yield f"crates.txt: {name} {'names' if other in named else 'does not name'} {other}"


def long_ways(root):
    """Six steps back or more, one after the other or in one line: the stage has a name at the head of its file."""
    for path in proofs_of(root):
        text = path.read_text()
        for found in re.finditer(r"(?:\.before\b[^\n.]*){6,}|(?:\.before\s*){6,}", text):
            yield f"{path.relative_to(root).as_posix()}:{text.count(chr(10), 0, found.start()) + 1}: {found.group().count('.before')} steps back"


def faults(root):
    yield from equal_names(root)
    yield from equal_laws(root)
    yield from dependencies(root)
    yield from long_ways(root)
