"""Where `rt` says that a must-fail edit was refused: the first fact that its line names, and whether that is a promise, a law or a side condition."""

import re

# What `rt ci` and `rt must-fail` say of an edit, a line each.
LINE = re.compile(r"^rt: must-fail (?P<name>\w+/[\w.-]+)\.edit: (?P<said>.*)$")
REFUSED = "refused, as it must be"
LIMIT = " (only by a limit of the prover"

# A fact refused in a proof file, one that another of the file before it stands on, and one of a function that no proof file answers. A line is cut after so many
# characters, in a name too.
IN_PROOF = re.compile(r"(?:\./)?(?P<file>\S+?\.antt):\d+:\d+: error: (?:`(?P<fact>[^`]+)`: |\d+ declarations? that depends? on `(?P<below>[^`]+)`, which was rejected)")
IN_CODE = re.compile(r"note: (?:\./)?(?P<file>\S+?\.rt):(?P<line>\d+):\d+: it is not proved .*?\(`(?P<fact>[^`]*)(?P<end>`?)")

# What a function returns, what a loop keeps, the contract of a function: by the names that the prover gives them.
PROMISED = re.compile(r"(.+-)?(returns|loop-.+-(init|preserved))(-.*)?|.+-spec")


def lines_of(log):
    """What is said of each edit, by its name, 'crate/edit'."""
    found = (LINE.match(line) for line in log.split("\n"))
    return {match["name"]: match["said"] for match in found if match}


def is_goal(path, fact):
    """Whether a proof file declares a fact as an answer to a goal of its function, as a bound, a cast or a callee's `requires`."""
    name = re.escape(fact)
    return path.is_file() and re.search(rf"^ *(?:pub )?{name} : \w+\.{name}(?![\w'-])", path.read_text(), re.MULTILINE) is not None


def function_at(path, line):
    """The function that a line of code belongs to, or that an attribute stands on."""
    lines = path.read_text().split("\n")
    while lines[line - 1].lstrip().startswith("#["):
        line += 1
    return re.findall(r"\bfn (\w+)", "\n".join(lines[:line]))[-1]


def refused_at(crate, said):
    """What an edit's second line says (edits.py) where `rt` said this of it; `crate` is the crate's folder. None where the edit was not refused, where no fact
    is named, where a definition is refused by itself, for a name or a type, and where only a proof names what the edit took away: such an edit shows nothing."""
    is_at_limit = said.startswith(REFUSED + LIMIT)
    text = said.partition("): ")[2] if is_at_limit else said.removeprefix(REFUSED + ": ")
    found = IN_PROOF.match(text) or IN_CODE.match(text)
    if not said.startswith((REFUSED + ": ", REFUSED + LIMIT)) or not found or found["file"].startswith("specs/"):
        return None
    file, path = found["file"].removeprefix("proofs/"), crate / found["file"]
    fact = found["fact"] if found["fact"] is not None else found["below"]
    if path.suffix == ".rt":
        name = f"`{fact}{'' if found['end'] else '..'}` of `{function_at(path, int(found['line']))}`"
        is_side_condition = PROMISED.fullmatch(fact) is None
    else:
        name = f"`{fact}`"
        is_side_condition = PROMISED.fullmatch(fact) is None and is_goal(path, fact)
    return ("only by a limit at " if is_at_limit else "first at " if is_side_condition else "") + f"`{file}`, {name}"
