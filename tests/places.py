"""No place is multiplied out: the sources of the reckoning's crates have no product in an index (document 02, Paper 4).

  python3 tests/places.py               reads src/ of these crates; the last line is 'N passed, M failed', a function each
  python3 tests/places.py --self-test   the same reader on right sources, and on mutants by name (places_self_test.py)

An index is a usize: a parameter, a field, a result or a length of that type, a loop's variable, a name that stands in the brackets of an element, and what these are given to.
A product is at fault where it stands in such brackets, is given to an index, or has an index as a factor; a shift to the left counts as one, and so does a method that multiplies.
The end of a loop's range is a count of terms and not a place: a product is right there, and nowhere else in a loop's head.
A number becomes an index only as a parameter by its name: no other cast to usize, so that no product of numbers, a call's or a local's, becomes a place. Contracts and comments are not code."""

import re
import sys
from typing import NamedTuple

from common.mutated import ROOT, close, main

CRATES = ["integer", "linear", "rules", "check_biased_rows", "check_symmetry", "check_defects", "check_margins", "check_residuals", "check_allowances", "check_ratios", "check_bounds", "check_inverse_bounds", "check_lists", "dependent_coupling", "weights_spec", "weights_steps", "half_fill", "build_lines", "build_gathering", "build_equations"]

TOKEN = re.compile(r"[A-Za-z_]\w*|\d\w*|::|=>|->|\.\.=|\.\.|<<=?|[-+*/%&|^]=|[-+*/%&|^<>=!]=?|[()\[\]{};:,.@#'\"«»]")
OPEN, CLOSE = "([{", ")]}"
NAME = re.compile(r"[A-Za-z_]\w*")
METHOD = re.compile(r"(\w+_)?(mul|pow|shl)")
KEYWORDS = {"return", "if", "else", "while", "match", "in", "let", "mut", "as", "for", "loop", "break"}


class Function(NamedTuple):
    name: str
    parameters: list
    result: list
    body: list


def end_of(tokens, start):
    """The place after the group that opens at `start`."""
    depth = 0
    for at in range(start, len(tokens)):
        depth += (tokens[at] in OPEN) - (tokens[at] in CLOSE)
        if depth == 0:
            return at + 1
    raise ValueError("a bracket is not closed")


def start_of(tokens, end):
    """The place of the bracket that opens the group whose last token is at `end`."""
    depth = 0
    for at in range(end, -1, -1):
        depth += (tokens[at] in CLOSE) - (tokens[at] in OPEN)
        if depth == 0:
            return at
    raise ValueError("a bracket is not opened")


def code(text):
    """The tokens of a source without comments, contracts and imports."""
    text = re.sub(r"^ *(ghost )?use [^;]*;", "", re.sub(r"//[^\n]*", "", text), flags=re.MULTILINE)
    for clause in iter(lambda: re.search(r"\b(requires|ensures)\b[^{]*\{", text), None):
        depth, at = 1, clause.end()
        while depth:
            depth += {"{": 1, "}": -1}.get(text[at], 0)
            at += 1
        text = text[: clause.start()] + text[at:]
    return TOKEN.findall(text)


def functions(tokens):
    for at, token in enumerate(tokens):
        if token == "fn":
            close = end_of(tokens, at + 2)
            body = tokens.index("{", close)
            yield Function(tokens[at + 1], tokens[at + 3 : close - 1], tokens[close:body], tokens[body : end_of(tokens, body)])


def typed(tokens):
    """The names of a list of 'name: usize'."""
    return {tokens[at - 1] for at in range(1, len(tokens) - 1) if tokens[at] == ":" and tokens[at + 1] == "usize" and NAME.fullmatch(tokens[at - 1])}


def is_binary(tokens, at):
    return at > 0 and (tokens[at - 1] in ")]" or NAME.fullmatch(tokens[at - 1]) is not None or tokens[at - 1][0].isdigit()) and tokens[at - 1] not in KEYWORDS


def products(tokens):
    return [at for at, token in enumerate(tokens) if token in ("*", "<<") and is_binary(tokens, at)]


def counts(body):
    """The places of the tokens that stand in the end of a loop's range."""
    inside = set()
    for at, token in enumerate(body):
        if token == "for":
            opened, dots = body.index("{", at), [k for k in range(at, len(body)) if body[k] in ("..", "..=")]
            if dots and dots[0] < opened:
                inside |= set(range(dots[0] + 1, opened))
    return inside


def left_of(tokens, at):
    """The factor that ends before `at`."""
    start = at
    while start > 0:
        before = tokens[start - 1]
        if before in CLOSE:
            start = start_of(tokens, start - 1)
        elif (NAME.fullmatch(before) and before not in KEYWORDS) or before[0].isdigit():
            start -= 1
        else:
            break
        if start > 0 and tokens[start - 1] in (".", "::", "as"):
            start -= 1
        elif not (start > 0 and tokens[start] in "([" and NAME.fullmatch(tokens[start - 1]) and tokens[start - 1] not in KEYWORDS):
            break
    return tokens[start:at]


def right_of(tokens, at):
    """The factor that begins at `at`."""
    end = at
    while end < len(tokens) and tokens[end] in "-&*!":
        end += 1
    end = end_of(tokens, end) if tokens[end] in OPEN else end + 1
    while end < len(tokens):
        if tokens[end] in (".", "::", "as"):
            end += 2
        elif tokens[end] in "([":
            end = end_of(tokens, end)
        else:
            break
    return tokens[at:end]


class Reader:
    """The sources of some crates by name, and which of their fields and results are indices."""

    def __init__(self, sources):
        self.sources = {name: code(text) for name, text in sources.items()}
        self.functions = {name: list(functions(tokens)) for name, tokens in self.sources.items()}
        self.fields, self.results = {"len"}, {"len"}
        for name, tokens in self.sources.items():
            for at, token in enumerate(tokens):
                if token == "struct" and tokens[at + 2] == "{":
                    self.fields |= typed(tokens[at + 2 : end_of(tokens, at + 2)])
            self.results |= {function.name for function in self.functions[name] if function.result[-1:] == ["usize"]}

    def bare(self, tokens):
        """The parts of an expression outside calls and elements that are not cast: 'name', '.field' and 'call(', an '(index)' where they are cast to one."""
        if tokens[-2:-1] == ["as"] and tokens[-1] == "usize":
            yield "(index)"
        at = 0
        while at < len(tokens):
            token, end = tokens[at], end_of(tokens, at) if tokens[at] in OPEN else at + 1
            is_called = at > 0 and (tokens[at - 1] in CLOSE or NAME.fullmatch(tokens[at - 1]) is not None) and tokens[at - 1] not in KEYWORDS
            is_cast = tokens[end : end + 1] == ["as"] and tokens[end + 1] != "usize"
            if token == "(" and not is_called and not is_cast:
                yield from self.bare(tokens[at + 1 : end - 1])
            elif NAME.fullmatch(token) and not is_cast and tokens[end : end + 1] not in (["["], ["."], ["::"]):
                yield token + "(" if tokens[end : end + 1] == ["("] else "." + token if at and tokens[at - 1] == "." else token
            at = end

    def is_index(self, tokens, names):
        """Whether an expression is an index, or has one as a part that is not cast."""
        known = names | {"(index)"} | {f".{name}" for name in self.fields} | {f"{name}(" for name in self.results}
        return any(part in known for part in self.bare(tokens))

    def given(self, body):
        """What is given to a name: the name, the operator and the expression."""
        for at, token in enumerate(body):
            if token in ("=", "+=", "-=", "*=", "<<=") and NAME.fullmatch(body[at - 1]):
                name = body[at - 3] if body[at - 2] == ":" else body[at - 1]
                end = at + 1
                while body[end] != ";":
                    end = end_of(body, end) if body[end] in OPEN else end + 1
                yield name, token, body[at + 1 : end]

    def elements(self, body):
        """What stands in the brackets of an element."""
        for at in range(1, len(body)):
            if body[at] == "[" and (body[at - 1] in ")]" or (NAME.fullmatch(body[at - 1]) and body[at - 1] not in KEYWORDS)):
                yield body[at + 1 : end_of(body, at) - 1]

    def indices(self, function):
        body = function.body
        names = typed(function.parameters) | {body[at + 1] for at, token in enumerate(body) if token == "for"}
        for inside in self.elements(body):
            names |= {token for at, token in enumerate(inside) if NAME.fullmatch(token) and inside[at + 1 : at + 2] not in (["("], ["["])}
        while True:
            more = names | {name for name, _, value in self.given(body) if self.is_index(value, names)}
            more |= {part for name, _, value in self.given(body) if name in names for part in self.bare(value) if NAME.fullmatch(part)}
            if more == names:
                return names
            names = more

    def faults(self, function):
        """The products of a function that are at fault, a sentence each."""
        body, names = function.body, self.indices(function)
        for inside in self.elements(body):
            if products(inside):
                yield "in brackets: " + " ".join(inside)
        for name, sign, value in self.given(body):
            if name in names and (sign in ("*=", "<<=") or products(value)):
                yield f"given to an index: {name} {sign} {' '.join(value)}"
        for at in set(products(body)) - counts(body):
            left, right = left_of(body, at), right_of(body, at + 1)
            if self.is_index(left, names) or self.is_index(right, names):
                yield f"a factor is an index: {' '.join(left)} * {' '.join(right)}"
        parameters = {function.parameters[at - 1] for at, token in enumerate(function.parameters) if token == ":"}
        for at, token in enumerate(body):
            if token == "as" and body[at + 1] == "usize" and (body[at - 1] not in parameters or body[at - 2] == "."):
                yield "cast to an index: " + " ".join([*left_of(body, at), "as usize"])
            if METHOD.fullmatch(token) and body[at - 1] == ".":
                yield "a method that multiplies: " + token

    def all_faults(self):
        return [f"{name}, {function.name}: {fault}" for name in self.sources for function in self.functions[name] for fault in self.faults(function)]



def sources(crates=CRATES):
    """The text of every source of the crates, by its path."""
    return {f"{crate}/src/{path.name}": path.read_text() for crate in crates for path in sorted((ROOT / "crates" / crate / "src").glob("*.rt"))}


def not_read():
    """The crates with code that a crate with sums can call and that are not read. The checker has no sum of its own."""
    lines = [line.split(":") for line in (ROOT / "crates.txt").read_text().splitlines() if ":" in line]
    beneath = {used for name, deps in lines if name.split()[0] in CRATES and name != "check_lists" for used in deps.split() if used not in CRATES}
    return sorted(name for name in beneath if any(any(functions(code(text))) for text in sources([name]).values()))


def run():
    if sys.argv[1:] == ["--self-test"]:
        from places_self_test import self_test

        return self_test()
    if sys.argv[1:]:
        print(__doc__)
        return 2
    reader = Reader(sources())
    faults = reader.all_faults()
    faults += [f"crates/{crate}/src has no function" for crate in CRATES if not any(reader.functions[name] for name in reader.functions if name.startswith(crate + "/"))]
    faults += [f"crates/{crate}/src has functions that the sums can call, and is not read" for crate in not_read()]
    return close(sum(map(len, reader.functions.values())), faults)


if __name__ == "__main__":
    main(run)
