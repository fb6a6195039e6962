"""The limits of one column are worked out whole before any of them is written (document 01), by the form of the code.

  python3 tests/columns.py               reads src/ of the crates; the last line is 'N passed, M failed', a list handed to a function each
  python3 tests/columns.py --self-test   the same reader on right sources and on mutants by name, and on the project's own sources with one change

No contract can tell when a list was written, so the sources are read. A limit list is a parameter `&mut [u64]` whose name ends in `bounds`, with a number behind
it or not, and each parameter that a limit list is handed on to. A function may ask for its length, hand it on, write one of its elements, or copy a part of a list
into it; what it writes is an element or a part of an array by value, `[u64; 32]`, or of a list `&[u64]`, that was handed to it. So the numbers were all there before
the first was written."""

import re
import sys

from common.mutated import ROOT, close, main
from places import code, end_of, functions

CRATES = sorted(path.name for path in (ROOT / "crates").iterdir() if (path / "src").is_dir() and path.name != "samples")
LITERAL = r"""b"(?:[^"\\]|\\.)*"|b'(?:[^'\\]|\\.)'"""
LIST, WHOLE = "& mut [ u64 ]", ("[ u64 ; 32 ]", "& [ u64 ]")


def parted(tokens):
    """The parts between the commas that stand in no bracket."""
    parts, at = [[]], 0
    while at < len(tokens):
        end = end_of(tokens, at) if tokens[at] in "([{" else at + 1
        if tokens[at] == ",":
            parts.append([])
        else:
            parts[-1] += tokens[at:end]
        at = end
    return [part for part in parts if part]


def typed(function):
    """(name, type) of each parameter; `self` has no type."""
    return [(part[-1], "") if ":" not in part else (part[part.index(":") - 1], " ".join(part[part.index(":") + 1 :])) for part in parted(function.parameters)]


def is_limits(name, kind):
    return kind == LIST and re.fullmatch(r"\w*bounds\d*", name) is not None


class Writers:
    """The functions of the sources by name, and the limit lists that they are handed."""

    def __init__(self, sources):
        self.functions = {}
        for file, text in sources.items():
            for function in functions(code(re.sub(LITERAL, "0", text))):
                self.functions.setdefault(function.name, []).append((file, function))
        self.todo = [(file, one, name) for found in self.functions.values() for file, one in found for name, kind in typed(one) if is_limits(name, kind)]
        self.writers = set()

    def handed(self, name, index):
        """The lists that the argument with this index is, of the functions of this name; `self` is no argument."""
        found = []
        for file, one in self.functions.get(name, []):
            kinds = [parameter for parameter in typed(one) if parameter[0] != "self"]
            if index < len(kinds) and kinds[index][1] == LIST:
                found.append((file, one, kinds[index][0]))
        return found

    def uses(self, function, name):
        """What a function does with a list, a fault in words each time, or None."""
        body, whole = function.body, {parameter for parameter, kind in typed(function) if kind in WHOLE}
        whole -= {body[at + 2 if body[at + 1] == "mut" else at + 1] for at, token in enumerate(body) if token in ("let", "for")}  # bound again
        for at in (at for at, token in enumerate(body) if token == name and body[at - 1] != "."):
            if body[at + 1 : at + 3] == [".", "len"]:
                yield None
            elif body[at + 1] == "[":
                sign = end_of(body, at + 1)
                value = body[sign + 1 : body.index(";", sign)]
                is_element = value[:1] and value[0] in whole and value[1:2] == ["["] and end_of(value, 1) == len(value)
                is_part = value[:3] == ["copy_from_slice", "(", "&"] and value[3] in whole and value[4] == "[" and end_of(value, 4) == len(value) - 1
                is_whole = body[sign] == "=" and is_element or body[sign] == "." and is_part
                self.writers |= {function.name} if is_whole else set()
                yield None if is_whole else f"is used, or given a number that is no element of what was handed over: {' '.join(body[at:sign] + body[sign:sign + 1] + value)}"
            else:
                yield from self.calls(body, at, name)

    def calls(self, body, at, name):
        """The call that a list stands in as an argument."""
        opened, depth = at, 1
        while opened > 0 and depth:
            opened -= 1
            depth += (body[opened] in ")]}") - (body[opened] in "([{")
        arguments = parted(body[opened + 1 : end_of(body, opened) - 1]) if body[opened] == "(" else []
        index = next((k for k, argument in enumerate(arguments) if argument == [name]), None)
        found = self.handed(body[opened - 1], index) if index is not None else []
        self.todo += found
        yield None if found else f"is neither asked for its length, written nor handed on: {' '.join(body[max(at - 3, 0) : at + 3])}"

    def run(self):
        """How many lists were followed, and what is wrong."""
        seen, faults = set(), []
        while self.todo:
            file, function, name = self.todo.pop()
            if (file, function.name, name) not in seen:
                seen.add((file, function.name, name))
                faults += [f"{file}, {function.name}: {name} {fault}" for fault in self.uses(function, name) if fault]
        return len(seen), faults + ([] if self.writers else ["no function writes a limit list"])


def sources():
    """The sources in which a list of such numbers may be written."""
    files = [path for crate in CRATES for path in sorted((ROOT / "crates" / crate / "src").glob("*.rt"))]
    return {path.relative_to(ROOT / "crates").as_posix(): path.read_text() for path in files if "&mut [u64]" in path.read_text()}


def run():
    if sys.argv[1:] == ["--self-test"]:
        from columns_self_test import self_test

        return self_test()
    if sys.argv[1:]:
        print(__doc__)
        return 2
    count, faults = Writers(sources()).run()
    return close(max(count, len(faults)), faults)


if __name__ == "__main__":
    main(run)
