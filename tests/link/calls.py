"""Writes the calls of include/kodarfi.h as the replays make them: each by its place in the header, with its arguments from a list of numbers, which for a pointer
has the place of a lent list.

  python3 tests/link/calls.py c|rust|names"""

import sys
from pathlib import Path

sys.path.insert(0, str(Path(__file__).resolve().parent.parent))

from common.mutated import main
from header.read import prototypes

# The numbers that are handed over, in Rust.
NUMBERS = {"uint32_t": "u32", "int64_t": "i64", "uint64_t": "u64", "size_t": "usize"}


def in_c():
    yield '#include "replay.h"\n\n#include "kodarfi.h"\n\nconst char *const NAMES[MOST_CALLS] = {'
    yield from (f'    "{name}",' for _, name, _ in prototypes())
    yield "};\n\nuint32_t make_call(size_t call, const uint64_t *a) {\n    switch (call) {"
    for place, (result, name, parameters) in enumerate(prototypes()):
        arguments = ", ".join(f"a[{k}]" if kind in NUMBERS else f"lent(a[{k}])" for k, (kind, _) in enumerate(parameters))
        yield f"    case {place}: return {name}({arguments});" if result != "void" else f"    case {place}: {name}({arguments}); return 0;"
    yield '    }\n    stop("there is no such call");\n}'


def in_rust():
    yield "pub const NAMES: &[&str] = &["
    yield from (f'    "{name}",' for _, name, _ in prototypes())
    yield '];\n\n#[link(name = "kodarfi", kind = "static", modifiers = "-bundle")]\nextern "C" {'
    for result, name, parameters in prototypes():
        kinds = ", ".join(f"_: {NUMBERS.get(kind, '*mut u8')}" for kind, _ in parameters)
        yield f"    fn {name}({kinds}){'' if result == 'void' else ' -> u32'};"
    yield "}\n\npub unsafe fn make_call(call: usize, a: &[u64], mut lent: impl FnMut(u64) -> *mut u8) -> u32 {\n    match call {"
    for place, (result, name, parameters) in enumerate(prototypes()):
        arguments = ", ".join(f"a[{k}] as {NUMBERS[kind]}" if kind in NUMBERS else f"lent(a[{k}])" for k, (kind, _) in enumerate(parameters))
        yield f"        {place} => {name}({arguments})," if result != "void" else f"        {place} => {{ {name}({arguments}); 0 }}"
    yield '        _ => panic!("there is no such call"),\n    }\n}'


def run():
    lines = {"c": in_c, "rust": in_rust, "names": lambda: (name for _, name, _ in prototypes())}[sys.argv[1]]()
    print("\n".join(lines))
    return 0


if __name__ == "__main__":
    main(run)
