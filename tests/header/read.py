"""What is read off include/kodarfi.h: its constants and its calls, and the calls as header/stack.c makes them, with the nets and files that it hands over."""

import re

from common.mutated import ROOT
from common.net import file_of, flat, lines_of, net_of

INCLUDE = ROOT / "include"
MARKS = range(32)
# The longest file whose every line is accepted, and that has no tolerances.
WIDEST = file_of(lines_of(net_of(20, 20, [[-(2**20)] * 32] * 32, [-(2**30)] * 32, [-(2**36)] * 32, [[-(2**20)] * 32] * 32, [1024] * 32)))
CONSTANT = re.compile(r"^#define (KODARFI_[A-Z_]+) (?:U?INT64_C\()?(\d+)\)?(?= |$)", re.M)


def constants():
    return {name: int(number) for name, number in CONSTANT.findall((INCLUDE / "kodarfi.h").read_text())}


def prototypes():
    """The calls of the header: result, name, and each parameter by type and name."""
    text = re.sub(r"/\*.*?\*/", "", (INCLUDE / "kodarfi.h").read_text(), flags=re.S)
    for result, name, parameters in re.findall(r"^(uint32_t|void) (kodarfi_\w+)\(([^)]*)\);", text, re.M):
        split = [re.fullmatch(r"(.*?[ *])(\w+)(\[\d+\])?", " ".join(parameter.split())) for parameter in parameters.split(",")]
        yield result, name, [((parts[1] + ("*" if parts[3] else "")).replace(" ", ""), parts[2]) for parts in split]


def parameters_of(kinds_and_names):
    """Parameters as C declares them, and their names, each as one text."""
    kinds = [kind.replace("const", "const ").replace("struct", "struct ") for kind, _ in kinds_and_names]
    return ", ".join(f"{kind} {name}" for kind, (_, name) in zip(kinds, kinds_and_names)), ", ".join(name for _, name in kinds_and_names)


def argument(kind, name, index):
    """What a call is handed for a parameter, in header/stack.c's words: by its name where it is read, else a place of its own to write to."""
    base, which = name.rstrip("12"), "other" if name.endswith("2") else "net"
    if name.endswith("_len"):
        lengths = {"matrix": 1024, "inverse": 1024, "inverse_bounds": 1024, "coupling": 1024, "half": 528, "observations": 256, "file": "file_len", "line": "line_len", "out": "sizeof out"}
        return str(lengths.get(name[:-4].rstrip("12"), 32))
    if kind == "uint32_t" and base in ("n", "s", "t") or kind == "constint64_t*" and base in ("matrix", "right", "tolerance", "guess", "inverse", "weights"):
        return f"{which}.{base}"
    read = {"constint64_t*half": "half", "constint64_t*coupling": "coupling", "constuint64_t*bounds": "read_bounds", "constdouble*values": "values", "constuint8_t*file": "file",
            "conststructkodarfi_observation*observations": "lines", "constuint8_t*line": "line", "constuint32_t*loader": "ended_loader()", "uint32_t*loader": "begun_loader()",
            "uint32_tallowance": "64", "int64_tguess": "24", "uint64_tbound": "10", "uint64_t*places": "places"}
    written = {"int64_t*": f"numbers[{index}]", "uint64_t*": f"bounds[{index}]", "double*": f"doubles[{index}]", "uint8_t*": "out", "size_t*": "&written", "uint32_t*": f"&words[{index}]"}
    return read.get(kind + name) or written[kind]


def said_of_none(names):
    """What a call says where these lists, in its order, are empty: 8, but for a buffer, and for what may be empty, field lines, a file and a line."""
    free = {"observations_len": 0, "file_len": 15, "line_len": 2, "out_len": 22}
    return free[names[0]] if set(names) <= set(free) else 8


def large(way):
    """An accepted net of 32 marks. The way through a check depends on it: ones on the diagonal, and beside them or not; a guess that is off by a step, or none;
    tolerances in all rows but the last, or none. The inverse is exact."""
    beside, off, tolerance = way & 1, way >> 1 & 1, way >> 2
    matrix = [[int(j == i or j == i + beside) for j in MARKS] for i in MARKS]
    inverse = [[(-1) ** (j - i) * 2**20 if j == i or beside and j > i else 0 for j in MARKS] for i in MARKS]
    return net_of(10, 20, matrix, [0] * 32, [off, *[0] * 31], inverse, [1] * 32).with_(tolerance=[*[tolerance] * 31, 0])


def nets_in_c():
    """NETS, FILES and LINES for header/stack.c: the eight nets, their files and the longest, and a line of each net's inverse."""
    listed = lambda numbers: "{" + ", ".join(map(str, numbers)) + "}"
    nets = [large(way) for way in range(8)]
    texts = [*(file_of(lines_of(net)) for net in nets), WIDEST], [next(line for line in lines_of(net) if line.startswith("(inverse 1 ")).encode() for net in nets]
    lists = [f"{{32, 10, 20, {', '.join(map(listed, (flat(net.matrix), net.right, net.tolerance, net.guess, flat(net.inverse), net.weights)))}}}" for net in nets]
    yield f"static const struct lists NETS[] = {{{', '.join(lists)}}};\n"
    for name, all_texts in zip(("FILES", "LINES"), texts):
        yield f"static const struct text {name}[] = {{{', '.join(f'{{{len(text)}, {listed(text)}}}' for text in all_texts)}}};\n"


def write_calls(path):
    """CALLS for header/stack.c, every call, and NULLS, the same with each of its lists null and of length 0, and with all of them so; each with its number."""
    runs, calls, nulls = [], [], []
    for result, name, parameters in prototypes():
        arguments, counts = [], {}
        for kind, parameter in parameters:
            arguments.append(argument(kind, parameter, counts.get(kind, 0)))
            counts[kind] = counts.get(kind, 0) + 1
        lists = [index for index, (_, parameter) in enumerate(parameters) if parameter.endswith("_len")]
        for empty in [[], *([index] for index in lists), lists] if lists else [[]]:
            handed = ["NULL" if index + 1 in empty else "0" if index in empty else text for index, text in enumerate(arguments)]
            run = f"run_{len(runs)}"
            called = f"{name}({', '.join(handed)});"
            runs.append(f"static void {run}(void) {{ {'number = ' if result == 'uint32_t' else ''}{called}{'' if result == 'uint32_t' else ' number = 0;'} }}\n")
            (nulls if empty else calls).append(f'    {{"{name}", {run}, {said_of_none([parameters[index][1] for index in empty]) if empty else 0}}},\n')
    path.write_text(f"{''.join(nets_in_c())}{''.join(runs)}\nstatic const struct call {{\n    const char *name;\n    void (*run)(void);\n    uint32_t number;\n}} CALLS[] = {{\n{''.join(calls)}}}, NULLS[] = {{\n{''.join(nulls)}}};\n")
