"""What the package is made of: the header's types, the syntax, the words, the version; and how it finds the library."""

import ast
import ctypes
import importlib.metadata
import importlib.util
import inspect
import re
import subprocess
import sys
import tempfile
import warnings
from pathlib import Path

from common.mutated import open_folder
from package.loaded import ROOT, SHARED, SOURCES

HEADER = (ROOT / "include" / "kodarfi.h").read_text()
KINDS = {"uint32_t": ctypes.c_uint32, "uint64_t": ctypes.c_uint64, "int64_t": ctypes.c_int64, "size_t": ctypes.c_size_t, "double": ctypes.c_double, "uint8_t": ctypes.c_uint8}


def prototypes():
    """Every call of the header: what it gives, its name, and its parameters."""
    text = re.sub(r"/\*.*?\*/", "", HEADER, flags=re.S)
    return [(given, name, [" ".join(part.split()) for part in inside.split(",")]) for given, name, inside in re.findall(r"(\w+) (kodarfi_\w+)\(([^)]*)\);", text)]


def type_of(parameter, observation):
    """The type that ctypes has for a parameter of C."""
    words = parameter.replace("const ", "").replace("struct ", "")
    kind = {**KINDS, "kodarfi_observation": observation}[words.split(" ")[0].rstrip("*")]
    if kind is ctypes.c_uint8 and "const" in parameter:
        return ctypes.c_char_p
    return ctypes.POINTER(kind) if "*" in words or "[" in words else kind


def types_are_the_headers(package):
    library = __import__("kodarfi.library", fromlist=["CALLS"])
    right = {name: [type_of(part, library.Observation) for part in inside] for _, name, inside in prototypes()}
    gives_nothing = [name for given, name, _ in prototypes() if given == "void"]
    fields = {name: (getattr(library.Observation, name).offset, getattr(library.Observation, name).size) for name, _ in library.Observation._fields_}
    layout = ctypes.sizeof(library.Observation) == 32 and fields == {"key": (0, 4), "from_": (4, 4), "to": (8, 4), "difference": (16, 8), "weight": (24, 4)}
    answers = all((getattr(library.library(), name).restype is None) == (name in gives_nothing) for name in right)
    return len(right) > 15 and library.CALLS == right and answers and layout


def every_call_has_a_function(package):
    """Each call of the header is named by a function's documentation, which is typed."""
    calls = package.calls
    members = [getattr(calls, name) for name in calls.__all__]
    reported = " ".join(inspect.getdoc(member) or "" for member in members)
    functions = [member for member in members if inspect.isfunction(member)]
    typed = all(set(inspect.signature(act).parameters) | {"return"} == set(act.__annotations__) for act in functions)
    return all(re.search(rf"\b{name}\b", reported) for _, name, _ in prototypes()) and all(map(inspect.getdoc, members)) and typed and (package.folder / "kodarfi/py.typed").exists()


def sources(loaded):
    return sorted((loaded.folder / "kodarfi").glob("*.py"))


# The modules of Python that the package uses.
OWN = {"contextlib", "csv", "ctypes", "dataclasses", "hashlib", "html", "itertools", "math", "operator", "os", "pathlib", "re", "signal", "sqlite3", "sys", "textwrap", "typing", "unicodedata"}


def syntax_is_that_of_3_9(package):
    """And nothing is imported but modules that Python has itself."""
    names = set()
    for source in sources(package):
        tree = ast.parse(source.read_text(encoding="utf-8"), str(source), feature_version=(3, 9))
        for node in ast.walk(tree):
            if isinstance(node, ast.Match if hasattr(ast, "Match") else ()):
                return False
            names |= {alias.name.split(".")[0] for alias in node.names} if isinstance(node, ast.Import) else set()
            names |= {node.module.split(".")[0]} if isinstance(node, ast.ImportFrom) and not node.level else set()
    return len(sources(package)) >= 5 and names <= OWN


def words_are_the_tables(package):
    made = subprocess.run([sys.executable, ROOT / "docs" / "refusals.py", "--python"], capture_output=True, check=True).stdout
    refused = package.calls.Refused(7, (3, 4))
    words = refused.text().split("\n")
    said = (words[0], refused.form()) == (f"refused with 7, column 3, row 4: {refused.what}", "(refused 7 (3 4))") and len(words) == 3 and refused.to_do in words[2]
    lines = package.calls.Refused(17, (0, 0), 12), package.calls.Refused(13, (5, 0)), package.calls.Refused(5, (2, 0), net=2)
    places = [(one.where(), one.form()) for one in lines] == [("line 12", "(refused 17 (12))"), ("5 missing", "(refused 13 (5))"), ("the second of the two, row 2", "(refused 5 (2))")]
    return (package.folder / "kodarfi" / "words.py").read_bytes() == made and said and places


def version_is_the_projects(package):
    version = (ROOT / "VERSION").read_text().strip()
    library = __import__("kodarfi.library", fromlist=["NAME"])
    toml = (package.folder / "pyproject.toml").read_text()
    return package.calls.__version__ == version and f'version = "{version}"' in toml and f"libkodarfi.so.{version.split('.')[0]}" == library.NAME


def example_of_the_documentation_runs(package):
    """The lines at the head of the package, as they stand there; pydoc shows them."""
    head = package.calls.__doc__
    code = "\n".join(line[4:] for line in head.split("\n") if line.startswith("    "))
    status, out, err = package.python("-c", code)
    pydoc = package.python("-m", "pydoc", "kodarfi")
    shown = all(re.search(rf"\b{name}\b", pydoc[1].decode()) for name in package.calls.__all__)
    return (status, out, err) == (0, b"Entry(value=3, limit=1)\nEntry(value=3, limit=1)\n", b"") and pydoc[0] == 0 and shown


USE = "import kodarfi\ntry:\n    print(kodarfi.entry(23, 1, 4))\nexcept kodarfi.LibraryMissing as error:\n    print(error)\n"
FOUND = b"Entry(value=1, limit=1)\n"


def library_is_found(package):
    """By the environment, in the checkout, and by the system's loader; where there is none, one line says how to come by one."""
    with tempfile.TemporaryDirectory(dir=open_folder()) as folder:
        root = Path(folder)
        (root / "older.c").write_text("unsigned kodarfi_check(void) { return 0; }\n")
        subprocess.run(["cc", "-shared", "-fPIC", root / "older.c", "-o", root / "older.so"], check=True)
        (root / "no-library").write_text("text\n")
        (root / "installed").mkdir()
        (root / "installed" / "libkodarfi.so.3").symlink_to(SHARED)
        checkout = root / "checkout"
        (checkout / "include").mkdir(parents=True)
        (checkout / "include" / "kodarfi.h").write_text("")
        (checkout / "python").mkdir()
        subprocess.run(["cp", "-r", package.folder / "kodarfi", checkout / "python"], check=True)

        def said(where, **more):
            settings = {name: value for name, value in package.environment(PYTHONPATH=str(where), **more).items() if value}
            status, out, err = package.python("-c", USE, env=settings, cwd=folder)
            return out if (status, err) == (0, b"") else (status, out, err)

        def tells(out, *words):
            return isinstance(out, bytes) and out.count(b"\n") == 1 and all(word in out for word in (b"'make lib'", b"KODARFI_LIBRARY", *words))

        none = said(checkout / "python", KODARFI_LIBRARY="")
        is_installed = Path("/usr/local/lib/libkodarfi.so.3").exists()
        (root / "prefix" / "lib").mkdir(parents=True)
        (root / "prefix" / "lib" / "libkodarfi.so.3").symlink_to(SHARED)
        in_prefix = package.python("-c", f"import sys\nsys.prefix = {str(root / 'prefix')!r}\n{USE}", env=package.environment(PYTHONPATH=str(checkout / "python"), KODARFI_LIBRARY=""), cwd=folder)
        before = in_prefix == (0, FOUND, b"") and (is_installed or tells(none, b"there is no libkodarfi.so.3")) and said(checkout / "python", KODARFI_LIBRARY="", LD_LIBRARY_PATH=str(root / "installed")) == FOUND
        (checkout / "target" / "lib").mkdir(parents=True)
        (checkout / "target" / "lib" / "libkodarfi.so").symlink_to(SHARED)
        return (
            before
            and said(checkout / "python", KODARFI_LIBRARY="") == FOUND
            and said(checkout / "python", KODARFI_LIBRARY="", LD_LIBRARY_PATH="/nowhere") == FOUND
            and said(package.folder, KODARFI_LIBRARY=str(SHARED)) == FOUND
            and tells(said(checkout / "python", KODARFI_LIBRARY="missing.so"), b"missing.so")
            and tells(said(checkout / "python", KODARFI_LIBRARY=str(root / "older.so")), b"older.so", b"kodarfi_check_half")
            and tells(said(checkout / "python", KODARFI_LIBRARY=str(root / "no-library")), b"no-library cannot be loaded")
        )


BY_PIP = ("-m", "pip", "install", "--quiet", "--no-build-isolation", "--no-deps", "--no-index", "--disable-pip-version-check")
BY_SETUPTOOLS = ("-W", "ignore", "-c", "import setuptools; setuptools.setup()", "--quiet", "build")


def missing_for_pip():
    """What pip needs to install the package without the net and is not here: setuptools that reads pyproject.toml, pip, wheel."""
    with warnings.catch_warnings():
        warnings.simplefilter("ignore")
        missing = [name for name in ("setuptools", "pip", "wheel") if not importlib.util.find_spec(name)]
        is_old = "setuptools" not in missing and int(importlib.metadata.version("setuptools").split(".")[0]) < 61
    return ["setuptools", *missing] if is_old else missing


def is_installable():
    return "setuptools" not in missing_for_pip()


def installs_by_pip(package):
    """Into a folder of its own, without the net. Where pip lacks what it needs, setuptools lays the package out as pip would; where that is missing too,
    nothing is tried. Either is said."""
    missing = missing_for_pip()
    if missing and package.folder == SOURCES:
        print(f"package: {missing[0]} is missing here, or too old, and pip install was not tried{', but setuptools alone' if is_installable() else ''}")
    if not is_installable():
        return True
    with tempfile.TemporaryDirectory(dir=open_folder()) as folder:
        source, to = Path(folder) / "python", Path(folder) / "installed"
        subprocess.run(["cp", "-r", package.folder, source], check=True)
        words = (*BY_SETUPTOOLS, "--build-lib", to) if missing else (*BY_PIP, "--target", to, source)
        if package.python(*words, cwd=source)[0] != 0:
            return False
        moved = package.environment(PYTHONPATH=str(to))
        modules = {path.name for path in sources(package)} | {"py.typed"}
        used = package.python("-c", USE + "print(kodarfi.__file__)", env=moved, cwd=folder)
        return used == (0, FOUND + f"{to}/kodarfi/__init__.py\n".encode(), b"") and modules <= {path.name for path in (to / "kodarfi").iterdir()}
