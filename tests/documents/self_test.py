"""Made-up documents, and mutants of them, each of which must be detected by what is said of it, and nothing else."""

import os

LONG = "word " * 41
FILES = {
    "README.md": "# Made up\n\nSee [a day](docs/DAY.md#a-day-of-work), [the way](#made-up), `docs/OFFICE.md` and `docs/GLOSSARY.md`.\n"
    "`./register --explain FILE` explains, `--brief` is short.\n\n"
    "    ./register examples/whole-file.txt     the listing\n    ./register FILE\n    bash .ci/run     the gate\n\n"
    "`tests/adds.py` has 3 lines, and adds at `tests/adds.py:2`. `made.txt` is an example. The net is hung.\nCONTRIBUTING.md is next, and `tests/README.md` and `bench/README.md`.\n",
    "CONTRIBUTING.md": "# To contribute\n\n`sums/specs/Sum.antt` has `sum_of`.\n\n```\npython3 tests/adds.py --all\n```\n\n| a table |\n|---|\n| " + LONG + " |\n\n"
    "    cd crates/sums && rt check     the check\n    rt must-fail sums\n\n    $ sed -i 's/= n/= m/' crates/sums/specs/Sum.antt\n    $ cd crates/sums && rt check\n    error: sum_of fails\n",
    "docs/DAY.md": "# Office\n\n## A day of `work`\n\n    $ ./register examples/made.txt\n    listing of made.txt\n\n    $ ./register examples/refused/2-none.txt\n    listing of 2-none.txt\n\n"
    "A desk takes it, and two hung nets.\n",
    "docs/GLOSSARY.md": '# Glossary\n\n| Term | Meaning |\n|---|---|\n| "desk" | what takes lines |\n| "hung net" | a net below another |\n',
    "CHANGELOG.md": "# What changed\n\n`gone.txt` went.\n",
    "docs/landings/first.md": "See `gone.txt` and [nothing](none.md). " + LONG + "\n",
    "tests/README.md": "    tests/run\n    tests/run adds\n    make lib\n\n`adds.py` adds.\n",
    "bench/README.md": "    bench/run     measures\n    bench/run BEFORE.a AFTER.a     compares\n",
    "bench/run": '#!/bin/sh\n[ "$1" = --quick ] && shift || exit 3\n[ $# -gt 0 ] || { cd crates/sums; exec rt lib; }\ncmp "$1" "$2"\n',
    "target/staticlib/libkodarfi.a": "library\n",
    "Makefile": "lib:\n",
    "tests/install/cases.py": "box.make()\n",
    "tests/registry": "adds | proofs | python3 | - | python3 tests/adds.py | adds\n",
    "tests/adds.py": "def adds():\n    return '--all'\n# end\n",
    "tests/run": "#!/bin/sh\n",
    ".ci/run": "#!/bin/sh\n. tests/parts.sh\n",
    "docs/OFFICE.md": "# Office\n\n    $ ./register none\n    what another test runs\n",
    "tests/package/pages.py": 'PAGES = ("OFFICE.md",)\n',
    "register": '#!/bin/sh\n# --explain --brief\n[ "$1" != --explain ] || shift\n[ -f "$1" ] || exit 2\necho "listing of $(basename "$1")"\ncase $1 in *refused*) exit 1 ;; esac\n',
    "examples/whole-file.txt": "(end)\n",
    "examples/made.txt": "(end)\n",
    "examples/refused/2-none.txt": "x\n",
    "crates/sums/specs/Sum.antt": "-- Sums.\nabbrev pub sum_of : ℕ → ℕ\nsum_of n = n\n",
    "crates.txt": "sums:\n",
    "tools/rt": '#!/bin/sh\n[ "$1" != doc ] || exec echo "$PWD/none"\n[ "$1" != help ] || exec echo "       rt check|lib [NAME]\n  rt must-fail [NAME..]" >&2\n'
    '[ "$1" != must-fail ] || { cd "crates/$2" && exec grep -q "sums:$" ../../crates.txt; }\ngrep -q "= n" specs/Sum.antt || { echo "Sum.antt: error: sum_of fails"; exit 1; }\n',
}

# name: file, what stands there, what stands there then, what must be said
MUTANTS = {
    "a link to no file": ("README.md", "docs/DAY.md#", "docs/DAYS.md#", "there is no docs/DAYS.md#a-day-of-work to link to"),
    "a link to no heading": ("README.md", "#a-day-of-work", "#a-day", "has no heading #a-day"),
    "a link to no heading of its own": ("README.md", "(#made-up)", "(#made)", "README.md has no heading #made"),
    "a link out of the repository": ("README.md", "(#made-up)", "(https://example.org)", "there is no https://example.org to link to"),
    "a heading that is renamed": ("docs/DAY.md", "## A day", "## The day", "has no heading #a-day-of-work"),
    "a page that no page names": ("README.md", "`docs/GLOSSARY.md`", "nothing", "docs/GLOSSARY.md: no way leads to it"),
    "a page that is not there": ("README.md", "CONTRIBUTING.md is", "CONTRIBUTE.md is", "there is no CONTRIBUTE.md"),
    "a file that is not there": ("README.md", "`made.txt`", "`make.txt`", "there is no make.txt"),
    "a script that is not there": ("README.md", "`made.txt`", "`./registers`", "there is no ./registers"),
    "a definition that is not there": ("CONTRIBUTING.md", "`sum_of`", "`sum_up`", "no source has sum_up"),
    "a path that is not there": ("CONTRIBUTING.md", "sums/specs/Sum.antt", "sums/specs/Sums.antt", "there is no sums/specs/Sums.antt"),
    "a line past the end": ("README.md", "adds.py:2", "adds.py:4", "tests/adds.py has [3] lines, and not 4"),
    "another number of lines": ("README.md", "has 3 lines", "has 4 lines", "tests/adds.py has [3] lines, and not 4"),
    "an option that the command has not": ("README.md", "--explain FILE", "--explains FILE", "there is no option --explains"),
    "an option that nothing has": ("README.md", "`--brief`", "`--briefly`", "there is no option --briefly"),
    "an option of another command": ("CONTRIBUTING.md", "adds.py --all", "adds.py --brief", "there is no option --brief"),
    "a part that the registry has not": ("tests/README.md", "tests/run adds", "tests/run added", "tests/run knows no added"),
    "a target that Makefile has not": ("tests/README.md", "make lib", "make library", "make knows no library"),
    "a command that fails": ("README.md", "examples/whole-file.txt  ", "examples/whole.txt  ", "has status 2"),
    "a command that is refused": ("README.md", "    ./register FILE", "    ./register --explain examples/refused/../none", "has status 2"),
    "a file that is no longer refused": ("register", "*refused*", "*none-at-all*", "2-none.txt' has status 0"),
    "a word without an example": ("README.md", "    ./register FILE", "    ./register WHAT", "there is no example for WHAT"),
    "something else that is printed": ("docs/DAY.md", "    listing of made.txt", "    listing of file.txt", "prints something else"),
    "a script that fails": ("tests/adds.py", "# end", "raise SystemExit(3)", "'python3 tests/adds.py --all' has status 3"),
    "a page that is run no more": ("tests/package/pages.py", '"OFFICE.md"', '"CLERK.md"', "tests/package/pages.py no longer names what runs './register none'"),
    "a gate without the tests": (".ci/run", "tests/parts.sh", "tests/others.sh", ".ci/run no longer names what runs 'tests/run'"),
    "a crate that is not there": ("CONTRIBUTING.md", "    cd crates/sums && rt check  ", "    cd crates/sum && rt check  ", "'cd crates/sum && rt check' has status 1"),
    "a crate without edits": ("CONTRIBUTING.md", "rt must-fail sums", "rt must-fail sum", "'rt must-fail sum' has status "),
    "what the kit does not know": ("CONTRIBUTING.md", "rt must-fail sums", "rt must-pass sums", "rt knows no must-pass"),
    "a command of the kit behind another": ("CONTRIBUTING.md", "    cd crates/sums && rt check  ", "    cd crates/sums && rt prove  ", "rt knows no prove"),
    "an edit that the prover takes": ("CONTRIBUTING.md", "s/= n/= m/", "s/= q/= m/", "'cd crates/sums && rt check' has status 0"),
    "what the prover does not say": ("CONTRIBUTING.md", "error: sum_of fails", "error: sum_of holds", "'cd crates/sums && rt check' prints something else"),
    "a measurement that fails": ("bench/run", 'cmp "$1"', 'cmp "$1.o"', "'bench/run --quick target/staticlib/libkodarfi.a target/staticlib/libkodarfi.a' has status 2"),
    "a measurement without its short form": ("bench/run", "--quick", "--short", "'bench/run --quick' has status 3"),
    "a measurement of what is not built": ("target/staticlib/libkodarfi.a", None, None, "'bench/run --quick' has status 1"),
    "a long line": ("docs/DAY.md", "A desk", LONG + "a desk", "the line has"),
    "a long line of what changed": ("CHANGELOG.md", "went.", "went. " + LONG, "CHANGELOG.md:3: the line has"),
    "a line too long for the first page": ("README.md", "CONTRIBUTING.md is next", "CONTRIBUTING.md is next " + LONG[:110], "the line has"),
    "a first page too long": ("README.md", "# Made up\n", "# Made up\n" + "\n" * 140, "151 lines, and at most 150"),
    "a term that no page uses": ("docs/DAY.md", "hung nets", "other nets", "no other page uses 'hung net'"),
    "no glossary": ("docs/GLOSSARY.md", None, None, "there is no docs/GLOSSARY.md"),
}


def begin(folder):
    """A stand-in for the kit is found before the kit itself."""
    os.environ["PATH"] = f"{folder}/tools:{os.environ['PATH']}"
    return ()
