"""The script ./batch: how its program is built and called (tests/batch has the program itself)."""

from command_line.sandbox import failed

# A stand-in for rt, called in a crate's folder, that makes an archive whose one call refuses every file with 15, or ./register's program.
RT = r"""#!/bin/sh
[ "$1" = version ] && { echo kit-of-the-tests; exit; }
top=$(cd ../.. && pwd)
echo "${PWD##*/}: $*" >>"$top/calls"
mkdir -p out
cat >out/stand_in.c <<'C'
#include "include/kodarfi.h"
#include <string.h>
uint32_t kodarfi_listing(const uint8_t *file, size_t length, uint8_t *out, size_t *written, uint64_t *places)
{ (void)file; (void)length; memcpy(out, "(refused 15 (0))\n", *written = 17); places[0] = places[1] = 0; return 15; }
C
cc -I"$top" -c out/stand_in.c -o out/stand_in.o && ar rcs out/libkodarfi.a out/stand_in.o
echo "library std: modules loaded=0" >&2
[ ! -e "$top/broken" ] || { echo "logic=not-proved"; exit 1; }
echo "logic=proved functions=1"
echo "logic=proved functions=2" >&2
[ "$1" = lib ] || { printf '#!/bin/sh\necho "(refused 15 (0))"\n' >out/register; chmod 755 out/register; }
"""


def prepared(sandbox):
    sandbox.write("with-rt/rt", RT).chmod(0o755)
    sandbox.write("nets/net", b"")
    return sandbox


def builds_at_first_use(box):
    """Once; again where a source of the program is newer."""
    prepared(box)
    first = box.run("nets", "listings", script="batch")
    again = box.run("nets", "listings", script="batch")
    source = box.root / "programs/batch/main.c"
    source.write_text(source.read_text() + "\n")
    newer = box.run("nets", "listings", script="batch")
    answers = [(status, out) for status, out, _ in (first, again, newer)] == [(1, b"(refused 15 (0)) net\n0 accepted, 1 refused, 0 failed\n")] * 3
    said = b"batch: the program is not built: building it" in first[2] and b"batch: 2 of " in first[2] and b"library" not in first[2] and b"building" not in again[2] and b"main.c is newer than the program" in newer[2]
    return answers and said and box.calls() == ["kodarfi: lib"] * 2


def failed_build_is_2(box):
    """Though there is the library of an earlier building."""
    prepared(box).run("nets", "earlier", script="batch")
    (box.root / "target/bin/batch").unlink()
    box.write("broken", b"")
    status, out, err = box.run("nets", "listings", script="batch")
    return (status, out) == (2, b"") and b"building it failed" in err.splitlines()[-1] and not (box.root / "listings").exists()


def version_says_what_was_built(box):
    prepared(box).run("nets", "listings", script="batch")
    status, out, _ = box.run("--version", script="batch")
    return status == 0 and out.startswith(b"batch: ") and b"kit kit-of-the-tests" in out


def help_stands_anywhere(box):
    """But not where a word belongs to the option before it, or after --."""
    helped = [box.run(*words, script="batch") for words in (("nets", "out", "-h"), ("--fresh", "--help"), ("--jobs", "2", "nets", "--version"))]
    prepared(box)
    others = [box.run(*words, script="batch") for words in (("--jobs", "-h", "nets", "out"), ("--", "-h", "out"))]
    said = all(status == 0 and out and not err for status, out, err in helped)
    return said and all(status == 2 and not out for status, out, _ in others)


def words_are_words_alone(box):
    """Where ./register is not built it is built before, and nothing of that is among the words."""
    prepared(box)
    (box.root / "target/bin/register").unlink(missing_ok=True)
    status, _, err = box.run("--explain-to", "words", "nets", "listings", script="batch")
    words = (box.root / "words/net").read_bytes() if status == 1 else b""
    return status == 1 and words.startswith(b"register: nets/net is refused with 15") and b"building" not in words and b"register: the program is not built" in err


def lost_help_is_2(box):
    lost = [box.shell(f"./batch {word} {to}") for word in ("--help", "-h", "--version") for to in (">/dev/full", ">&-")]
    return all(failed(answer, "could not be written") for answer in lost) and box.shell("./batch --help | exec true; echo ${PIPESTATUS[0]}") == (0, b"0\n", b"")
