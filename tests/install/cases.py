"""make, make lib, make install and make uninstall, and what is installed: it runs after the copy of the checkout is gone, with the system's PATH alone."""

import re
import shutil
import sys

from common import whole_file
from common.mutated import ROOT, another_user
from install.checkout import NAMES

LISTING = whole_file.LISTING.decode()


def make_builds_the_programs(box):
    """By the kit, and their version is noted; make lib makes archive and shared object, make archive the one alone; make check is the gate."""
    (box.root / "target/bin/batch").unlink()
    shutil.rmtree(box.root / "target/staticlib")
    if box.make("archive")[0] or not (box.root / "target/staticlib/libkodarfi.a").is_file() or (box.root / "target/lib").exists():
        return False
    (box.folder / "calls").unlink()
    if any(box.make(*words)[0] for words in ((), ("lib",), ("check",))):
        return False
    calls = (box.folder / "calls").read_text().splitlines()
    noted = [(box.root / "target/bin" / f"{name}.version").read_text().split("\n")[0] for name in NAMES]
    version = (ROOT / "VERSION").read_text().strip()
    # the library is linked into batch, where that is a program
    built = ["register: run", "convert: run", "kodarfi: lib"]
    return calls == built + ["kodarfi: lib"] and all(line == f"version {version}, commit unknown, kit kit-of-the-tests" for line in noted)


def install_builds_nothing(box):
    """Where all is built; and where a program is missing, it is built."""
    built = box.make("install", f"PREFIX={box.prefix}")[0] == 0 and not (box.folder / "calls").exists()
    (box.root / "target/bin/convert").unlink()
    box.make("install", f"PREFIX={box.prefix}")
    return built and (box.folder / "calls").read_text().startswith("register: run\nconvert: run\n")


def installed_files_can_be_read(box):
    """By everyone, whatever the umask; programs and scripts can be run; the manual pages and the headers are there."""
    if not box.install():
        return False
    tree = box.tree()
    modes = {name: mode & 0o777 for name, (is_link, mode, _) in tree.items() if not is_link}
    runs = {f"bin/{name}" for name in NAMES} | {f"lib/kodarfi/{name}" for name in NAMES}
    expected = runs | {f"share/man/man1/{name}.1" for name in NAMES} | {f"include/{name}.h" for name in ("kodarfi", "kodarfi_net", "kodarfi_text")}
    expected |= {"lib/libkodarfi.a", "lib/pkgconfig/kodarfi.pc", "share/doc/kodarfi/FORMAT.md", "share/doc/kodarfi/CHANGELOG.md", "share/doc/kodarfi/examples/listing.c"}
    return expected <= set(modes) and all(mode & 0o444 == 0o444 for mode in modes.values()) and all(modes[name] == 0o755 for name in runs)


def umask_does_not_matter(box):
    open_to_all = box.install() and box.tree()
    again = box.uninstall() and box.run("sh", "-c", f"umask 077; make -C '{box.root}' install PREFIX='{box.prefix}'")[0] == 0
    return again and box.tree() == open_to_all


def programs_need_no_checkout(box):
    """As another user, from another folder, with neither rt nor the checkout; and nothing is written."""
    if not box.install():
        return False
    shutil.rmtree(box.root)
    before = box.tree()
    examples = box.prefix / "share/doc/kodarfi/examples"
    user = another_user()
    whole = box.installed("register", examples / "whole-file.txt", cwd="/", **user) == (0, LISTING, "")
    refused = box.installed("register", examples / "refused/2-two-spaces.txt", **user) == (1, "(refused 2 (5))\n", "")
    status, out, err = box.installed("register", "--explain", examples / "refused/4-short-row.txt", **user)
    explained = (status, out) == (1, "(refused 4 (3))\n") and "to do" in err and "4" in err
    status, out, _ = box.installed("convert", examples / "whole-file.txt", **user)
    converted = status == 0 and out.startswith("(problem 2)\n") and out.endswith("(end)\n")
    helped = all(box.installed(name, "--help", **user)[1].startswith(f"usage: {name}") for name in NAMES)
    return whole and refused and explained and converted and helped and box.tree() == before


def programs_tell_their_version(box):
    version = (ROOT / "VERSION").read_text().strip()
    (box.root / "target/bin/batch").unlink()
    if box.make()[0] or not box.install():
        return False
    shutil.rmtree(box.root)
    return all(box.installed(name, "--version") == (0, f"{name}: version {version}, commit unknown, kit kit-of-the-tests\n", "") for name in NAMES)


def batch_needs_no_checkout(box):
    if not box.install():
        return False
    shutil.rmtree(box.root)
    nets = box.folder / "nets"
    shutil.copytree(box.prefix / "share/doc/kodarfi/examples/town", nets, ignore=shutil.ignore_patterns("field.txt", "listing.txt", "names.txt"))
    shutil.copy(box.prefix / "share/doc/kodarfi/examples/refused/4-short-row.txt", nets)
    status, out, _ = box.installed("batch", nets, box.folder / "listings")
    return status == 1 and out.endswith("1 accepted, 1 refused, 0 failed\n") and (box.folder / "listings" / "4-short-row.txt").read_text() == "(refused 4 (3))\n"


def program_of_batch_is_built_and_installed(box):
    """Where batch is a program, of C and the library: by make install too, without rt, and with its version."""
    shutil.rmtree(box.root / "programs", ignore_errors=True)
    (box.root / "programs/batch").mkdir(parents=True)
    (box.root / "programs/batch/main.c").write_text('#include "kodarfi_net.h"\nint main(void) { return kodarfi_listing(0, 0, (uint8_t[32768]){0}, &(size_t){0}, (uint64_t[2]){0}); }\n')
    (box.root / "target/bin/batch").unlink(missing_ok=True)
    good = box.install() and box.run(box.prefix / "lib/kodarfi/batch")[0] == 15
    version = (ROOT / "VERSION").read_text().strip()
    return good and (box.prefix / "lib/kodarfi/batch.version").read_text().startswith(f"version {version}, commit unknown, kit ")


def works_through_a_link(box):
    """As where PREFIX/bin is linked from a folder of PATH."""
    if not box.install():
        return False
    (box.folder / "links").mkdir()
    (box.folder / "links" / "register").symlink_to(box.prefix / "bin" / "register")
    return box.run("register", box.prefix / "share/doc/kodarfi/examples/whole-file.txt", path=str(box.folder / "links"))[:2] == (0, LISTING)


def flags(sandbox, prefix):
    """What pkg-config says of the library; where there is no pkg-config, what its file says."""
    path = prefix / "lib" / "pkgconfig"
    if shutil.which("pkg-config", path="/usr/bin:/bin"):
        status, out, err = sandbox.run("pkg-config", "--cflags", "--libs", "kodarfi", environment={"PKG_CONFIG_PATH": str(path), "PKG_CONFIG_LIBDIR": str(path)})
        return out.split() if status == 0 else [err]
    print("there is no pkg-config here: its file is read instead")
    text = (path / "kodarfi.pc").read_text()
    values = dict(re.findall(r"(?m)^(\w+)=(.*)$", text))
    for _ in range(3):
        text = re.sub(r"\$\{(\w+)\}", lambda found: values[found[1]], text)
    return (re.search(r"(?m)^Cflags: (.*)$", text)[1] + " " + re.search(r"(?m)^Libs: (.*)$", text)[1]).split()


def c_program_by_pkg_config(box):
    """examples/listing.c by the installed headers and the shared library, whose name has the version's first number; by the archive too."""
    if not box.install():
        return False
    shutil.rmtree(box.root)
    prefix, examples = box.prefix, box.prefix / "share/doc/kodarfi/examples"
    library = {"LD_LIBRARY_PATH": str(prefix / "lib")}
    shared, static = box.folder / "listing-shared", box.folder / "listing-static"
    words = flags(box, prefix)
    compiled = box.run("cc", examples / "listing.c", *words, "-o", shared)[0] == 0
    compiled = compiled and box.run("cc", examples / "listing.c", *words[:1], prefix / "lib/libkodarfi.a", "-o", static)[0] == 0
    # what is linked is the name with the first number alone
    (prefix / "lib/libkodarfi.so").unlink()
    major = (ROOT / "VERSION").read_text().split(".")[0]
    runs = compiled and box.run(shared, examples / "whole-file.txt", environment=library) == (0, LISTING, "")
    runs = runs and box.run(static, examples / "whole-file.txt") == (0, LISTING, "") and box.run(shared, examples / "refused/4-short-row.txt", environment=library)[0] == 1
    runs = runs and box.run(sys.executable, examples / "listing.py", prefix / f"lib/libkodarfi.so.{major}", examples / "whole-file.txt") == (0, LISTING, "")
    (prefix / f"lib/libkodarfi.so.{major}").unlink()
    return runs and box.run(shared, examples / "whole-file.txt", environment=library)[0] not in (0, 1)


def pkg_config_file_tells_the_version(box):
    text = box.install() and (box.prefix / "lib/pkgconfig/kodarfi.pc").read_text()
    return f"\nVersion: {(ROOT / 'VERSION').read_text()}" in text and text.startswith(f"prefix={box.prefix}\n")


def uninstall_leaves_nothing(box):
    """After one installation or two."""
    for times in (1, 2):
        if not all(box.install() for _ in range(times)) or not box.uninstall() or box.prefix.exists():
            return False
    return True


def uninstall_leaves_what_is_not_its_own(box):
    """A file of somebody's, and a folder that was there and is empty."""
    for folder in ("bin", "share/man/man1"):
        (box.prefix / folder).mkdir(parents=True)
    (box.prefix / "bin" / "own").write_text("own\n")
    before = box.tree()
    return box.install() and box.uninstall() and box.tree() == before


def destdir_is_only_where_files_go(box):
    """A package is made so: what it says is of PREFIX, and a folder that was made for it goes with it."""
    stage = box.folder / "stage"
    words = (f"DESTDIR={stage}", "PREFIX=/opt/kodarfi")
    if not box.install(*words):
        return False
    box.prefix = stage / "opt/kodarfi"
    reported = (box.prefix / "lib/pkgconfig/kodarfi.pc").read_text().startswith("prefix=/opt/kodarfi\n")
    nowhere = all(str(stage).encode() not in contents for _, _, contents in box.tree().values())
    runs = box.installed("register", box.prefix / "share/doc/kodarfi/examples/whole-file.txt")[0] == 0
    return reported and nowhere and runs and box.uninstall(*words) and not stage.exists()


def is_one_line(answer, *words):
    status, out, err = answer
    return status == 2 and out == "" and err.count("\n") == 1 and all(word in err for word in words)


def failure_is_one_line(box):
    """No whole path, no right to write, nothing to remove, a list of what is installed that was tampered with, a file that is missing."""
    script, locked = box.root / "scripts/install", box.folder / "locked"
    box.make(f"target/lib/libkodarfi.so.{(ROOT / 'VERSION').read_text().strip()}")
    locked.mkdir()
    locked.chmod(0o555)
    good = [
        is_one_line(box.run(script, "", "prefix"), "PREFIX is no whole path"),
        is_one_line(box.run(script, "stage", "/prefix"), "DESTDIR is no whole path"),
        is_one_line(box.run(script, "", f"{box.folder}/../x"), "no whole path"),
        is_one_line(box.run(script), "usage"),
        is_one_line(box.run(script, "", locked / "prefix", **another_user()), "cannot be written"),
        is_one_line(box.run(script, "--remove", "", box.prefix), "nothing is installed"),
        box.make("install", "PREFIX=prefix", rt=False)[0] != 0,
    ]
    (box.prefix / "lib/kodarfi").mkdir(parents=True)
    own = box.folder / "own"
    own.write_text("own\n")
    for name in (str(own), f"{box.prefix}/../own", "own"):
        (box.prefix / "lib/kodarfi/files").write_text(name + "\n")
        good.append(is_one_line(box.run(script, "--remove", "", box.prefix), "is damaged") and own.exists())
    shutil.rmtree(box.prefix)
    (box.root / "docs/batch.1").unlink()
    good.append(is_one_line(box.run(script, "", box.prefix), "there is no file docs/batch.1") and not box.prefix.exists())
    return all(good)


def full_disk_can_be_cleared(box):
    """A file may have 16 kilobytes at most: the installation stops half way with one line, and uninstall leaves nothing."""
    script = box.root / "scripts/install"
    box.make(f"target/lib/libkodarfi.so.{(ROOT / 'VERSION').read_text().strip()}")
    answer = box.run("bash", "-c", f"ulimit -f 16; trap '' XFSZ; exec '{script}' '' '{box.prefix}'")
    half_way = (box.prefix / "bin").exists() and not (box.prefix / "lib/libkodarfi.so").exists()
    return is_one_line(answer, "cannot be written") and half_way and box.uninstall() and not box.prefix.exists()


def manual_is_the_help(box):
    """The pages of docs/ are what docs/manual.py makes of --help."""
    for name in NAMES:
        status, out, _ = box.run(sys.executable, box.root / "docs/manual.py", name)
        if status or out != (box.root / "docs" / f"{name}.1").read_text():
            return False
        words = " ".join(re.sub(r"(?m)^\.\S+ ?|\\&", "", out).replace("\\-", "-").split())
        helped = box.run(box.root / name, "--help")[1]
        lines = [re.sub(r"^(usage:)? +", "", line) for line in helped.split("\n")]
        if not all(" ".join(line.split()) in words for line in lines if line != "Exit status:"):
            return False
    return True


def help_is_printed(box):
    """By the scripts beside the programs, with -h as with --help."""
    scripts = ("scripts/install", "python3 docs/manual.py", "python3 docs/refusals.py")
    printed = [[box.run("sh", "-c", f"{script} {word}", cwd=box.root) for word in ("-h", "--help")] for script in scripts]
    return all(short == long and short[0] == 0 and len(short[1]) > 100 and short[2] == "" for short, long in printed)


def lost_output_is_one_line(box):
    """Of the scripts that make documents, where standard output is full or closed."""
    scripts = ("manual.py -h", "manual.py register", "refusals.py -h", "refusals.py --c", "refusals.py --python")
    return all(is_one_line(box.run("sh", "-c", f"python3 docs/{script} {to}", cwd=box.root), script.split()[0]) for script in scripts for to in (">/dev/full", ">&-"))


def manual_tells_the_version(box):
    return all(f'"Kodarfi {(ROOT / "VERSION").read_text().strip()}"' in (box.root / "docs" / f"{name}.1").read_text() for name in NAMES)
