"""A folder laid out as the repository is, with the scripts to test, their programs and a stand-in for rt."""

import os
import shutil
import signal
import subprocess
from pathlib import Path

from common.box import Box
from common.mutated import ROOT

BUILT = ROOT / "target" / "bin"
PROGRAMS = ("register", "convert")
PROGRAM = BUILT / "register"
NAMES = ("register", "convert", "batch", "crates.txt", "README.md", "docs", "examples", "scripts", "include", "programs", "crates/register/src", "crates/kodarfi/src")
SOURCE = "crates/register/src/main.rt"
LONG_AGO = 1_000_000_000
PATIENCE = 600

# The stand-in for rt, which is called in a crate's folder: writes down each call, says so where two of them build at once, reads its input, and leaves the
# program in the crate's folder out, where it fails too.
RT = """#!/bin/sh
[ "$1" = version ] && { echo kit-of-the-tests; exit; }
top=$(cd ../.. && pwd)
echo "${PWD##*/}: $*" >>"$top/calls"
echo "$TMPDIR" >"$top/folder"
mkdir "$top/building" || echo "two at once" >>"$top/calls"
cat >/dev/null
sleep 0.2
echo "rt: what the program prints"
echo "rt: integer: begins with what a check kept" >&2
echo "rt: chose --jobs 2 for integer" >&2
echo "fn register::main: proved" >&2
echo "crate integer: modules loaded=1 checked=0" >&2
echo "logic=proved functions=1" >&2
mkdir -p out
[ ! -e "$top/changed-meanwhile" ] || { touch src/main.rt; rm "$top/changed-meanwhile"; }
cp "$top/program" out/register
rmdir "$top/building"
echo "crate listing: modules loaded=1 checked=0" >&2
[ ! -e "$top/broken" ] || { echo "logic=not-proved" >&2; echo "rt: mend this first" >&2; exit 1; }
echo "logic=proved functions=1" >&2
echo "rt: running out/register" >&2
"""


def shadowed_path(folder):
    """The tools of this machine without rt: a folder that has rt is replaced by links to what else is in it."""
    path = []
    for number, entry in enumerate(filter(None, os.environ["PATH"].split(":"))):
        if os.path.exists(os.path.join(entry, "rt")):
            shadow = folder / f"tools-{number}"
            shadow.mkdir()
            for tool in Path(entry).iterdir():
                if tool.name != "rt":
                    (shadow / tool.name).symlink_to(tool.resolve())
            entry = str(shadow)
        path.append(entry)
    return ":".join(path)


class Sandbox(Box):
    """`programs` is the folder with the two programs, or with stand-ins for them."""

    def __init__(self, edits=(), programs=BUILT):
        os.umask(0o022)
        super().__init__(edits, NAMES, "the repository", {f"target/bin/{name}": Path(programs) / name for name in PROGRAMS})
        for path in self.root.rglob("*"):
            os.utime(path, (LONG_AGO, LONG_AGO))
        for name in PROGRAMS:
            os.utime(self.root / "target" / "bin" / name)
        shutil.copy(self.root / "target" / "bin" / "register", self.root / "program")
        self.write("with-rt/rt", RT, 0o755)
        self.without_rt = shadowed_path(self.folder)
        self.with_rt = f"{self.root / 'with-rt'}:{self.without_rt}"

    def put_program(self, script=None, name="register"):
        """The program as it was, or a script in its place."""
        target = self.root / "target" / "bin" / name
        if script is None:
            shutil.copy(self.root / "program", target)
        else:
            target.write_text("#!/bin/sh\n" + script)
        target.chmod(0o755)
        return target

    def calls(self):
        """What rt was asked to do."""
        path = self.root / "calls"
        return path.read_text().splitlines() if path.exists() else []

    def start(self, *arguments, rt=True, script="register", **options):
        """Starts a script of the sandbox; signals are as a shell would have them."""
        command = [str(self.root / script), *map(str, arguments)]
        return self.started(command, rt, options)

    def started(self, command, rt, options):
        settings = {"cwd": self.root, "stdin": subprocess.DEVNULL, "stdout": subprocess.PIPE, "stderr": subprocess.PIPE} | options
        environment = os.environ | {"PATH": self.with_rt if rt else self.without_rt, "LC_ALL": "C"}
        environment.pop("KODARFI_AS_BUILT", None)
        default = lambda: signal.signal(signal.SIGPIPE, signal.SIG_DFL)
        return subprocess.Popen(command, env=environment, preexec_fn=default, start_new_session=True, **settings)

    def run(self, *arguments, text=None, **options):
        """Status, standard output and standard error of a script that reads `text`, or nothing."""
        if text is not None:
            options["stdin"] = subprocess.PIPE
        return ended(self.start(*arguments, **options), text)

    def shell(self, command, rt=True):
        """The same of a command of bash, which may close what it likes."""
        return ended(self.started(["bash", "-c", command], rt, {}))


def ended(process, text=None):
    """Status, standard output and standard error."""
    try:
        out, err = process.communicate(text, timeout=PATIENCE)
    except subprocess.TimeoutExpired:
        os.killpg(process.pid, signal.SIGKILL)
        process.communicate()
        return None, b"", b"no answer"
    return process.returncode, out or b"", err or b""


def failed(answer, *words):
    """Nothing could be judged: status 2, no listing, one line that has the words."""
    status, out, err = answer
    return status == 2 and out == b"" and err.count(b"\n") == 1 and all(word.encode() in err for word in words)
