"""The package's commands: python3 -m kodarfi COMMAND."""

import os
import signal
import sys
from typing import Dict, List, Tuple

from . import __version__
from .audit import Faulty
from .commands import COMMANDS, REGISTER, Given, Pictured, Unmade
from .library import LibraryMissing
from .nets import Refused
from .register import NotEntered, RegisterError
from .texts import TEXT_LENGTH, TextError, shown

HELP = """usage: python3 -m kodarfi COMMAND [FILE] ..
       python3 -m kodarfi --help
       python3 -m kodarfi --version

Each command reads FILE, or standard input where FILE is - or is left out, asks the proved
library, and prints what comes out:

{commands}

FIELD has a line for each field line, whole numbers with spaces between them: key, from, to,
difference, weight and perhaps a reading limit; or it is CSV whose first line names these
columns. Equations and files are forms as docs/FORMAT.md has them. common prints
(common n s) and lines (interval i (low high)) in steps of 2^s to a unit, intervals the same
with doubles in units, quality (quality p q), the factor p/q; docs/FIELD-LINES.md explains
field lines and their tolerances. propose takes the finest solution steps that fit, at most
2^S to a unit, 2^10 where S is left out.

For dependent, MAIN is the main net's file, and FIELD has the dependent net's lines, where
main:7 is mark 7 of the main net and a number alone a mark of the net itself; docs/LARGE-NETS.md
says more. NAMES has lines of a mark's number and its name, 0 for the fixed mark, and a line
of the word unit and the unit's name; or it is CSV whose first line is mark,name. Where draw
meets a row that is refused, it still prints the picture, with a status of 1.

REGISTER is a database of SQLite that keeps what was entered: enter makes it where there is none,
and enters a file that the library accepts now, with all its marks, as a net with a number;
--corrects NET says which net it is a correction of. Nothing there is changed or removed.
audit judges every file in it again and names what does not follow (docs/CLERK.md).

Exit status:
  0   made, accepted or entered; an audit found nothing wrong
  1   refused: standard output has one line (refused N (..)), and standard error the words
      (but for check, which has the listing alone, as ./register);
      or no proposal can be made, or a register does not take a file, and standard error says why;
      or an audit found what standard output names
  2   nothing could be judged: a mistake in the call, a file that cannot be read, no library;
      standard error says which
"""


class Failure(Exception):
    """One line, and a status of 2."""


def say(line: str) -> None:
    """One line on standard error, if there is one."""
    try:
        os.write(2, (line + "\n").encode("utf-8", "replace"))
    except OSError:
        pass


def put(text: bytes) -> None:
    """Standard output. A reader that has gone wants no more of it, and that is no fault; a full device or a closed output is."""
    try:
        while text:
            text = text[os.write(1, text) :]
    except BrokenPipeError:
        pass
    except OSError as error:
        raise Failure(f"standard output could not be written: {error.strerror}") from None


def read(name: str, length: int) -> bytes:
    """The first bytes of a file; what follows is read and passed over, so that whoever writes it is not stopped."""
    if name == "-" and sys.stdin is None:
        raise Failure("standard input is closed")
    try:
        with open(0 if name == "-" else name, "rb", closefd=name != "-") as opened:
            text = opened.read(length)
            while opened.read(length):
                pass
            return text
    except OSError as error:
        raise Failure(f"{shown(name)}: {error.strerror}") from None
    except ValueError:
        raise Failure(f"{shown(name)}: no such file") from None


def help_text() -> str:
    width = max(len(f"{name} {command.files}") for name, command in COMMANDS.items())
    return HELP.format(commands="\n".join(f"  {name + ' ' + command.files:<{width}}   {command.gives}" for name, command in COMMANDS.items()))


# Options with a number: what it is called, and its range.
NUMBERED = {"--allowance": ("allowance", 1, 64), "--scale": ("scale", 0, 20), "--corrects": ("net", 1, 999_999_999)}


def number_of(option: str, word: str, usage: str) -> Dict[str, int]:
    """An option's number. One outside its range is the library's to refuse, where there is a call that does."""
    name, low, high = NUMBERED[option]
    is_whole = word.isascii() and word.isdigit() and len(word) < 10
    if not is_whole or (name == "scale" and int(word) > high):
        raise Failure(f"the {name} is a whole number, {low} to {high}, not {shown(word)}; {usage}")
    return {name: int(word)}


def words_of(name: str, words: List[str]) -> Tuple[List[str], Given]:
    """The files that a command is called with, and its options."""
    command = COMMANDS[name]
    usage, files, given = f"usage: python3 -m kodarfi {name} {command.files}", [], Given([])
    rest = list(words)
    while rest:
        word = rest.pop(0)
        if word == "--":
            files += rest
            break
        if word in NUMBERED and word in command.files and rest:
            given = given._replace(**number_of(word, rest.pop(0), usage))
        elif word == "--html" and word in command.files:
            given = given._replace(is_html=True)
        elif word.startswith("-") and word != "-":
            raise Failure(f"there is no option {shown(word)}; {usage}")
        else:
            files.append(word)
    files = files if files or command.least else ["-"]
    if not command.least <= len(files) <= len(command.lengths):
        one = "a register" if command.least else "one file at a time"
        raise Failure(f"{one if len(command.lengths) == 1 else 'two files' if command.least else 'two files at most'}; {usage}")
    if command.lengths[0] == REGISTER and files[0] == "-":
        raise Failure(f"a register is a file, and not standard input; {usage}")
    if files.count("-") > 1:
        raise Failure(f"standard input is one file; {usage}")
    return files, given


def texts_of(name: str, files: List[str]) -> List[bytes]:
    """The bytes of a command's files, as many of each as it needs."""
    if "-" in files and sys.stdin is not None and sys.stdin.isatty():
        say(f"{name}: reading standard input to its end")
    texts = [b"" if length == REGISTER else read(file, length) for file, length in zip(files, COMMANDS[name].lengths)]
    for file, text in zip(files, texts):
        if len(text) > TEXT_LENGTH:
            raise Failure(f"{shown(file)}: more than {TEXT_LENGTH:,} bytes")
    return texts


def run(name: str, words: List[str]) -> int:
    if set(words) & {"-h", "--help"} and "--" not in words:
        put(f"usage: python3 -m kodarfi {name} {COMMANDS[name].files}\n\n{COMMANDS[name].gives}; python3 -m kodarfi --help says more\n".encode())
        return 0
    files, given = words_of(name, words)
    names = " and ".join(map(shown, files))
    texts = texts_of(name, files)
    try:
        put(COMMANDS[name].act(given._replace(files=texts, names=files)))
        return 0
    except TextError as error:
        raise Failure(f"{shown(files[error.file])}: {error}") from None
    except RegisterError as error:
        raise Failure(f"{shown(files[0])}: {error}") from None
    except (Unmade, NotEntered) as error:
        say(f"{name}: {names}: {error}")
    except Faulty as error:
        put(error.text.encode())
        say(f"{name}: {names}: {error}")
    except Pictured as error:
        put(error.picture)
        say(f"{name}: {names}: {error.refused}")
    except Refused as refused:
        put(f"{refused.form()}\n".encode())
        if name != "check":
            say(f"{name}: {names}: {refused}")
    return 1


def main(words: List[str]) -> int:
    signal.signal(signal.SIGINT, signal.SIG_DFL)
    name = words[0] if words else ""
    try:
        if name in COMMANDS:
            return run(name, words[1:])
        if words in (["-h"], ["--help"]):
            put(help_text().encode())
            return 0
        if words == ["--version"]:
            put(f"kodarfi {__version__}\n".encode())
            return 0
        raise Failure(f"{'there is no command ' + shown(name) if words else 'no command'}; usage: python3 -m kodarfi {'|'.join(COMMANDS)} .., or --help")
    except (Failure, LibraryMissing) as error:
        say(f"{name if name in COMMANDS else 'kodarfi'}: {error}")
        return 2


if __name__ == "__main__":
    sys.exit(main(sys.argv[1:]))
