"""Words of `dnlab` that its program doesn't know: a file's name, since a proved program opens none, `check
--json`, and their help.

    python3 program.py PROGRAM WORDS..    what ./dnlab and the installed dnlab call where there are such words
"""
import json
import os
import stat
import subprocess
import sys
from errno import ENOEXEC
from pathlib import Path
from typing import NamedTuple, NoReturn, Optional, Sequence

if not __package__:
    # Called by the file's name: the package stands two folders above.
    sys.path[0] = str(Path(__file__).resolve().parents[2])

from dnlab import programs  # noqa: E402  (the path is set first)
from dnlab.errors import ProgramError  # noqa: E402
from dnlab.io.scenario import findings  # noqa: E402

# The commands that read a text, and the options that have a value.
READS, VALUED = ("alone", "run", "check"), ("--workers", "--moves", "--format", "--max-steps", "--max-output")
_HELP = ("--help", "-h")
LINUX = " (it needs Linux on x86-64)"
_OF_FILES = """
To read a scenario from a file: dnlab {command} FILE. Without FILE, or if it is
-, dnlab reads standard input.
"""
_OF_JSON = """      --json     Prints what --explain says as a list of JSON objects
"""
_OF_CLONE = """
In a clone also:
  prove      prove the sources and build the proved program (prove --help)
  program    print the path of the program that ./dnlab starts
"""


class Wrong(Exception):
    """Words that don't go together."""


class Unwritten(Exception):
    """Standard output is full or closed."""


class Call(NamedTuple):
    """What is called: the program's own words, the file that it reads, and whether JSON is wanted."""
    words: list[str]
    file: Optional[str]
    is_json: bool


def call_of(words: Sequence[str]) -> Call:
    """Takes what the program doesn't know out of its words; `Wrong` if a second file is named."""
    kept, files, is_json = [*words[:1]], [], False
    before = ""
    for word in words[1:] if words[:1] and words[0] in READS else ():
        if before not in VALUED and word and (word == "-" or word[0] != "-"):
            files.append(word)
        elif word == "--json" and words[0] == "check":
            is_json = True
        else:
            kept.append(word)
        before = word
    if len(files) > 1:
        raise Wrong(f"{words[0]} reads one file, so {files[1]} is one too many")
    return Call(kept if words[:1] and words[0] in READS else [*words],
                None if files in ([], ["-"]) else files[0], is_json)


def open_as_input(file: str) -> None:
    """Makes a file the standard input; `OSError` names it."""
    opened = os.open(file, os.O_RDONLY)
    if stat.S_ISDIR(os.fstat(opened).st_mode):
        raise IsADirectoryError(21, "Is a directory", file)
    os.dup2(opened, 0)
    if opened:
        os.close(opened)


def write_out(text: str) -> None:
    """Writes to standard output, or raises `Unwritten` (`print` raises nothing if it is closed)."""
    left = text.encode()
    try:
        while left:
            left = left[os.write(1, left):]
    except OSError as error:
        raise Unwritten from error


def print_json(program: str, words: Sequence[str]) -> int:
    """Prints what `check --explain` says as JSON; gives its status."""
    more = [] if "--explain" in words else ["--explain"]
    done = subprocess.run([program, *words, *more], stdout=subprocess.PIPE, stderr=subprocess.PIPE,
                          check=False)
    said = done.stderr.decode(errors="replace")
    if done.returncode not in (0, 1, 5):
        sys.stderr.write(said)
        return done.returncode if done.returncode > 0 else 3
    rows = [json.dumps(one._asdict()) for one in findings(said)]
    write_out("[" + "".join(f"{',' if k else ''}\n {row}" for k, row in enumerate(rows))
              + ("\n]\n" if rows else "]\n"))
    return done.returncode


def print_help(program: str, words: Sequence[str]) -> int:
    """Prints the program's help and what belongs to it here; gives the status."""
    done = subprocess.run([program, *words], stdout=subprocess.PIPE, text=True, check=False)
    asked = [word for word in words if word not in (*_HELP, "help")]
    more = _OF_JSON if asked == ["check"] else ""
    if not asked or asked[0] in READS:
        more += _OF_FILES.format(command=asked[0] if asked else "alone")
    if not asked and programs.is_repository():
        more += _OF_CLONE
    write_out(done.stdout + more * (done.returncode == 0))
    return done.returncode


def main(program: str, words: Sequence[str]) -> int:
    """Does what some words ask for; gives the status, unless it becomes the program. In a clone it is the one
    that ./dnlab starts."""
    try:
        if programs.is_repository():
            program = programs.program()
        if words[:1] == ["help"] or any(word in _HELP for word in words):
            return print_help(program, words)
        call = call_of(words)
        if call.file is not None:
            open_as_input(call.file)
        if call.is_json:
            return print_json(program, call.words)
        os.execv(program, ["dnlab", *call.words])
    except Wrong as wrong:
        fault, status = str(wrong), 2
    except ProgramError as failed:
        fault, status = failed.said, failed.status
    except Unwritten:
        # The program's own word.
        sys.stderr.write("write\n")
        return 3
    except OSError as error:
        fault, status = f"{error.filename or program}: {error.strerror}" + LINUX * (error.errno == ENOEXEC), 3
    programs.say("dnlab", fault)
    return status


def start() -> NoReturn:
    """Runs the program with the arguments of this process. This is the script `dnlab` of an installed
    package."""
    try:
        sys.exit(main(programs.carried() or programs.program(), sys.argv[1:]))
    except ProgramError as failed:
        programs.say("dnlab", failed.said)
        sys.exit(failed.status)


if __name__ == "__main__":
    sys.exit(main(sys.argv[1], sys.argv[2:]))
