"""Finds the program `dnlab`."""
import os
import shutil
import subprocess
import sys
from pathlib import Path
from typing import Optional

from dnlab.errors import ProgramError

# The repository, if this package is in one. tools/install puts the package into PREFIX/share/dnlab/python,
# and the program into PREFIX/libexec/dnlab.
ROOT = Path(__file__).resolve().parent.parent.parent
SCRIPT = ROOT / "dnlab"
# Installed files other than Python's: next to the package, or in PREFIX/share/dnlab if the package is in
# PREFIX/lib/python3/dist-packages.
DATA = ROOT if (ROOT / "hosts").is_dir() else ROOT.parent.parent / "share" / "dnlab"
# A package of pip contains the program.
_CARRIED = Path(__file__).resolve().parent / "bin" / "dnlab"


def is_repository() -> bool:
    """Returns whether this package is in its repository."""
    return SCRIPT.is_file() and (ROOT / "crates").is_dir()


def called(command: str) -> str:
    """Returns a command's name for messages: `dnlab-plot` if installed, `plot` in the repository."""
    return command if is_repository() or command == "dnlab" else f"dnlab-{command}"


def say(command: str, text: object) -> None:
    """Prints a line of a command on standard error, after its name."""
    print(f"{called(command)}: {text}", file=sys.stderr)


def named_program(named: Optional[str] = None) -> Optional[str]:
    """Returns the named program, else that of the environment variable DNLAB, else None. Raises
    `ProgramError` if it is not a program."""
    wanted = named or os.environ.get("DNLAB")
    if not wanted:
        return None
    found = shutil.which(wanted)
    if found is None:
        raise ProgramError(2, f"{wanted} is no program (the environment variable DNLAB names it)")
    if _is_own(found):
        raise ProgramError(2,
                           f"{wanted} starts this package, and is no program (the environment variable "
                           "DNLAB names it)")
    return os.path.abspath(found)


def _is_own(path: str) -> bool:
    """Returns whether this is pip's script `dnlab`, which would start itself."""
    try:
        with open(path, "rb") as file:
            begin = file.read(4096)
    except OSError:
        return False
    return begin.startswith(b"#!") and b"dnlab.cli.program" in begin


def program(named: Optional[str] = None) -> str:
    """Returns the path of the program.

    It is the named one, else that of the environment variable DNLAB. Otherwise, in the repository, it is the
    one that ./dnlab starts: the proved program or a checked build, which is built first if necessary (a proof
    is never started). An installed package uses the program in it or next to it, else `dnlab` on the PATH.
    Raises `ProgramError` with what is missing."""
    given = named_program(named)
    if given and not (is_repository() and os.path.samefile(given, SCRIPT)):
        return given
    if is_repository():
        return _of_repository()
    for place in (_CARRIED, ROOT.parent.parent / "libexec" / "dnlab" / "dnlab",
                  *(Path(one, "dnlab") for one in os.get_exec_path())):
        if place.is_file() and os.access(place, os.X_OK) and not _is_own(str(place)):
            return str(place)
    raise ProgramError(3,
                       "there is no program dnlab, and this package does not contain one: `tools/install` of "
                       "the repository installs both, a wheel of `tools/release` contains it, or set the "
                       "environment variable DNLAB to its path")


def carried() -> Optional[str]:
    """Returns the program that a package of pip contains, if it can be started."""
    return str(_CARRIED) if os.access(_CARRIED, os.X_OK) else None


def _of_repository() -> str:
    """Returns the program that ./dnlab starts, which reports its progress on standard error if it has to
    build one."""
    words = [str(SCRIPT), "program"]
    environment = {name: word for name, word in os.environ.items() if name != "DNLAB"}
    try:
        going = subprocess.Popen(words, stdin=subprocess.DEVNULL, stdout=subprocess.PIPE, text=True,
                                 env=environment)
    except OSError as error:
        raise ProgramError(3, f"{error.filename}: {error.strerror}") from error
    try:
        said, _ = going.communicate()
    except BaseException:
        # Ends it with SIGTERM, so that it can end its own children, which SIGKILL would not allow.
        going.terminate()
        going.wait()
        raise
    if going.returncode:
        raise ProgramError(3, "there is no program, because ./dnlab could not build one")
    return said.rstrip("\n")
