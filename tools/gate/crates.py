"""What the tools of the gate share: the crates of crates.txt, and what the machine has."""
import contextlib
import errno
import functools
import hashlib
import os
import pathlib
import re
import stat
import subprocess
import sys
from typing import Dict, Iterable, List

# What a check of a crate reads.
PARTS = ("src", "specs", "proofs")


def read_uses(root: pathlib.Path) -> Dict[str, List[str]]:
    """The crates of crates.txt, in its order, each with the crates (not the kit's libraries) that its line
    names."""
    lines = lines_of_crates(root)
    return {name: [it for it in re.split(r"[\s,]+", line.partition(":")[2]) if it in lines]
            for name, line in lines.items()}


def lines_of_crates(root: pathlib.Path) -> Dict[str, str]:
    """The lines of crates.txt by the crates that they are of."""
    return lines_in((root / "crates.txt").read_text(encoding="utf-8"))


def lines_in(text: str) -> Dict[str, str]:
    rows = [row.partition("#")[0].strip() for row in text.splitlines()]
    return {re.split(r"[\s:]", row, maxsplit=1)[0]: row for row in rows if row}


def below(uses: Dict[str, List[str]], names: Iterable[str]) -> List[str]:
    """These crates and all that they stand on, lowest first."""
    found: List[str] = []

    def visit(name: str) -> None:
        if name not in found:
            for it in uses[name]:
                visit(it)
            found.append(name)

    for name in names:
        visit(name)
    return found


@functools.lru_cache(maxsize=None)
def cache_folder() -> pathlib.Path:
    """Where what is made of checkouts is kept: `dnlab` in the user's cache folder (XDG base directories);
    where nothing can be written there, a folder of the user's own among the temporary files. Where that can't
    be either, this ends with status 3."""
    named, home = (os.environ.get(name, "") for name in ("XDG_CACHE_HOME", "HOME"))
    base = named if os.path.isabs(named) else f"{home}/.cache" if os.path.isabs(home) else ""
    if base:
        with contextlib.suppress(OSError):
            folder = pathlib.Path(base) / "dnlab"
            folder.mkdir(parents=True, exist_ok=True)
            if os.access(folder, os.W_OK | os.X_OK):
                return folder
    own = pathlib.Path(os.environ.get("TMPDIR") or "/tmp") / f"dnlab-{os.getuid()}"
    try:
        own.mkdir(mode=0o700, exist_ok=True)
        found = own.lstat()
        if not stat.S_ISDIR(found.st_mode) or found.st_uid != os.getuid() or found.st_mode & 0o022:
            raise PermissionError(errno.EACCES, "others can write there", str(own))
    except OSError as fault:
        print(f"dnlab: nothing can be kept, neither in {base or 'a cache folder (HOME is not set)'} nor in "
              f"{fault.filename}: {fault.strerror} (XDG_CACHE_HOME names another place)", file=sys.stderr)
        raise SystemExit(3) from None
    return own


def checkout_name(root: pathlib.Path) -> str:
    """A name for this checkout in the cache folder, by its path."""
    return hashlib.sha256(os.fsencode(root)).hexdigest()[:16]


def processors() -> int:
    """Returns the number of processors that this process may run on."""
    return len(os.sched_getaffinity(0))


def kit_version() -> str:
    """What `rt version` says."""
    said = subprocess.run(["rt", "version"], stdin=subprocess.DEVNULL, stdout=subprocess.PIPE,
                          stderr=subprocess.STDOUT, check=False)
    return said.stdout.decode(errors="replace").strip()
