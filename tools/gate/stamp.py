"""What a program says of itself by --version: its number, the commit of its sources, and by which kit it is
proved.

It stands in one line of the crate `dnlab`, above all others, so that another one costs a proof of seconds;
the library `dnlab_c` has one of its own. Whoever builds one of them writes it into the copy that is built.
The commit is the last one that changed the program's sources: an edit of a page builds nothing again.
"""
import pathlib
import re
import subprocess
from typing import List, Optional, Sequence

import crates

_LINE = re.compile(r'(?m)^(pub const VERSION: &str = ")(\S+) \(.*\)";$')


def _git(root: pathlib.Path, words: Sequence[str], paths: Sequence[str]) -> Optional[str]:
    """What git says of some paths of a checkout; None where there is no git, or no checkout of its own."""
    if not (root / ".git").exists():
        return None
    try:
        done = subprocess.run(["git", *words, "--", *paths], cwd=root, stdin=subprocess.DEVNULL,
                              stdout=subprocess.PIPE, stderr=subprocess.DEVNULL, check=False)
    except OSError:
        return None
    return None if done.returncode else done.stdout.decode(errors="replace").strip()


def file_of(crate: str) -> pathlib.Path:
    """The file of a crate that has the line."""
    return pathlib.Path("crates") / crate / "src" / "version.rt"


def paths_of(names: Sequence[str]) -> List[str]:
    """What a proof of these crates reads, below the repository."""
    return ["crates.txt", *(f"crates/{name}/{part}" for name in names for part in crates.PARTS)]


def commit_of(root: pathlib.Path, names: Sequence[str]) -> str:
    """The last commit that changed the sources of these crates, by its first seven digits; `unknown` where
    git knows none."""
    found = _git(root, ["log", "-1", "--format=%H"], paths_of(names))
    changed = _git(root, ["status", "--porcelain"], paths_of(names))
    if not found or changed is None:
        return "unknown"
    return found[:7] + (" with changes" if changed else "")


def version_of(root: pathlib.Path, names: Sequence[str], is_proved: bool,
               crate: str = "dnlab") -> Optional[str]:
    """What the program of these sources says of itself, or the library; None where the sources have no such
    line."""
    try:
        line = _LINE.search((root / file_of(crate)).read_text(encoding="utf-8"))
    except OSError:
        return None
    if line is None:
        return None
    kit = crates.kit_version().split()
    proof = f"proved by {kit[0]}" if is_proved and kit else "not proved"
    return f"{line[2]} (commit {commit_of(root, names)}, {proof})"


def put(copy: pathlib.Path, version: Optional[str], crate: str = "dnlab") -> None:
    """Writes it into a copy of the sources."""
    if version is not None:
        text = (copy / file_of(crate)).read_text(encoding="utf-8")
        (copy / file_of(crate)).write_text(_LINE.sub(lambda line: f'{line[1]}{version}";', text),
                                           encoding="utf-8")


def is_of(program: pathlib.Path, version: Optional[str]) -> bool:
    """Whether a program says this of itself."""
    if version is None:
        return True
    try:
        done = subprocess.run([program, "--version"], stdin=subprocess.DEVNULL, stdout=subprocess.PIPE,
                              stderr=subprocess.DEVNULL, check=False)
    except OSError:
        return False
    return done.stdout.decode(errors="replace").strip() == f"dnlab {version}"
