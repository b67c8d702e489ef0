"""Builds without a proof, which are kept in the user's cache folder by a checksum of what they were made
from."""
import hashlib
import os
import pathlib
import shutil
import tempfile
from types import ModuleType
from typing import Callable, Optional, Sequence

import crates
import rt_ci
import stamp
from work import Work, remove

ROOT = pathlib.Path(__file__).resolve().parents[2]


def kit_folder() -> pathlib.Path:
    """The kit that `rt` on the PATH is of."""
    found = shutil.which("rt")
    if found is None:
        raise FileNotFoundError(
            "rt, the command of the Rattle kit, is not on the PATH (README.md names the kit)")
    return pathlib.Path(found).resolve().parents[1]


def is_fresh(made: pathlib.Path, names: Sequence[str]) -> bool:
    """Whether a file is there, and nothing of these crates that a proof reads is newer."""
    if not made.is_file():
        return False
    since = made.stat().st_mtime_ns
    parts = [ROOT / "crates" / name / part for name in names for part in crates.PARTS]
    found = [ROOT / "crates.txt", *parts, *(it for part in parts for it in part.rglob("*"))]
    return all(it.stat().st_mtime_ns <= since for it in found if it.exists())


def key_of(root: pathlib.Path, names: Sequence[str], version: Optional[str],
           makers: Sequence[ModuleType]) -> str:
    """A checksum of the sources of some crates below a folder, of what a program says of itself, of what
    makes it, and of the kit."""
    lines, sum_of = crates.lines_of_crates(root), hashlib.sha256(
        f"{crates.kit_version()}\0{version}".encode())
    for it in makers:
        sum_of.update(pathlib.Path(str(it.__file__)).read_bytes())
    for name in names:
        sum_of.update(f"\0{lines[name]}\0".encode())
        for file in sorted(it for it in (root / "crates" / name / "src").rglob("*") if it.is_file()):
            text = file.read_bytes()
            sum_of.update(f"\0{file.relative_to(root)}\0{len(text)}\0".encode() + text)
    return sum_of.hexdigest()[:32]


def forget(room: pathlib.Path, beside: pathlib.Path, kept: int) -> None:
    """Removes the least recently used builds, except for a few and one more, and what a killed call left."""
    for it in room.glob("making-*"):
        remove(it)
    found = sorted((it for it in room.iterdir() if it.is_dir() and it != beside),
                   key=lambda it: -it.stat().st_mtime)
    for it in found[kept - 1:]:
        remove(it)


def made(work: Work, crate: str, what: str, makers: Sequence[ModuleType], kept: int,
         is_whole: Callable[[pathlib.Path], bool],
         make: Callable[[pathlib.Path, pathlib.Path, pathlib.Path], None]) -> pathlib.Path:
    """The folder of a build of a crate's sources as they stand, one of some that are kept; made, where it
    isn't there, by `make` of a copy of the sources, in a room, into a folder."""
    names = crates.below(crates.read_uses(ROOT), [crate])
    version, room = stamp.version_of(ROOT, names, is_proved=False, crate=crate), crates.cache_folder() / what
    room.mkdir(parents=True, exist_ok=True)
    build = room / key_of(ROOT, names, version, makers)
    if not is_whole(build):
        (room / "lock").touch(0o600)
        work.lock(room / "lock", "waiting for another checked build to be made")
    if not is_whole(build):
        forget(room, build, kept)
        work.told.tell(f"making the {what} build, once for these sources: the kit reads them")
        own = pathlib.Path(tempfile.mkdtemp(prefix="making-", dir=room))
        try:
            rt_ci.copy_crates(ROOT, names, own / "copy")
            # What was edited since is in the copy.
            build = room / key_of(own / "copy", names, version, makers)
            stamp.put(own / "copy", version, crate)
            make(own / "copy", own, build)
        finally:
            remove(own)
    os.utime(build)
    return build
