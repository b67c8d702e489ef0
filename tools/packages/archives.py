"""Makes archives of a folder. Their bytes depend only on the files: names are sorted, and there is one date
and no owner."""
import gzip
import io
import os
import pathlib
import shutil
import subprocess
import tarfile
from collections.abc import Mapping, Sequence


class Lacking(Exception):
    """The machine or the tree lacks something. The text is a sentence about it."""


def run(words: Sequence[str | os.PathLike[str]], date: int, folder: pathlib.Path | None = None,
        more: Mapping[str, str] | None = None) -> str:
    """Runs a packaging program, with the date for the files that it writes (seconds since 1970) and more
    environment variables. Returns its output."""
    if shutil.which(words[0]) is None:
        raise Lacking(f"{words[0]} is not there")
    # Debian's packaging needs Debian's own Python, whatever the caller's PATH is.
    path = os.pathsep.join(["/usr/bin", os.environ.get("PATH", os.defpath)])
    names = {**os.environ, "PATH": path, "SOURCE_DATE_EPOCH": str(date), "LC_ALL": "C.UTF-8", "TZ": "UTC",
             "PYTHONDONTWRITEBYTECODE": "1", **(more or {})}
    done = subprocess.run(words, cwd=folder, env=names, stdin=subprocess.DEVNULL, stdout=subprocess.PIPE,
                          stderr=subprocess.STDOUT, text=True, check=False)
    if done.returncode:
        raise Lacking(f"{words[0]} ended with {done.returncode}: {done.stdout.strip()[-2000:]}")
    return done.stdout


def zipped(text: bytes) -> bytes:
    """Returns the bytes compressed with gzip, without a name or a time."""
    out = io.BytesIO()
    with gzip.GzipFile(filename="", mode="wb", compresslevel=9, fileobj=out, mtime=0) as file:
        file.write(text)
    return out.getvalue()


def tar_gz(folder: pathlib.Path, to: pathlib.Path, date: int) -> None:
    """Writes the folder, under its own name, as a tar.gz."""

    def plain(info: tarfile.TarInfo) -> tarfile.TarInfo:
        info.mtime, info.uid, info.gid, info.uname, info.gname = date, 0, 0, "root", "root"
        info.mode = 0o755 if info.isdir() or info.mode & 0o100 else 0o644
        return info

    packed = io.BytesIO()
    with tarfile.open(fileobj=packed, mode="w", format=tarfile.GNU_FORMAT) as tar:
        for path in sorted([folder, *folder.rglob("*")]):
            tar.add(path, str(path.relative_to(folder.parent)), recursive=False, filter=plain)
    to.write_bytes(zipped(packed.getvalue()))


def dated(folder: pathlib.Path, date: int) -> None:
    """Sets the date of each file and folder, and a mode that does not depend on the caller's umask."""
    for path in [folder, *folder.rglob("*")]:
        if not path.is_symlink():
            path.chmod(0o755 if path.is_dir() or path.stat().st_mode & 0o100 else 0o644)
        os.utime(path, (date, date), follow_symlinks=False)
