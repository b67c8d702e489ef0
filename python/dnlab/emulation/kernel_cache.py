"""The guest's kernel, which is built once for these sources and kept in the user's cache folder.

The folder is $XDG_CACHE_HOME/dnlab/hosts (~/.cache/dnlab/hosts), else one below TMPDIR. A kernel's own folder
has the checksum of all that went into it as its name.
"""
import fcntl
import hashlib
import json
import os
import shutil
import subprocess
import tempfile
from contextlib import contextmanager, suppress
from pathlib import Path
from typing import Iterator, NamedTuple

from dnlab.errors import ResourceError
from dnlab.io.files import whole_file
from dnlab.processes import subprocesses
from dnlab.processes.progress import Progress
from dnlab.processes.subprocesses import TempDir
from dnlab.programs import DATA, ROOT, is_repository, say

BUILD = DATA / "hosts" / "kernel" / "build"
FILES = ("linux", "start", "link")
# What these were built from, which a release needs.
_RECORD = "SOURCE.txt"
# How many kernels the cache keeps: each has 13 MB.
_KEPT = 4
# What a kernel is made from; of the folders below `crates` their `src` counts.
_SOURCES = ("hosts/kernel", "hosts/link", "hosts/start", "library", "crates.txt",
            "crates/dnlab_c/out/library", "tools/library")
_INSTALLED = DATA.parent.parent
# Debian has a folder of libraries for each kind of machine.
_ARCHIVES = (_INSTALLED / "lib" / "libdnlab.a", _INSTALLED / "lib" / "x86_64-linux-gnu" / "libdnlab.a")
_OUTSIDE = (*map(str, _ARCHIVES), "/usr/src/linux-source-6.1.tar.xz", "/usr/bin/cc",
            "/usr/bin/ld")


class Kernel(NamedTuple):
    """A built kernel: its folder, its checksum, and whether its libdnlab is proved (None if unknown)."""
    folder: Path
    checksum: str
    is_proved: bool | None

    def file(self, name: str) -> Path:
        """Returns the path of `linux`, `start` or `link`."""
        return self.folder / name


def kernel() -> Kernel:
    """Returns the kernel of these sources, built if necessary. Raises `ResourceError` with what is missing.

    Prints a line on standard error if its libdnlab is not proved."""
    found = _find_kernel()
    if found.is_proved is False:
        say("hosts", "libdnlab is the checked build of the sources, not proved: run ./dnlab prove to build"
              " the proved one")
    return found


def _find_kernel() -> Kernel:
    named = os.environ.get("DNLAB_KERNEL")
    if named:
        folder = Path(named)
        if not _is_whole(folder):
            raise ResourceError(
                f"{folder}, which DNLAB_KERNEL names, has not {', '.join(FILES)}: name a folder that "
                "hosts/kernel/build has filled")
        return Kernel(folder.resolve(), hashlib.sha256((folder / "linux").read_bytes()).hexdigest(), None)
    if not BUILD.is_file():
        raise ResourceError(
            "the sources of the guest's kernel are not here: run tools/hosts of the repository, or name a "
            "folder with a built kernel by the environment variable DNLAB_KERNEL")
    cache = cache_folder()
    sources = _fingerprint()
    note = cache / f"at-{hashlib.sha256(str(ROOT).encode()).hexdigest()[:16]}.json"
    with suppress(OSError, ValueError, KeyError, TypeError):
        found = json.loads(note.read_text())
        kept = Kernel(cache / found["kernel"], found["kernel"], found["proved"])
        if found["sources"] == sources and _is_whole(kept.folder):
            return kept
    made = _make_kernel(cache)
    with whole_file(note) as file:
        found = {"sources": sources, "kernel": made.checksum, "proved": made.is_proved}
        file.write(json.dumps(found).encode())
    return made


def _is_whole(folder: Path) -> bool:
    return all(os.access(folder / name, os.X_OK) for name in FILES)


def cache_folder() -> Path:
    """Returns the folder for kernels. Prints a line on standard error if it is not the usual one."""
    named = os.environ.get("XDG_CACHE_HOME", "")
    base = Path(named) if named.startswith("/") else Path(os.environ.get("HOME") or "/nonexistent") / ".cache"
    with suppress(OSError):
        return _writable(base / "dnlab" / "hosts")
    try:
        found = _writable(Path(tempfile.gettempdir()) / f"dnlab-hosts-{os.getuid()}")
    except OSError as fault:
        raise ResourceError(f"{fault.filename}: {fault.strerror}: the kernel needs a folder; name one by"
                      " XDG_CACHE_HOME") from None
    say("hosts", f"{base} cannot be written, so the kernel is kept in {found}")
    return found


def _writable(folder: Path) -> Path:
    folder.mkdir(parents=True, exist_ok=True, mode=0o700)
    if folder.stat().st_uid != os.getuid():
        raise PermissionError(1, "the folder belongs to another user", str(folder))
    with tempfile.TemporaryFile(dir=folder):
        return folder


def _fingerprint() -> str:
    """Returns a checksum of names, sizes and times of all sources, which takes some milliseconds."""
    places = [*(DATA / name for name in _SOURCES), *sorted(ROOT.glob("crates/*/src")), *map(Path, _OUTSIDE)]
    seen = hashlib.sha256()
    for place in places:
        for file in sorted(place.rglob("*")) if place.is_dir() else [place]:
            with suppress(OSError):
                found = file.stat()
                seen.update(f"{file} {found.st_mtime_ns} {found.st_size}\n".encode())
    return seen.hexdigest()


def _make_kernel(cache: Path) -> Kernel:
    """Returns the kernel of the checksum, built if it is not there."""
    with TempDir(cache) as room:
        prefix, is_proved = library_in(room.path / "prefix")
        done = subprocesses.run([str(BUILD), "--checksum", str(prefix)])
        if done.status:
            raise _missing_packages(done.errors.decode(errors="replace"))
        checksum = done.out.decode().strip()
        folder = cache / checksum
        with _locked(cache / f"{checksum}.lock"):
            if not _is_whole(folder):
                _build(prefix, room.path / "kernel", folder)
        _prune(cache, folder)
    return Kernel(folder, checksum, is_proved)


def _prune(cache: Path, used: Path) -> None:
    """Removes all kernels but the newest and the one in use. A run that has one of them goes on."""
    os.utime(used)
    with suppress(OSError):
        kernels = sorted(filter(_is_whole, cache.iterdir()), key=lambda it: it.stat().st_mtime_ns)
        for old in kernels[:-_KEPT]:
            shutil.rmtree(old, ignore_errors=True)
            (cache / f"{old.name}.lock").unlink(missing_ok=True)


def library_in(prefix: Path) -> tuple[Path, bool | None]:
    """Returns the prefix of libdnlab, and whether it is the proved one.

    In the repository it is made below `prefix`; else it is the installed one, of which that is not known."""
    if not is_repository():
        if not any(place.is_file() for place in _ARCHIVES):
            raise ResourceError(
                f"{_ARCHIVES[0]} is missing: install dnlab with its library for C (Debian: libdnlab-dev)")
        return _INSTALLED, None
    words = [str(ROOT / "tools" / "library"), str(prefix)]
    if subprocesses.run(words).status == 0:
        return prefix, True
    done = subprocesses.run([*words, "--unproved"])
    if done.status:
        raise ResourceError(f"libdnlab cannot be made: {_last(done.errors.decode(errors='replace'))}")
    return prefix, False


def _last(said: str) -> str:
    lines = [line for line in said.splitlines() if line.strip()]
    return lines[-1] if lines else "it gave no cause"


def _missing_packages(said: str) -> ResourceError:
    missing = [line for line in said.splitlines() if line.startswith("missing: ")]
    if missing:
        names = missing[0].removeprefix("missing: ")
        return ResourceError(f"the guest's kernel needs Debian packages; type: apt-get install {names}")
    return ResourceError(f"the guest's kernel cannot be built: {_last(said)}")


def _build(prefix: Path, work: Path, folder: Path) -> None:
    """Builds in a working folder, and renames the result when it is complete."""
    say("hosts", "building the guest's kernel, once for these sources: about five minutes on four cores")
    work.mkdir()
    with tempfile.TemporaryFile() as errors, Progress("hosts", 100, unit="% of the kernel") as progress:
        with subprocesses.child([str(BUILD), str(work), str(prefix)], stdin=subprocess.DEVNULL,
                            stdout=subprocess.PIPE, stderr=errors) as process:
            assert process.stdout is not None
            for line in process.stdout:
                words = line.decode(errors="replace").split()
                if words[:1] == ["progress"] and len(words) > 1 and words[1].isdigit():
                    progress.step(max(0, min(100, int(words[1])) - progress.done))
            status = subprocesses.wait(process)
        errors.seek(0)
        if status:
            raise _missing_packages(errors.read().decode(errors="replace"))
    if not _is_whole(work):
        absent = ", ".join(name for name in FILES if not (work / name).is_file())
        raise ResourceError(f"the guest's kernel cannot be built: {BUILD} left no {absent}")
    partial = folder.with_name(f".{folder.name}.{os.getpid()}")
    partial.mkdir()
    try:
        for name in (*FILES, _RECORD):
            shutil.copy(work / name, partial / name)
        shutil.rmtree(folder, ignore_errors=True)
        partial.rename(folder)
    finally:
        shutil.rmtree(partial, ignore_errors=True)


@contextmanager
def _locked(path: Path) -> Iterator[None]:
    """Holds a lock, so that two calls build once; the second waits."""
    with open(path, "wb") as file:
        try:
            fcntl.flock(file, fcntl.LOCK_EX | fcntl.LOCK_NB)
        except BlockingIOError:
            say("hosts", "another call builds the kernel; waiting for it")
            fcntl.flock(file, fcntl.LOCK_EX)
        yield
