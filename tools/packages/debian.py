"""Builds Debian packages with dpkg-buildpackage, from debian/ and the files that the proof left."""
import pathlib
import re
import shutil
import subprocess

import archives
from archives import Lacking

# The sources of the packages: those that git tracks, without those that no package needs.
LEFT_OUT = ("crates/", "examples/", "cookbook/", "tools/gate/", "tools/attack/", "tools/beside/",
            "tools/definitions/", "tools/second/")


def _sources(root: pathlib.Path, to: pathlib.Path) -> None:
    """Copies the files that git tracks."""
    listed = archives.run(["git", "-C", str(root), "ls-files", "-z"], 0)
    for name in listed.split("\0"):
        if name and not name.startswith(LEFT_OUT) and (root / name).is_file():
            (to / name).parent.mkdir(parents=True, exist_ok=True)
            shutil.copy(root / name, to / name)


def built_using() -> str:
    """Returns the source packages whose files are linked in, with versions, as the field Built-Using has
    them."""
    found = []
    for package in "libc6-dev", "libgcc-12-dev":
        done = subprocess.run(["dpkg-query", "-W", "-f", "${source:Package} (= ${source:Version})", package],
                              stdin=subprocess.DEVNULL,
                              capture_output=True, text=True, check=False)
        found += [done.stdout] if done.returncode == 0 and done.stdout else []
    return ", ".join(found)


def version_in(root: pathlib.Path) -> str:
    """Returns the version of debian/changelog."""
    found = re.match(r"dnlab \(([^)]+)\)", (root / "debian" / "changelog").read_text(encoding="utf-8"))
    if found is None:
        raise Lacking("debian/changelog does not begin with `dnlab (VERSION)`")
    return found[1]


def packages(root: pathlib.Path, prebuilt: pathlib.Path, room: pathlib.Path, to: pathlib.Path,
             date: int) -> None:
    """Builds the packages in `room` and puts the .deb files into `to`.

    prebuilt  a prefix with the program, the library and BUILD.txt and the bill of materials, which
              debian/rules puts in place
    date      of the commit, in seconds since 1970
    """
    sources = room / "dnlab"
    sources.mkdir(parents=True)
    _sources(root, sources)
    shutil.copytree(prebuilt, sources / "prebuilt", symlinks=True)
    (sources / "prebuilt" / "built-using").write_text(built_using(), encoding="utf-8")
    archives.dated(sources, date)
    archives.run(["dpkg-checkbuilddeps"], date, sources)
    archives.run(["dpkg-buildpackage", "--build=binary", "--no-sign", "--no-pre-clean"], date, sources)
    found = sorted(room.glob("*.deb"))
    if not found:
        raise Lacking("dpkg-buildpackage left no package")
    for it in found:
        if "-dbgsym_" not in it.name:
            shutil.copy(it, to)
