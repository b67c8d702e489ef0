"""Builds the Python package for pip: a wheel with the program, and a source package without it."""
import pathlib
import re
import shutil

import archives
from archives import Lacking

# Debian's own Python, whose packages the messages name.
PYTHON = "/usr/bin/python3"


def check_tag(wheel: pathlib.Path, needs: str) -> None:
    """Raises `Lacking` if the program needs a newer C library than the wheel's tag allows. `needs` is `glibc
    2.34` or similar, or `nothing`."""
    tag = re.search(r"manylinux_(\d+)_(\d+)_x86_64", wheel.name)
    if tag is None:
        raise Lacking(f"{wheel.name} has no tag for Linux on x86-64")
    needed = tuple(map(int, re.findall(r"\d+", needs)))
    if needed > (int(tag[1]), int(tag[2])):
        raise Lacking(
            f"the program needs {needs}, and the tag of {wheel.name} promises less (python/setup.py)")


def packages(root: pathlib.Path, program: pathlib.Path, library: pathlib.Path, papers: pathlib.Path,
             room: pathlib.Path, to: pathlib.Path, needs: str, date: int) -> None:
    """Puts the wheel and the source package into the folder `to`.

    program, library  are carried by the wheel
    papers            a folder with BUILD.txt and the bill of materials, which are carried too
    needs             the C library that the program needs
    date              of the commit, in seconds since 1970
    """
    shutil.copytree(root / "python", room,
                    ignore=shutil.ignore_patterns("__pycache__", ".*", "examples", "build", "*.egg-info",
                                                  "bin"))
    for name in "LICENSE-MIT", "LICENSE-APACHE":
        shutil.copy(root / name, room)
    archives.dated(room, date)
    archives.run([PYTHON, "-m", "build", "--no-isolation", "--sdist", "--outdir", str(room / "sources"), "."],
                 date, room)
    sdist, = (room / "sources").glob("*.tar.gz")
    unpacked = room / "unpacked"
    shutil.unpack_archive(sdist, unpacked)
    top, = unpacked.iterdir()
    shutil.rmtree(top / "dnlab.egg-info", ignore_errors=True)
    # setuptools writes the caller's names and times into its archive.
    archives.tar_gz(top, to / sdist.name, date)
    carried = top / "dnlab" / "bin"
    carried.mkdir()
    shutil.copy(program, carried / "dnlab")
    # python/dnlab/library.py looks for it under this name.
    shutil.copy(library, carried / "libdnlab.so.1")
    for paper in papers.iterdir():
        shutil.copy(paper, carried)
    archives.dated(top, date)
    archives.run([PYTHON, "-m", "build", "--no-isolation", "--wheel", "--outdir", str(to), "."], date, top)
    wheel, = to.glob("*.whl")
    check_tag(wheel, needs)
