"""Compares the files of a release with the proof in a checkout."""
import pathlib
import sys
import zipfile
from collections.abc import Sequence

import archives
import linking
from archives import Lacking
from components import sha256


def _unpacked(file: pathlib.Path, room: pathlib.Path) -> None:
    """Unpacks a Debian package, a wheel or an archive into a folder."""
    if file.name.endswith(".deb"):
        archives.run(["dpkg-deb", "-x", file, room], 0)
    elif file.name.endswith(".whl"):
        with zipfile.ZipFile(file) as packed:
            packed.extractall(room)
    else:
        archives.run(["tar", "-xf", file, "-C", room], 0)


def _expected(root: pathlib.Path, room: pathlib.Path) -> dict[str, list[str]]:
    """Returns the checksums that each kind of file may have, by its name. Builds the libraries and the static
    program again for this."""
    archives.run([root / "tools" / "library", room / "library"], 0)
    linking.link_static(room / "static")
    library = room / "library" / "lib"
    return {"dnlab": [sha256(linking.OUT / "dnlab"), sha256(room / "static")],
            "dnlab.o": [sha256(linking.OBJECT)],
            "libdnlab.a": [sha256(library / "libdnlab.a")],
            "libdnlab.so.1": [sha256(library / "libdnlab.so.1")]}


def _is_of_proof(path: pathlib.Path) -> bool:
    """Returns true if a file with a name of the proof is a program or a library, and not a folder or a
    completion."""
    return path.is_file() and not path.is_symlink() and path.read_bytes()[:4] in (b"\x7fELF", b"!<ar")


def verify(root: pathlib.Path, files: Sequence[pathlib.Path], room: pathlib.Path) -> int:
    """Prints a line for each program, object and library in some files. Returns 0 if all are those of the
    proof, otherwise 1."""
    if not (linking.OUT / "dnlab").is_file():
        raise Lacking("there is no proof in this checkout: run ./dnlab prove")
    linking.proved_sums()
    expected, status = _expected(root, room), 0
    for number, file in enumerate(files):
        folder = room / str(number)
        folder.mkdir()
        _unpacked(file, folder)
        found = [it for it in sorted(folder.rglob("*")) if it.name in expected and _is_of_proof(it)]
        for path in found:
            is_same = sha256(path) in expected[path.name]
            print(f"{file.name}: {path.relative_to(folder)}: "
                  f"{'the proved one' if is_same else 'NOT the proved one'}")
            status = status or int(not is_same)
        if not found:
            print(f"release: {file}: it has no program, object or library", file=sys.stderr)
            status = 1
    return status
