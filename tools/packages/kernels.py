"""Makes the archive of the guest's kernel, with everything that its licence requires: its text, and the exact
source."""
import hashlib
import pathlib
import shutil

import archives

PROGRAMS = ("linux", "start", "link")
RECORD = "SOURCE.txt"
SOURCES = "hosts"
ABOUT = """The kernel in which tools/hosts (dnlab-hosts) runs programs, built: give its folder
by the environment variable DNLAB_KERNEL.

    linux   User Mode Linux {version} with libdnlab in it, GPL-2.0
    start   the guest's first program, MIT or Apache-2.0; linux carries a copy
    link    the link process of the wall clock, MIT or Apache-2.0 (parts: MIT)

The source of linux is
  - Debian's source package linux, version {version}: the file
    linux-source-6.1.tar.xz of its package linux-source-6.1, which apt-get
    install has, and https://snapshot.debian.org keeps
  - patch, configuration, driver and first root: hosts/kernel and hosts/link here;
    hosts/kernel/build applies and compiles them
  - libdnlab: the crates of dnlab, commit {commit}
SOURCE.txt has the checksum (SHA-256) of each.
"""


def recorded(folder: pathlib.Path) -> dict[str, str]:
    """Returns the lines of SOURCE.txt of a built kernel, by name."""
    missing = [name for name in (*PROGRAMS, RECORD) if not (folder / name).is_file()]
    if missing:
        raise archives.Lacking(
            f"{folder} has no {', '.join(missing)}: name a folder that hosts/kernel/build filled")
    lines = (folder / RECORD).read_text(encoding="utf-8").splitlines()
    return dict(line.split(": ", 1) for line in lines if ": " in line)


def changed(root: pathlib.Path, record: dict[str, str]) -> list[str]:
    """Returns the files below `root` that differ from the kernel's sources, or are missing."""
    files = {name: sum for name, sum in record.items() if name.startswith(f"{SOURCES}/")}
    return [name for name, sum in files.items()
            if not (root / name).is_file() or hashlib.sha256((root / name).read_bytes()).hexdigest() != sum]


def package(root: pathlib.Path, kernel: pathlib.Path, room: pathlib.Path, to: pathlib.Path, commit: str,
            date: int) -> None:
    """Writes the archive `to` of a kernel that was built from the sources below `root`; its folder is
    `room`."""
    record = recorded(kernel)
    others = changed(root, record)
    if others or f"{SOURCES}/kernel/linux-6.1.patch" not in record:
        raise archives.Lacking(
            f"{kernel} was built from other sources ({(others or ['no patch'])[0]}): tools/hosts --kernel "
            "prints the folder of the kernel of these")
    room.mkdir()
    for name in (*PROGRAMS, RECORD):
        shutil.copy(kernel / name, room / name)
    for name in (it for it in record if it.startswith(f"{SOURCES}/")):
        (room / name).parent.mkdir(parents=True, exist_ok=True)
        shutil.copy(root / name, room / name)
    for name in ("LICENSE-MIT", "LICENSE-APACHE", "hosts/kernel/LICENSE-GPL-2.0"):
        shutil.copy(root / name, room)
    about = ABOUT.format(version=record.get("linux-source-6.1", "unknown"), commit=commit)
    (room / "README.txt").write_text(about, encoding="utf-8")
    archives.tar_gz(room, to, date)
