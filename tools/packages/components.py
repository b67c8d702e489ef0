"""Lists the third-party parts of the program and the library, with licences and checksums."""
import contextlib
import hashlib
import pathlib
import sys
from typing import NamedTuple

ROOT = pathlib.Path(__file__).resolve().parents[2]
sys.path.insert(0, str(ROOT / "tools" / "gate"))

import kit_build  # noqa: E402  (the path is set first)

# SPDX's value for a licence that nobody has stated.
UNSTATED = "NOASSERTION"
# The files of the C library's package that our programs link in, in addition to the library itself.
LIBC = ("glibc", "LGPL-2.1-or-later",
        "the C library: its start-up files, and the whole library in a program that needs no shared one")
LIBGCC = ("libgcc", "GPL-3.0-or-later WITH GCC-exception-3.1", "start-up files and helpers of the compiler")


class Component(NamedTuple):
    """A part of a program: its name, its licence as SPDX writes it, what it is, and the SHA-256 of its file,
    or ''."""
    name: str
    licence: str
    about: str
    checksum: str = ""


def sha256(path: pathlib.Path) -> str:
    """Returns the SHA-256 of a file, in hexadecimal digits."""
    return hashlib.sha256(path.read_bytes()).hexdigest()


def licence_in(folder: pathlib.Path) -> str:
    """Returns the licence of a crate of the kit by the licence files in its folder."""
    names = {it.name for it in folder.glob("LICENSE*")}
    found = [word
             for name, word in (("LICENSE-MIT", "MIT"), ("LICENSE-APACHE", "Apache-2.0")) if name in names]
    if not found and "LICENSE" in names:
        text = (folder / "LICENSE").read_text(encoding="utf-8", errors="replace")
        found = ["MIT"] if "Permission is hereby granted, free of charge" in text else []
    return " OR ".join(found) or UNSTATED


def kit_crates(kit: pathlib.Path, crate: str) -> list[Component]:
    """Returns the kit's crates that a crate of this repository uses."""
    folder = ROOT / "crates" / crate
    with contextlib.chdir(folder):
        module = kit_build.kit_module(kit)
        own = module.Crate(str(folder), module.root_above(str(folder)), {})
        words = module.kit_sources(name for it in [own, *own.below()] for name in it.of_kit)
    names = sorted({word.partition(":")[0] for word in words if "=" in word})
    return [Component(name, licence_in(kit / "rattle" / name), f"crate of the Rattle kit: {name}")
            for name in names]


def linked(kit: pathlib.Path, crate: str) -> list[Component]:
    """Returns everything that is linked into the program or the library: the kit's crates and C archives, and
    parts of libc."""
    archives = [kit / "c" / "liblibc_c.a", *([kit / "c" / "libos_c.a"] if crate == "dnlab" else [])]
    parts = [Component(it.name, UNSTATED, "C archive of the Rattle kit", sha256(it)) for it in archives]
    return [*kit_crates(kit, crate), *parts, Component(*LIBC), Component(*LIBGCC)]


def unstated(parts: list[Component]) -> list[str]:
    """Returns the names of the parts whose licence nobody has stated."""
    return [it.name for it in parts if it.licence == UNSTATED]
