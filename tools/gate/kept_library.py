"""Where the libraries stand that were made of these sources: the proved one in the checkout, unproved ones in
the user's cache folder."""
import os
import pathlib

import builds
import crates
import kit_build
import library_build
import module_parts
from kit_build import Unknown
from library_build import CRATE
from work import Work, remove

ROOT = pathlib.Path(__file__).resolve().parents[2]
PROVED = ROOT / "crates" / CRATE / "out" / "library"
LACKING = PROVED / "lacking.txt"
# How many unproved ones are kept.
KEPT = 4


def names_below() -> list[str]:
    """The crates that the library stands on, lowest first, and its own."""
    return crates.below(crates.read_uses(ROOT), [CRATE])


def is_settled() -> bool:
    """Whether the proved library of these sources was made, or can't be."""
    names = names_below()
    is_made = library_build.is_whole(PROVED) and builds.is_fresh(PROVED / library_build.ARCHIVE, names)
    return is_made or builds.is_fresh(LACKING, names)


def note_lacking(why: str, since: int) -> None:
    """Keeps why there is no library, as old as the sources, so that a proof isn't made again for it."""
    remove(PROVED)
    PROVED.mkdir(parents=True)
    LACKING.write_text(f"{why}\n", encoding="utf-8")
    os.utime(LACKING, ns=(since, since))


def proved() -> pathlib.Path:
    """The folder of the proved library of these sources."""
    if not is_settled():
        raise Unknown("there is no proved library of these sources: ./dnlab prove makes it"
                      " (--unproved makes one without a proof)")
    if LACKING.is_file():
        raise Unknown(f"./dnlab prove could make no library: {LACKING.read_text(encoding='utf-8').strip()}")
    return PROVED


def unproved(work: Work, kit: pathlib.Path) -> pathlib.Path:
    """The folder of the library of the sources as they stand, without a proof; made, where it isn't there."""
    def make(copy: pathlib.Path, room: pathlib.Path, build: pathlib.Path) -> None:
        library_build.checked(work, kit, copy, room)
        library_build.keep(room, build)

    return builds.made(work, CRATE, "library", [kit_build, library_build, module_parts], KEPT,
                       library_build.is_whole, make)
