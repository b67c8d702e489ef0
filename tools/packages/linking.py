"""Makes the programs of a release: a byte-for-byte copy of the proof's, and one that is linked from the
proved object without shared libraries."""
import pathlib
import re
import shlex
import shutil
import subprocess

import archives
from archives import Lacking
from components import sha256
from builds import kit_folder

ROOT = pathlib.Path(__file__).resolve().parents[2]
OUT = ROOT / "crates" / "dnlab" / "out"
OBJECT, LIBRARY = OUT / "dnlab.o", ROOT / "crates" / "dnlab_c" / "out" / "library" / "libdnlab_c.a"
ARCHIVES = ("libos_c.a", "liblibc_c.a")
# Position-independent, so that the system can place it anywhere, and with no segment that is writable and
# executable.
STATIC = ["cc", "-static-pie", "-Wl,--gc-sections", "-Wl,--build-id=sha1", "-Wl,-z,relro,-z,now", "-s"]
RELINK = """To link the program with another C library, run this in this folder:

    {command}

dnlab.o is the object that was proved, byte for byte; BUILD.txt has its checksum.
libos_c.a and liblibc_c.a are the C archives of the Rattle kit.
"""


def kit_identity() -> str:
    """Returns the kit's one-line identity."""
    return archives.run(["rt", "version"], 0).strip()


def proved_sums() -> dict[str, str]:
    """Returns the last lines of the proof, and the checksums of the object and the archive that it left."""
    if not OBJECT.is_file() or not LIBRARY.is_file():
        raise Lacking(f"{OBJECT} or {LIBRARY} is missing: run ./dnlab prove")
    proof = (OUT / "proof.txt").read_text(encoding="utf-8").strip().replace("\n", "; ")
    return {"last lines of the proof": proof, "sha256 of dnlab.o": sha256(OBJECT),
            "sha256 of libdnlab_c.a": sha256(LIBRARY)}


def needs(program: pathlib.Path) -> str:
    """Returns the requirement of the program: `nothing`, or the oldest C library that it runs with, like
    `glibc 2.34`."""
    text = program.read_bytes()
    found = {tuple(map(int, it.split(b"."))) for it in re.findall(rb"GLIBC_([0-9.]+)\0", text)}
    is_static = b"/ld-linux-x86-64.so.2" not in text
    return "nothing" if is_static or not found else "glibc " + ".".join(map(str, max(found)))


def _first_line(*words: str) -> str:
    return archives.run(words, 0).splitlines()[0]


def tools() -> dict[str, str]:
    """Returns the compiler and the linker of the program, those that link the library and the static program,
    and their C library."""
    done = subprocess.run(["getconf", "GNU_LIBC_VERSION"], stdin=subprocess.DEVNULL, capture_output=True,
                          text=True, check=False)
    return {"kit": kit_identity(),
            "compiler of the program": _first_line(str(kit_folder() / "toolchain" / "bin" / "clang"),
                                                   "--version"),
            "linker of the program": _first_line(str(kit_folder() / "toolchain" / "bin" / "ld.lld"),
                                                 "--version"),
            "linker of the library and the static program": f"{_first_line('cc', '--version')}; "
                                                            f"{_first_line('ld', '--version')}",
            "C library that these were linked with": done.stdout.strip() or "unknown"}


def _static_command(program: str, folder: str) -> list[str]:
    return [*STATIC, "-o", program, *(f"{folder}{it}" for it in ("dnlab.o", *ARCHIVES))]


def put_relinkable(folder: pathlib.Path) -> None:
    """Writes everything that is needed to relink the program into a folder, as the licence of the C library
    requires."""
    folder.mkdir(parents=True)
    shutil.copy(OBJECT, folder / "dnlab.o")
    for name in ARCHIVES:
        shutil.copy(kit_folder() / "c" / name, folder)
    (folder / "README.txt").write_text(RELINK.format(command=shlex.join(_static_command("dnlab", ""))),
                                       encoding="utf-8")


def link_static(to: pathlib.Path) -> None:
    """Links the program from the proved object, without shared libraries."""
    room = to.with_name(f"{to.name}-parts")
    put_relinkable(room)
    archives.run(_static_command(str(to), f"{room}/"), 0)
