"""The pieces of ./test but for its proofs: what each is called by, what it needs, and what it takes.

Seconds are of the processor, on an Intel Xeon at 2.50 GHz that other work shared, 2026-11-27. What takes
longest begins first; nothing else follows from them.
"""
from typing import NamedTuple

# Stand in commands for the program's path, for a folder that is taken away at the end, and for all but one
# core.
PROGRAM, ROOM, MOST = "{program}", "{room}", 0
CHECKED = "the checked build"
LIBRARY = "the library"
KERNEL = "the guest's kernel"


class Piece(NamedTuple):
    """A command that ends with the line 'N passed, M failed', or makes something that others wait for."""

    name: str
    about: str
    command: tuple[str, ...]
    seconds: int
    # A condition in the shell, without which the piece isn't run.
    needs: str = ""
    # The pieces that have to end well before.
    after: tuple[str, ...] = ()
    # How many cores it takes.
    cores: int = 1
    # Whether nothing may run beside it, since it takes much memory or looks at the clock.
    is_alone: bool = False


def tried(name: str, about: str, seconds: int, *words: str, needs: str = "", after: tuple[str, ...] = (),
          cores: int = 1, is_alone: bool = False) -> Piece:
    """A piece that is run by the program."""
    return Piece(name, about, (name, *words), seconds, needs, (CHECKED, *after), cores, is_alone)


# ./test calls it first of all, and ends if it fails: rt ci would refuse what it finds too, but only after all
# proofs.
LAID_OUT = Piece("tools/gate/laid_out", "each crate is laid out", ("tools/gate/laid_out",), 16)
SEEN = (
    Piece("tools/gate/map", "the map of docs/explanation/architecture.md has the libraries of crates.txt",
          ("tools/gate/map",), 1),
    Piece("tools/gate/docs",
          "the pages name no file, command, symbol, crate or heading that is not in the tree",
          ("tools/gate/docs",), 2),
    Piece("tools/gate/site", "the site of the pages", ("tools/gate/site",), 4,
          "command -v mkdocs && [ -d /usr/share/mkdocs/themes/material ]"),
    Piece("tools/gate/lint", "what linters say of Python and of scripts of the shell", ("tools/gate/lint",),
          50),
    Piece("tools/gate/texts", "the texts of the crate run_examples are those of examples/",
          ("tools/gate/texts", "--check"), 1),
    Piece("tools/definitions/spell",
          "each example of emu_laws spells the scenario of examples/ that it is named after",
          ("tools/definitions/spell", "--check"), 1),
    Piece("tools/definitions/changes", "each change of a definition stands in it, and each law has one",
          ("tools/definitions/changes", "--check"), 1),
    Piece("tools/gate/plants", "each wrong body can be made in the sources as they are",
          ("tools/gate/plants", "--check"), 1),
)
# What is made without a proof, once for these sources.
MADE = (
    Piece(CHECKED, "the checked build of the sources", ("./dnlab", "program"), 1000),
    Piece(LIBRARY, "the library of the sources",
          ("sh", "-c", f"tools/library {ROOM}/library || tools/library {ROOM}/library --unproved"), 900,
          "command -v cc"),
    Piece(KERNEL, "the kernel in which tools/hosts runs programs",
          ("sh", "-c", "PATH=/usr/bin:$PATH tools/hosts --kernel"), 900,
          "[ -f /usr/src/linux-source-6.1.tar.xz ] && command -v cc && command -v flex && command -v bison "
          "&& command -v bc && /usr/bin/python3 -c 'import yaml'", (LIBRARY,), MOST),
)
MAKERS = {it.name for it in MADE}
GUEST = Piece("hosts/check_guest", "the guest's kernel, its driver and the link process",
              ("sh", "-c",
               "PATH=/usr/bin:$PATH && kernel=$(tools/hosts --kernel) && hosts/check_guest \"$kernel\""), 300,
              MADE[-1].needs,
              (CHECKED, KERNEL), is_alone=True)
PYTHON = "import numpy, pandas, pytest, hypothesis"
# What is tried by a program, in `quick` and in the whole.
BY_PROGRAM = (
    tried("tools/attack/hostile", "hostile use", 8, "--quick"),
    tried("stacks/check", "real protocol stacks over sessions", 3, needs="command -v cc"),
    tried("tools/gate/check_explain", "what --explain says of faults and of refused commands", 3),
    Piece("tools/gate/check_rows", "the rows of --format npy, compared with those made from the text",
          ("sh", "-c", "PATH=/usr/bin:$PATH tools/gate/check_rows"), 15, "/usr/bin/python3 -c 'import numpy'",
          (CHECKED,)),
    tried("cookbook/check", "the cookbook", 46),
    tried("tools/gate/check_install", "the manual pages, completion and the installation", 29,
          needs="command -v man && command -v groff && command -v help2man && command -v zsh",
          after=(LIBRARY,)),
    tried("tools/gate/check_library", "the library from C, Python and Rust", 10, needs="command -v cc",
          after=(LIBRARY,)),
)
# Beside those what only the whole tries.
PACKAGING = "command -v dh && command -v help2man && /usr/bin/python3 -c 'import build, wheel'"
RELEASE = tried("tools/gate/check_release", "what tools/release makes", 60, needs=PACKAGING)
PACKAGES = tried("tools/gate/check_packages", "the Debian packages in clean roots", 120,
                 needs=f"{PACKAGING} && command -v mmdebstrap")
SCRIPT = Piece("tools/gate/check_dnlab",
               "the script ./dnlab, with a kit that only prints what the test chooses",
               ("tools/gate/check_dnlab",), 16)
WORKED = "the worked examples of examples/, alone and by many workers"
# Each number of workers and of moves that the worked examples are run by.
WAYS = tuple(word for workers in (1, 2, 4, 16) for moves in (0, 1, 64)
             for word in ("--run", f"{workers}:{moves}"))


def drawn(minutes: int) -> Piece:
    """Returns random scenarios for at most `minutes` minutes."""
    about = "drawn scenarios beside a second dnlab that was written from the pages of docs/"
    return tried("tools/second/differ", about, 13, "100", "1", "--minutes", str(minutes))


def of_page(seconds: int, about: str, *words: str) -> Piece:
    """The playground's tests, which look at the clock only in the whole."""
    return tried("tools/gate/check_playground", about, seconds, *words,
                 needs="command -v node && command -v wasm-opt", after=(LIBRARY,), is_alone=not words)


def of_python(seconds: int, *words: str) -> Piece:
    """The tests of Python, which take any core."""
    about = "the Python package with its tables, pictures and parts, and the commands of the pages"
    return tried("tools/gate/check_python", about, seconds, *words,
                 needs=f"python3 -c '{PYTHON}' || /usr/bin/python3 -c '{PYTHON}'", after=(KERNEL,),
                 cores=MOST)


LISTS = {
    "seen": SEEN,
    "quick": (
        LAID_OUT,
        *SEEN,
        SCRIPT,
        *MADE,
        GUEST,
        tried("examples/check", WORKED, 9, PROGRAM, "--run", "2:64", "--run", "4:1"),
        drawn(1),
        tried("tools/attack/sessions", "sessions beside alone", 3, "--quick"),
        *BY_PROGRAM,
        of_page(19, "the playground in Node and in Chromium", "--quick"),
        of_python(500, "--quick"),
    ),
    "whole": (
        # as somebody calls it: ./dnlab finds the proved program
        Piece("examples/check", WORKED, ("env", "-u", "DNLAB", "examples/check", "./dnlab", *WAYS), 40),
        SCRIPT,
        MADE[-1],
        GUEST,
        tried("tools/attack/refusals", "allocations refused in turn, and those of worlds in part", 60,
              "--quick", needs="command -v cc", is_alone=True),
        tried("tools/attack/sessions", "sessions beside alone", 10, is_alone=True),
        drawn(2),
        *BY_PROGRAM,
        of_page(100, "the playground in Node, Chromium and Firefox, with reports of millions of lines"),
        RELEASE,
        PACKAGES,
        of_python(700),
    ),
}
