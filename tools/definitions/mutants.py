"""Changes of definitions: the lists of them, how one is made in a text, and copies of crates in which they
are tried."""
import os
import pathlib
import re
import shutil
import subprocess

HERE = pathlib.Path(__file__).resolve().parent
ROOT = HERE.parents[1]
MODEL, LAWS = ROOT / "crates/emu_model", ROOT / "crates/emu_laws"
RT = os.environ.get("RT", "rt")
SPECS, PROOFS = "Rattle.emu_model.specs", "Rattle.emu_model.proofs"
PASSED_ON = re.compile(r"^(?:unfoldable )?pub use (\S+)\.\{(.*)\}$", re.M)
PRELUDE = re.compile(r"^use Rattle\.std\.specs\.Prelude\.\{(.*)\}$", re.M)
# The names of the Prelude that a change may need in addition to those that its file imports.
WORDS = {"true", "false", "Some", "None", "nat_lt", "nat_le", "max", "min", "length", "suc", "is_some",
         "is_none"} | {
    "+", "-", "*", "/", "^", "&&", "||", "==", "++", "∷", "[]"}


class Change:
    def __init__(self, file: str, place: str, number: int, edit: str) -> None:
        self.file, self.place = file, place
        self.old, arrow, self.new = edit.partition(" => ")
        if not arrow:
            raise ValueError(f"{file}.{place}: no '=>' in '{edit}'")
        self.name = f"{file}.{place}.{number}"
        # Why it changes nothing that can be computed.
        self.same: str | None = None
        # The cells of a row that identify it.
        self.cells = f"{file}.{place}\t{self.old}\t{self.new}"

    def __str__(self) -> str:
        return f"{self.old} => {self.new}"

    def applied(self, text: str) -> str:
        """Returns the text of the file with this change. Raises ValueError if the change does not apply."""
        start = re.search(rf"^(abbrev pub|unfoldable pub|pub record) {re.escape(self.place)} ", text, re.M)
        if not start:
            raise ValueError(f"{self.name}: no definition {self.place}")
        head, body, tail = text[:start.start()], *text[start.start():].partition("\n\n")[::2]
        pattern = r"(?<!\w)" + r"\s+".join(re.escape(word) for word in self.old.split()) + r"(?!\w)"
        body, times = re.subn(pattern, lambda _: self.new, body)
        if times != 1:
            raise ValueError(f"{self.name}: '{self.old}' stands {times} times in {self.place}")
        return with_imports(f"{head}{body}\n\n{tail}" if tail else head + body, self.new)


def with_imports(text: str, added: str) -> str:
    """Returns a text that also imports the names of the Prelude and of `Types` that what was added needs."""
    taken = PRELUDE.search(text)
    if not taken:
        return text
    words = {word if word.isidentifier() or word == "[]" else f"◌{word}◌"
             for word in re.findall(r"\w+|\[\]|[^\w\s();,\[\]]+", added) if word in WORDS}
    more = sorted(words - set(taken[1].split(", ")))
    lines = [taken[0], *([f"use Rattle.std.specs.Prelude.{{{', '.join(more)}}}"] if more else [])]
    for name, place in passed_on((MODEL / "specs/Types.antt").read_text()).items():
        if name in re.findall(r"\w+", added) and not re.search(rf"^use .*\b{name}\b", text, re.M):
            lines.append(f"use {place}.{{{name}}}")
    return text.replace(taken[0], "\n".join(lines), 1)


def passed_on(text: str) -> dict[str, str]:
    """Returns the names that a module re-exports, each with the module that it imports it from."""
    return {name: place for place, names in PASSED_ON.findall(text) for name in names.split(", ")}


def direct(text: str, module: str, places: dict[str, str]) -> str:
    """Returns a text that imports names of a module from the places instead in which they are defined."""
    def lines(found: re.Match[str]) -> str:
        names = found[1].split(", ")
        others = ", ".join(name for name in names if name not in places)
        return "\n".join([f"use {module}.{{{others}}}"] * bool(others)
                         + [f"use {places[name]}.{{{name}}}" for name in names if name in places])
    return re.sub(rf"^use {re.escape(module)}\.\{{(.*)\}}$", lines, text, flags=re.M)


def changes_of(path: pathlib.Path) -> list[Change]:
    """Returns the changes that a file of changes.d lists."""
    made: list[Change] = []
    place, number = "", 0
    for line in path.read_text().splitlines():
        words = line.strip()
        if not words or words.startswith("#"):
            continue
        if not line[0].isspace():
            place, number = words, 0
        elif not place or (words.startswith("same: ") and not number):
            raise ValueError(f"{path.name}: nothing above '{words}' that it belongs to")
        elif words.startswith("same: "):
            made[-1].same = words[6:]
        else:
            number += 1
            made.append(Change(path.stem, place, number, words))
    return made


def all_changes() -> list[Change]:
    """Returns all changes. Raises ValueError, with a line for each, if some don't apply."""
    made, faults = [], []
    for path in sorted((HERE / "changes.d").glob("*.txt")):
        text = (MODEL / "specs" / f"{path.stem}.antt").read_text()
        for change in changes_of(path):
            try:
                change.applied(text)
            except ValueError as fault:
                faults.append(str(fault))
            made.append(change)
    if faults:
        raise ValueError("\n".join(faults))
    return made


def line_of(crate: str) -> str:
    """Returns the line of crates.txt for a crate."""
    return next(line for line in (ROOT / "crates.txt").read_text().splitlines(keepends=True)
                if line.startswith(f"{crate}:"))


def copy_crates(room: pathlib.Path, *crates: pathlib.Path, without: str = "rlib") -> None:
    """Makes a repository in a folder that has these crates of this one, without their edits and some more
    folders."""
    for crate in crates:
        shutil.copytree(crate, room / "crates" / crate.name,
                        ignore=shutil.ignore_patterns("must-fail", without))
    shutil.copy(ROOT / "HANDLES", room)
    (room / "crates.txt").write_text("".join(line_of(crate.name) for crate in crates))


def check(crate: pathlib.Path) -> tuple[int, str]:
    """Returns the status and the output of `rt check`."""
    done = subprocess.run([RT, "check", "--jobs", "1"], cwd=crate, text=True, errors="replace",
                          stdout=subprocess.PIPE, stderr=subprocess.STDOUT)
    return done.returncode, done.stdout


def check_unchanged(crate: pathlib.Path, what: str) -> None:
    """Exits unless the crate is proved as it stands."""
    status, said = check(crate)
    if status:
        errors = [line for line in said.splitlines() if " error" in line]
        raise SystemExit("\n".join([f"{what} as they stand are not proved:",
                                    *(errors or said.splitlines()[-20:])]))
