"""Runs `rt ci`, the kit's own gate, over a copy of some crates.

rt ci works on a whole repository, and sets aside what stands in its folders out/. So it gets one of its own,
that has the sources as they stood at the beginning. What it proves it keeps in the kit's store on this
machine, so that the copy can go.
"""
import contextlib
import pathlib
import re
import shutil
import stat
import tempfile
from collections.abc import Generator, Sequence

import crates
from work import Work, remove

# What rt ci reads beside a crate's sources, to run its program.
RUN = ("args", "stdin", "stdout", "status", "data")
# What rt ci says of a crate; of its tests it says the same behind a colon.
PROVED = re.compile(r"rt: (\w+) (proved$|is kept:)")
NOT_PROVED = re.compile(r"rt: (\w+)(?:: its tests are)? NOT PROVED")
# How rt begins its verdict on an edit that is refused only because a proof names what the edit took away.
# That shows nothing of the contract.
NAMELESS = "refused, as it must be (only because a proof file names"
# What is reported besides the crates that are proved.
TOLD = re.compile(r"rt: (.*(?: NOT PROVED|: trying its must-fail edits| waiting for ).*)")
# How many lines are shown of what was said of a crate.
SHOWN = 20


def copy_crates(root: pathlib.Path, names: Sequence[str], to: pathlib.Path, *more: str) -> None:
    """Copies these crates, in the order in which they stand on each other, to a repository of their own: what
    a proof reads, what their programs are run with, and more of their folders."""
    lines = crates.lines_of_crates(root)
    to.mkdir(parents=True, exist_ok=True)
    for name in names:
        for part in (*crates.PARTS, *RUN, *more):
            one, other = root / "crates" / name / part, to / "crates" / name / part
            if one.is_dir():
                shutil.copytree(one, other)
            elif one.is_file():
                other.parent.mkdir(parents=True, exist_ok=True)
                shutil.copy2(one, other)
    (to / "crates.txt").write_text("".join(f"{lines[it]}\n" for it in names), encoding="utf-8")
    if (root / "HANDLES").is_file():
        shutil.copy2(root / "HANDLES", to)
    # By it rt knows the top of a repository.
    (to / ".git").mkdir()
    # The copy is written to, and taken away, though its original may be read-only.
    for path in to.rglob("*"):
        path.chmod(path.stat().st_mode | stat.S_IWUSR)


class Run:
    """A run of rt ci over a copy of crates: its lines so far, its status, and how many crates are proved, and
    kept from before."""

    def __init__(self, work: Work, copy: pathlib.Path, log: pathlib.Path, **names: str) -> None:
        self.work, self.copy, self.log, self.names = work, copy, log, names
        self.said: list[str] = []
        self.status = self.proved = self.kept = 0

    def lines(self, many: int = 0) -> Generator[str, None, None]:
        """Starts it, and yields its lines as they come. If `many` is not 0, says how many crates of so many
        are proved. Ends it if this is closed before."""
        if shutil.which("rt") is None:
            raise FileNotFoundError("rt, the command of the Rattle kit, is not on the PATH")
        if many:
            self.work.told.tell(f"proved 0 of {many} crates")
        temporary = pathlib.Path(tempfile.mkdtemp(prefix="dnlab-rt-"))
        try:
            # Where root calls, rt runs programs as nobody, who must get to them.
            temporary.chmod(0o711)
            process = self.work.start(["rt", "ci"], self.log, self.copy, TMPDIR=str(temporary), **self.names)
            with contextlib.closing(self.work.lines(process, self.log)) as lines:
                for line in lines:
                    self.said.append(line)
                    if many:
                        self.tell(line, many)
                    yield line
            self.status = process.returncode
        finally:
            remove(temporary)

    def tell(self, line: str, many: int) -> None:
        found, told = PROVED.match(line), TOLD.match(line)
        if told:
            self.work.told.say(told[1])
        if found:
            self.proved, self.kept = self.proved + 1, self.kept + (found[2] != "proved")
            kept = "" if found[2] == "proved" else " (kept)"
            self.work.told.tell(f"proved {self.proved} of {many} crates: {found[1]}{kept}")


def said_of(name: str, lines: list[str]) -> list[str]:
    """The last lines that rt ci says of a crate that isn't proved, at most back to its heading; the last of
    all where there is no such crate."""
    ends = (at for at, it in enumerate(lines, 1)
            for found in [NOT_PROVED.match(it)] if found and found[1] == name)
    until = next(ends, len(lines))
    heads = [at for at, it in enumerate(lines[:until]) if re.fullmatch(rf"== {name}(: its tests)?", it)]
    return lines[heads[-1] if heads else 0 : until][-SHOWN:]
