"""Tries changes of definitions on the theorems of emu_laws that are proved by computation, many at a time,
and then on the laws of emu_model."""
import pathlib
import re
import tempfile

import theorem_modules
from mutants import LAWS, MODEL, SPECS, Change, check, copy_crates, direct, line_of, passed_on

# The name of the crate for a lot.
LOT = "emu_lot"
# The files of single words, a few short examples of all topics, and those that take longer than all others
# together.
WORD_FILES = re.compile(r"Bounds|AdaptiveSamples|\w+Steps")
FEW = re.compile(
    r"DeletedEverywhere|FullAndLost|Listings|PacketBudget|RefusedCommands|StoppedFlow|TracedMasked"
    r"|TracedTwoPipes")
SLOW = re.compile(r"LimitRules|LimitTrains|LossAll|LossNone")
# The turns, each with the size of a lot. A turn tries the changes that no earlier turn detected.
TURNS = {"words": 20, "few": 20, "worked": 10, "slow": 10}
ERROR = re.compile(r"^\./proofs/C(\d+)_(\w+)\.antt:\d+:\d+: error: (?:`([^`]+)`)?", re.M)
LAW = re.compile(r"^fn emu_model::\w*laws::(\w+): not proved", re.M)
USES = re.compile(rf"^(?:pub )?use {re.escape(SPECS)}\.(\w+)", re.M)

# What notices a change, or None if its check gave no result.
Seen = list[str] | None


def turn_of(stem: str) -> str:
    files = {"words": WORD_FILES, "few": FEW, "slow": SLOW}
    return next((turn for turn, pattern in files.items() if pattern.fullmatch(stem)), "worked")


class Lots:
    """The definitions, and the theorems of a turn over them."""

    def __init__(self, turn: str) -> None:
        self.specs = {path.stem: path.read_text()
                      for path in (MODEL / "specs").glob("*.antt") if path.stem != "Lib"}
        words = passed_on((LAWS / "proofs/Words.antt").read_text())
        # `Words` re-exports names of the original definitions; a copy must take those of changed ones.
        self.examples = {stem: direct(text, "Rattle.emu_laws.proofs.Words",
                                      words).replace("Rattle.emu_laws.", f"Rattle.{LOT}.")
                         for stem, text in theorem_modules.texts().items() if turn_of(stem) == turn}

    def touched(self, file: str) -> tuple[set[str], set[str]]:
        """Returns the files of definitions that depend on a file and that theorems need, and these
        theorems."""
        found = {file}
        while more := {stem for stem, text in self.specs.items() if stem not in found
                       and found & set(USES.findall(text))}:
            found |= more
        theorems = {stem for stem, text in self.examples.items() if found & set(USES.findall(text))}
        wanted: set[str] = set()
        todo = [file, *(name for stem in theorems for name in USES.findall(self.examples[stem]))]
        while todo:
            name = todo.pop()
            if name in found and name not in wanted:
                wanted.add(name)
                todo += USES.findall(self.specs[name])
        return wanted, theorems

    def direct(self, text: str) -> str:
        """Returns a text that doesn't import from `Types`, nor `EventContext` from `Net`: other crates
        can't."""
        text = direct(text, f"{SPECS}.Net", {"EventContext": f"{SPECS}.declared.commands.EventContext"})
        return direct(text, f"{SPECS}.Types", passed_on(self.specs["Types"]))

    def modules(self, number: int, change: Change) -> dict[str, str]:
        """Returns copies of the definitions that a change affects and of the theorems over them, under new
        names."""
        specs, theorems = self.touched(change.file)
        parts = {stem: self.specs[stem] for stem in specs} | {stem: self.examples[stem] for stem in theorems}
        parts[change.file] = change.applied(self.specs[change.file])
        some = "|".join(sorted(specs))
        names = re.compile(rf"{re.escape(SPECS)}\.({some})(?:\b(?!\.)|(?=\.\{{))")
        return {f"C{number}_{stem}": names.sub(rf"Rattle.{LOT}.proofs.C{number}_\1", self.direct(text))
                for stem, text in parts.items()}

    def tried(self, lot: list[Change]) -> list[Seen]:
        """Returns the theorems that are refused for each change, or None for those whose copy is not well
        formed."""
        modules = {"Makings": (LAWS / "proofs/Makings.antt").read_text()}
        for number, change in enumerate(lot):
            modules |= self.modules(number, change)
        with tempfile.TemporaryDirectory(prefix="dnlab-changes-") as name:
            room = pathlib.Path(name)
            # With its library, over which the crate for the lot is checked.
            copy_crates(room, MODEL, without="incremental")
            with open(room / "crates.txt", "a") as crates:
                crates.write(line_of("emu_laws").replace("emu_laws:", f"{LOT}:"))
            crate = room / "crates" / LOT
            for folder in "src", "proofs":
                (crate / folder).mkdir(parents=True)
            (crate / "src/lib.rt").write_text(
                "//! Theorems alone.\n#![tactic(auto)]\n\npub const NOTHING: u64 = 0;\n")
            for stem, text in modules.items():
                (crate / f"proofs/{stem}.antt").write_text(text)
            (crate / "proofs/Lib.antt").write_text("".join(f"mod {stem}\n" for stem in modules))
            status, said = check(crate)
        seen: list[Seen] = [[] for _ in lot]
        for number, stem, theorem in ((int(n), stem, theorem) for n, stem, theorem in ERROR.findall(said)):
            refused = seen[number]
            if stem in self.specs:
                seen[number] = None
            elif theorem and refused is not None:
                refused.append(f"{stem}: {theorem}" if stem == "Bounds" else stem)
        if status not in (0, 1) or bool(status) != any(it is None or it for it in seen):
            return [None] * len(lot)
        return [it and list(dict.fromkeys(it)) for it in seen]

    def sights(self, lot: list[Change]) -> list[Seen]:
        """Returns what notices each change of a lot. A change without a result in the lot is tried alone."""
        seen = self.tried(lot)
        if len(lot) == 1:
            return seen
        return [self.tried([change])[0] if it is None else it for change, it in zip(lot, seen)]


def seen_by_laws(change: Change) -> tuple[Seen, str]:
    """Returns the laws of emu_model that are refused over a change, and the output of the check."""
    with tempfile.TemporaryDirectory(prefix="dnlab-changes-") as name:
        copy_crates(pathlib.Path(name), MODEL)
        crate = pathlib.Path(name) / "crates/emu_model"
        path = crate / "specs" / f"{change.file}.antt"
        path.write_text(change.applied(path.read_text()))
        status, said = check(crate)
    if status not in (0, 1) or re.search(r"^\./specs/.*: error", said, re.M):
        return None, said
    laws = list(dict.fromkeys(LAW.findall(said))) or ["a function's contract"] * status
    return [f"law {law}" for law in laws], said
