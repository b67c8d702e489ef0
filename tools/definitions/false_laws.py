"""Tries changes that make the laws of emu_laws false, each over a copy of emu_model without the laws and
lemmas that emu_laws does not need."""
import pathlib
import re
import shutil

import theorem_modules
from mutants import HERE, LAWS, MODEL, PROOFS, Change, check, check_unchanged, copy_crates, direct

LIST = HERE / "laws.txt"
REFUSED = re.compile(r"^fn emu_laws::(\w+)::(\w+): (?!no holes|proved)", re.M)
CALLED = re.compile(r"^use emu_model::(?:\{([^}]*)\}|(\w+));", re.M)
FUNCTION = re.compile(r"^pub fn (\w+)\(", re.M)
BROKEN = re.compile(r"^\./proofs/(\w+)\.antt:\d+:\d+: error", re.M)
LEMMAS = re.compile(rf"^(pub )?use {re.escape(PROOFS)}\.(\w+)\.\{{(.*)\}}$", re.M)
# The law that detects a weakened law.
EXAMPLES_OF_BOUNDS = "single_states.bounds_are_met"


class FalseLaw(Change):
    """A change of a definition that makes a law false, or one of emu_laws that weakens the law by one."""

    def __init__(self, law: str, words: str) -> None:
        self.law, self.is_weaker = law, words.startswith("weaker ")
        place, _, edit = words.removeprefix("weaker ").partition(": ")
        file, _, definition = place.partition(".")
        super().__init__(file, definition, 1, edit)
        self.name = f"{law} weakened at {place}" if self.is_weaker else law
        self.row = f"{law.partition('.')[2]}\t{'weaker' if self.is_weaker else 'false'}\t{self.cells}"
        # The law that must be refused over it.
        self.refused = EXAMPLES_OF_BOUNDS if self.is_weaker else law

    def __str__(self) -> str:
        return f"{self.file}.{self.place}: {super().__str__()}"

    def calls_model(self) -> bool:
        """Returns whether the law's module calls laws of emu_model."""
        return (not self.is_weaker
                and CALLED.search((LAWS / f"src/{self.law.partition('.')[0]}.rt").read_text()) is not None)


def all_laws() -> list[FalseLaw]:
    """Returns the changes of all laws. Raises ValueError if one doesn't apply, or a law has none."""
    found: list[FalseLaw] = []
    changed: set[str] = set()
    law = ""
    for line in LIST.read_text().splitlines():
        words = line.strip()
        if not words or words.startswith("#"):
            continue
        if not line[0].isspace():
            law = words
        elif words.startswith("none: "):
            changed.add(law)
        else:
            found.append(FalseLaw(law, words))
            specs = (LAWS if found[-1].is_weaker else MODEL) / "specs"
            found[-1].applied((specs / f"{found[-1].file}.antt").read_text())
            changed |= set() if found[-1].is_weaker else {law}
    laws = {f"{path.stem}.{name}" for path in (LAWS / "src").glob("*.rt")
            for name in FUNCTION.findall(path.read_text())}
    if laws != changed or len({it.name for it in found}) < len(found):
        raise ValueError(
            f"{LIST.name}: not the laws of emu_laws, or one twice: {' '.join(sorted(laws ^ changed))}")
    return found


def keep_only(crate: pathlib.Path, module: str, names: list[str]) -> str:
    """Removes all laws of a module except those of these names, and the module itself if there are none.
    Returns its text."""
    path, root, proofs = crate / f"src/{module}.rt", crate / "src/lib.rt", crate / "proofs" / module
    blocks = [(block, FUNCTION.search(block)) for block in path.read_text().split("\n\n")]
    source = "\n\n".join(block for block, name in blocks if not name or name[1] in names)
    text = re.sub(rf"^mod {module};\n|^pub use {module}::[^;]*;\n", "", root.read_text(), flags=re.M)
    path.unlink()
    answers = {name: (proofs / name / "Answers.antt").read_text() for name in names}
    shutil.rmtree(proofs, ignore_errors=True)
    for name, answer in answers.items():
        (proofs / name).mkdir(parents=True)
        (proofs / name / "Answers.antt").write_text(answer)
    if names:
        text += f"\nmod {module};\npub use {module}::{{{', '.join(names)}}};\n"
        path.write_text(source)
    root.write_text(text)
    return source


class Bare:
    """A copy of emu_laws over a copy of emu_model without laws. Of the laws of emu_laws that call one of
    emu_model, it only has `law`, if that is one of them, and the laws that it calls."""

    def __init__(self, room: pathlib.Path, law: str) -> None:
        self.model, self.laws = room / "crates/emu_model", room / "crates/emu_laws"
        copy_crates(room, MODEL, LAWS)
        self.leave_theorems()
        module, _, name = law.partition(".")
        called: set[str] = set()
        for path in sorted((self.laws / "src").glob("*.rt")):
            if not (found := CALLED.search(path.read_text())):
                continue
            source = keep_only(self.laws, path.stem, [name] if path.stem == module else [])
            if path.stem == module:
                called = {it for it in re.findall(r"\w+", found[1] or found[2])
                          if re.search(rf"\b{it}\(\)", source)}
                use = f"use emu_model::{{{', '.join(sorted(called))}}};" if called else ""
                path.write_text(CALLED.sub(use, source))
        self.strip(called)
        check_unchanged(self.laws, "the laws over the definitions")

    def leave_theorems(self) -> None:
        """Removes the theorems that are proved by computation from emu_laws."""
        computed = {*theorem_modules.texts(), *theorem_modules.BENEATH}
        for stem in computed:
            (self.laws / f"proofs/{stem}.antt").unlink()
        leave_modules(self.laws, computed)

    def strip(self, called: set[str]) -> None:
        """Removes all of emu_model's laws except those that are called, and all lemmas except those that they
        and emu_laws cite."""
        for path in sorted((self.model / "src").glob("*laws.rt")):
            keep_only(self.model, path.stem,
                      [it for it in FUNCTION.findall(path.read_text()) if it in called])
        self.take_directly()
        over = "".join(path.read_text() for crate in (self.laws, self.model)
                       for path in (crate / "proofs").glob("*/**/*.antt"))
        over += "".join(path.read_text() for path in (self.laws / "proofs").glob("*.antt"))
        roots = set(re.findall(rf"^use {re.escape(PROOFS)}\.(\w+) as", over, re.M))
        self.keep_lemmas(roots | {stem for _, stem, _ in LEMMAS.findall(over)}, over)

    def take_directly(self) -> None:
        """Makes emu_laws import each lemma that a file of emu_model only re-exports from where it is
        defined."""
        passed_on: dict[str, dict[str, str]] = {}
        for path in (self.model / "proofs").glob("*.antt"):
            for pub, stem, names in LEMMAS.findall(path.read_text()):
                if pub:
                    passed_on.setdefault(path.stem,
                                         {}).update(dict.fromkeys(names.split(", "), f"{PROOFS}.{stem}"))
        for path in (self.laws / "proofs").glob("*.antt"):
            text = path.read_text()
            for stem, places in passed_on.items():
                text = direct(text, f"{PROOFS}.{stem}", places)
            path.write_text(text)

    def keep_lemmas(self, todo: set[str], over: str) -> None:
        """Removes all files of lemmas except those that are cited, directly or indirectly. Also removes each
        re-export of which `over`, the text of the citing files, imports nothing."""
        proofs = self.model / "proofs"
        kept: dict[str, str] = {}
        taken = {(stem, name) for _, stem, names in LEMMAS.findall(over) for name in names.split(", ")}
        while todo:
            stem = todo.pop()
            kept[stem] = LEMMAS.sub(
                lambda it: it[0] if not it[1]
                or any((stem, name) in taken for name in it[3].split(", ")) else "",
                (proofs / f"{stem}.antt").read_text())
            todo |= {name for _, name, _ in LEMMAS.findall(kept[stem])} - set(kept)
        for path in proofs.glob("*.antt"):
            path.unlink()
        for stem, text in kept.items():
            (proofs / f"{stem}.antt").write_text(text)
        (proofs / "Lib.antt").write_text("".join(f"pub mod {stem}\n" for stem in sorted(kept)))

    def refused(self, change: FalseLaw) -> tuple[set[str] | None, str]:
        """Returns the laws that are refused, or None if the check gave no result, and the check's output. A
        lemma of emu_model that isn't proved over the change is removed, and so is everything that cites
        it."""
        path = (self.laws if change.is_weaker else self.model) / "specs" / f"{change.file}.antt"
        old = {it: it.read_text() for it in [path, *(self.model / "proofs").glob("*.antt")]}
        try:
            path.write_text(change.applied(old[path]))
            status, said = check(self.laws)
            while "the library emu_model did not build" in said and (broken := set(BROKEN.findall(said))):
                leave_modules(self.model, broken)
                for stem in broken:
                    (self.model / f"proofs/{stem}.antt").unlink(missing_ok=True)
                status, said = check(self.laws)
        finally:
            for it, text in old.items():
                it.write_text(text)
        return {f"{module}.{law}" for module, law in REFUSED.findall(said)} if status == 1 else None, said


def leave_modules(crate: pathlib.Path, names: set[str]) -> None:
    """Removes modules from the list of a crate's proofs."""
    root = crate / "proofs/Lib.antt"
    root.write_text("".join(line for line in root.read_text().splitlines(keepends=True)
                            if line.split()[-1] not in names))
