"""The table of plants, docs/reports/plants.tsv: for each one that was tried and refused the day, where the
proof fails first, and at which goal."""
import datetime
import pathlib
import re
from typing import Iterable, NamedTuple

HEAD = "crate\tplant\tday\tplace\tgoal"
PLACE = re.compile(r"(?:\./)?((?:src|specs|proofs)/\S+?):(\d+):\d+: (?:error: |note: )?(.*)")
# Rows without the crate and the plant, by these two.
Rows = dict[tuple[str, str], str]


class Refused(NamedTuple):
    """A plant's crate and name, and what rt said of it."""

    crate: str
    plant: str
    said: str


def function_at(file: pathlib.Path, line: int) -> str | None:
    """The function whose body or contract a line of a source belongs to."""
    try:
        rows = file.read_text(encoding="utf-8").splitlines()[:line]
    except OSError:
        return None
    found = [it[1] for row in rows for it in [re.match(r"\s*(?:pub(?:\([a-z]+\))? )?fn (\w+)", row)] if it]
    return found[-1] if found else None


def name_of(path: str) -> str:
    """A file by its path; what is said of a function in proofs/ by the function's whole name, and a module
    there by its own."""
    if not path.startswith("proofs/"):
        return path
    *folders, file = path.removeprefix("proofs/").removesuffix(".antt").split("/")
    return "::".join(folders if folders and file in ("Answers", "Invariants") else [*folders, file])


def place_and_goal(it: Refused, folder: pathlib.Path) -> tuple[str, str]:
    """The function or file in which a plant is refused, and at what."""
    found = PLACE.search(it.said)
    if found is None:
        return "", it.said
    path, line, text = found.groups()
    where = function_at(folder / path, int(line)) if path.startswith("src/") else None
    label = re.search(r"\(`([^`]+)`", text) or re.search(r"`([^`]+)`", text)
    return where or name_of(path), label[1] if label else text


def plants_in(crates: pathlib.Path) -> list[tuple[str, str]]:
    """All plants, each by its crate and name."""
    return sorted((it.parts[-3], it.stem) for it in crates.glob("*/plants/*.edit"))


def read(table: pathlib.Path) -> Rows:
    """The rows of a table."""
    rows = ([line.split("\t", 2) for line in table.read_text(encoding="utf-8").splitlines()[1:]]
            if table.exists() else [])
    return {(crate, plant): rest for crate, plant, rest in rows}


def write(table: pathlib.Path, crates: pathlib.Path, refused: Iterable[Refused]) -> None:
    """Writes what was refused now, and the older rows of plants that are still there."""
    rows, today = read(table), str(datetime.date.today())
    for it in refused:
        cells = (" ".join(cell.split()) for cell in (today, *place_and_goal(it, crates / it.crate)))
        rows[it.crate, it.plant] = "\t".join(cells)
    lines = [HEAD, *("\t".join([*key, rows[key]]) for key in plants_in(crates) if key in rows)]
    table.write_text("".join(f"{line}\n" for line in lines), encoding="utf-8")
