"""The cache of results of sweeps (SQLite), so that an interrupted sweep continues and nothing runs twice."""
import hashlib
import json
import re
import shutil
import sqlite3
from functools import lru_cache
from pathlib import Path
from typing import Any, Optional, Sequence, Union

from dnlab.analysis.statistics import StatRequest
from dnlab.errors import InputError, Note, ProgramError, ResourceError
from dnlab.processes import subprocesses
from dnlab.sweeps.measuring import StatResults

_MADE = (
    "CREATE TABLE IF NOT EXISTS answers (key TEXT PRIMARY KEY, found TEXT NOT NULL, checksum TEXT NOT NULL)")
# The maximum number of files that are read for a script, including scripts that it names.
_MOST_FILES = 64


def checksum(text: str, program: str) -> str:
    """Returns the key of an experiment: a checksum of its text, and of `program_checksum`."""
    return hashlib.sha256(f"{program}\n{text}".encode()).hexdigest()


def files_of(program: Path) -> list[Path]:
    """Returns a program's file, and for a script also the programs that it names: by path, next to it, or on
    the PATH."""
    found: dict[Path, None] = {}
    waiting = [program.resolve()]
    while waiting and len(found) < _MOST_FILES:
        path = waiting.pop(0)
        if path in found:
            continue
        found[path] = None
        with open(path, "rb") as file:
            is_script = file.read(2) == b"#!"
        if is_script:
            text = re.sub(r"\$(\w+|\{[^}]*\}|.)", " ", path.read_text(errors="replace"))
            words = re.findall(r"[^\s\"'`|&;<>(){}\[\]=]+", text)
            named = [path.parent / word.lstrip("/")
                     for word in words] + [Path(word) for word in words if word[0] == "/"]
            named += [Path(place) for place in map(shutil.which, dict.fromkeys(words)) if place]
            waiting += [one.resolve() for one in dict.fromkeys(named) if _is_program(one)]
    return list(found)


def _is_program(path: Path) -> bool:
    try:
        return path.is_file() and bool(path.stat().st_mode & 0o111)
    except (OSError, ValueError):
        return False


def program_checksum(program: str) -> str:
    """Returns a checksum of everything besides the text that a result depends on: the program's version
    output (with its commit and proof), the bytes of its file and, for a script, of those that it starts, and
    this package's sources."""
    own = hashlib.sha256()
    for path in files_of(Path(program)):
        own.update(hashlib.sha256(path.read_bytes()).digest())
    done = subprocesses.run([program, "--version"])
    if done.status:
        raise ProgramError(3, f"{program} --version ended with status {done.status}: {done.said()}")
    own.update(done.out)
    own.update(_package_checksum())
    return own.hexdigest()


@lru_cache(maxsize=None)
def _package_checksum() -> bytes:
    own = hashlib.sha256()
    package = Path(__file__).resolve().parents[1]
    for path in sorted(package.rglob("*.py")):
        own.update(str(path.relative_to(package)).encode() + hashlib.sha256(path.read_bytes()).digest())
    return own.digest()


def _seal(key: str, found: str) -> str:
    """Returns a checksum of a result with its key, so that another one's result is not accepted."""
    return hashlib.sha256(f"{key}\n{found}".encode()).hexdigest()


class ResultCache:
    """Results by key, in a file or, without a name, in memory.

    `damaged` counts results whose checksum was wrong; they are treated as unknown."""

    def __init__(self, path: Union[str, Path, None]) -> None:
        self.path = path
        self._damaged: set[str] = set()
        self._base: Optional[sqlite3.Connection] = None
        if path is None or Path(path).exists():
            self.open()

    def __getstate__(self) -> dict[str, Any]:
        return {"path": self.path, "_damaged": set(), "_base": None}

    @property
    def damaged(self) -> int:
        return len(self._damaged)

    def open(self) -> sqlite3.Connection:
        """Opens the file, creating it if necessary."""
        if self._base is None:
            try:
                base = sqlite3.connect(":memory:" if self.path is None else self.path, timeout=60)
                # Bytes that are not text are a damaged result, not an error of the file.
                base.text_factory = bytes
                # Otherwise each result waits for the disk. A killed process loses nothing; a failure of the
                # system may damage the file, which is then refused, or a result, which then runs again.
                base.execute("PRAGMA synchronous=OFF")
                base.execute(_MADE)
                self._base = base
            except sqlite3.Error as fault:
                raise self._refused(fault) from None
        return self._base

    def _refused(self, fault: sqlite3.Error) -> InputError:
        is_room = str(getattr(fault, "sqlite_errorname",
                              "")).startswith(("SQLITE_FULL", "SQLITE_IOERR", "SQLITE_READONLY"))
        return (ResourceError if is_room
                else InputError)(
                    f"{self.path}: results can't be stored there: {fault} (choose another file with --kept)")

    def close(self) -> None:
        """Closes the file; incomplete transactions are rolled back."""
        if self._base is not None:
            self._base.close()
            self._base = None

    def get(self, key: str, asks: Sequence[StatRequest]) -> Optional[StatResults]:
        """Returns the result of an experiment, or None if a requested statistic is missing."""
        known = self._known(key)
        if (known is None
            or any(stat not in known["values"].get(ask.of, {}) for ask in asks for stat in ask.stats)):
            return None
        values = {ask.of: {stat: known["values"][ask.of][stat] for stat in ask.stats} for ask in asks}
        return StatResults(values, [Note(*note) for note in known["notes"]])

    def put(self, found: Sequence[tuple[str, StatResults]]) -> None:
        """Stores results, together with earlier statistics of the same experiments."""
        base = self.open()
        try:
            with base:
                for key, one in found:
                    known = self._known(key) or {"values": {}}
                    for of, stats in one.values.items():
                        known["values"].setdefault(of, {}).update(stats)
                    known["notes"] = one.notes
                    text = json.dumps(known)
                    base.execute("INSERT OR REPLACE INTO answers VALUES (?, ?, ?)",
                                 (key, text, _seal(key, text)))
        except sqlite3.Error as fault:
            raise self._refused(fault) from None

    def _known(self, key: str) -> Optional[dict[str, Any]]:
        if self._base is None:
            return None
        try:
            row = self._base.execute("SELECT found, checksum FROM answers WHERE key = ?", (key,)).fetchone()
        except sqlite3.Error as fault:
            raise self._refused(fault) from None
        if row is None:
            return None
        try:
            text = row[0].decode()
            if _seal(key, text) == row[1].decode():
                found: dict[str, Any] = json.loads(text)
                return found
        except (AttributeError, ValueError):
            pass  # It is not text, or not JSON.
        self._damaged.add(key)
        return None
