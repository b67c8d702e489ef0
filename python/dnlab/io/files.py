"""Files: input that may be gzip, output that gets its name once it is complete, and the record of what made a
report."""
import errno
import gzip
import hashlib
import io
import json
import os
import secrets
import stat
import subprocess
import zlib
from contextlib import contextmanager, suppress
from functools import lru_cache, partial
from pathlib import Path
from typing import IO, Any, BinaryIO, Iterator, Mapping, NamedTuple, Optional, Sequence, Union, cast

from dnlab.errors import InputError, ParseError, reading
from dnlab.io.scenario_parts import Plan
from dnlab.processes import subprocesses
from dnlab.processes.subprocesses import lock

# The maximum size of scenarios in one file, which may be split into parts.
MOST_TEXT = 1 << 28
# gzip data starts with these bytes, and no scenario or report does.
GZIP = b"\x1f\x8b"


@contextmanager
def opened_gzip(source: Any) -> Iterator[Any]:
    """Yields a binary stream that can `peek`, decompressed if it is gzip. Raises `ParseError` if its gzip is
    damaged or cut."""
    try:
        yield gzip.open(source) if source.peek(len(GZIP))[:len(GZIP)] == GZIP else source
    except (EOFError, zlib.error, gzip.BadGzipFile) as fault:
        raise ParseError(1, f"its gzip is cut or damaged ({fault})") from None


def unpacked(data: bytes, most: int = MOST_TEXT) -> bytes:
    """Returns the data, decompressed if it is gzip. Raises `ParseError` if it is damaged, or decompresses to
    more than `most` bytes.

    >>> unpacked(gzip.compress(b"@0 end")), unpacked(b"@0 end")
    (b'@0 end', b'@0 end')
    """
    if not data.startswith(GZIP):
        return data
    with opened_gzip(io.BufferedReader(io.BytesIO(data))) as plain:  # type: ignore[arg-type]
        found: bytes = plain.read(most + 1)
    if len(found) > most:
        raise ParseError(1, f"decompressed it has more than {most} bytes")
    return found


# The errors of a write to a full disk.
_FULL = (errno.ENOSPC, errno.EDQUOT, errno.EFBIG)
_BEFORE, _BEHIND = ".dnlab-", ".part"


def _remove_leftovers(folder: Path) -> None:
    """Removes incomplete files in a folder whose writer was killed."""
    for path in folder.glob(f"{_BEFORE}*{_BEHIND}"):
        with suppress(OSError):
            if os.stat(path, follow_symlinks=False).st_uid == os.getuid():
                held = lock(path, 0)
                if held is not None:
                    path.unlink()
                    held.close()


def _part_in(folder: Path) -> tuple[Path, IO[bytes]]:
    """Creates a file with a random name, locked by this process."""
    if not folder.is_dir():
        raise OSError(errno.ENOENT, "its folder does not exist", str(folder))
    while True:
        path = folder / f"{_BEFORE}{secrets.token_hex(8)}{_BEHIND}"
        held = lock(path, os.O_CREAT | os.O_EXCL)
        if held is not None:
            return path, held


@contextmanager
def with_name(name: Union[str, Path]) -> Iterator[None]:
    """Makes an `OSError` for a full disk within the block name the file, which the system doesn't."""
    try:
        yield
    except OSError as fault:
        if fault.errno in _FULL and fault.filename is None:
            fault.filename = str(name)
        raise


@contextmanager
def whole_file(name: Union[str, Path]) -> Iterator[BinaryIO]:
    """Opens a file for writing that gets its name at the end of the block; after an exception nothing is
    left.

    It has a random name in the same folder at first, and is created exclusively. A link of the final name is
    therefore replaced, and its target is unchanged. Raises `OSError` if it can't be written, or if the name
    is that of a device or a folder."""
    target = Path(name)
    with suppress(FileNotFoundError):
        if not stat.S_ISREG(os.stat(target).st_mode):
            raise OSError(errno.EINVAL, "not a regular file", str(name))
    _remove_leftovers(target.parent)
    with subprocesses.signals_delayed():
        path, held = _part_in(target.parent)
        chore = partial(path.unlink, missing_ok=True)
        subprocesses.add_chore(chore)
    try:
        with with_name(name), held, os.fdopen(os.dup(held.fileno()), "wb") as file:
            yield cast(BinaryIO, file)
            file.flush()
            with subprocesses.signals_delayed():
                os.replace(path, target)
                subprocesses.remove_chore(chore)
    finally:
        with subprocesses.signals_delayed():
            chore()
            subprocesses.remove_chore(chore)


# The scenario's checksum covers the names, seeds, budgets and commands of its experiments, in whatever files
# they are: comments, spaces and the order of experiments don't matter.

# Identifies a file as such a record, and its format.
_KEY, _FORM = "dnlab report", 1
_BLOCK = 1 << 20


class Origin(NamedTuple):
    """What made a report: SHA-256 of the scenario's experiments, of the program's file and of the report (''
    if it wasn't stored), the program's version output, and the command line."""
    scenario: str
    program: str
    version: str
    command: tuple[str, ...]
    report: str = ""


def scenario_checksum(plans: Mapping[str, Plan]) -> str:
    """Returns SHA-256 over all experiments, by name.

    >>> from dnlab.io.scenario import read
    >>> text = b"experiment a seed 0 budget 9\\n@0 show\\n@9 end\\n"
    >>> other = b"# a word\\n" + text.replace(b"@0 show", b"@0  show")
    >>> scenario_checksum(read(text)) == scenario_checksum(read(other))
    True
    """
    whole = hashlib.sha256()
    for name in sorted(plans):
        plan = plans[name]
        whole.update(f"{name} {plan.seed} {plan.budget} {plan.steps}\n".encode() + plan.commands.text())
    return whole.hexdigest()


def file_checksum(path: Union[str, Path]) -> str:
    """Returns SHA-256 of a file."""
    whole = hashlib.sha256()
    with open(path, "rb") as file:
        while block := file.read(_BLOCK):
            whole.update(block)
    return whole.hexdigest()


@lru_cache(maxsize=16)
def _version(program: str, changed: int) -> tuple[str, str]:
    """Returns the checksum of the program and its version output ('' if it has none)."""
    try:
        done = subprocess.run([program, "--version"], stdin=subprocess.DEVNULL, capture_output=True,
                              timeout=60, check=False)
        said = done.stdout.decode(errors="replace").strip() if done.returncode == 0 else ""
    except (OSError, subprocess.TimeoutExpired):
        said = ""
    return file_checksum(program), said.split("\n")[0][:200]


def origin_of(plans: Mapping[str, Plan], program: str, command: Sequence[str],
              said: Optional[str] = None) -> Origin:
    """Returns the record of a program's run on a scenario. For a library, which can't be started, `said` is
    its version."""
    own, version = _version(program,
                            os.stat(program).st_mtime_ns) if said is None else (file_checksum(program), said)
    return Origin(scenario_checksum(plans), own, version, tuple(command))


def beside(report: Union[str, Path]) -> Path:
    """Returns the file with the record of a stored report.

    >>> str(beside("runs/report.txt"))
    'runs/report.txt.json'
    """
    return Path(f"{report}.json")


def write_beside(report: Union[str, Path], origin: Origin) -> None:
    """Writes the record of a report next to it, completely or not at all. Raises `OSError`. The report must
    be complete."""
    told = {_KEY: _FORM, **origin._replace(report=file_checksum(report))._asdict()}
    with whole_file(beside(report)) as file:
        file.write((json.dumps(told, indent=1) + "\n").encode())


def read_beside(report: Union[str, Path]) -> Optional[Origin]:
    """Returns the record of a stored report, or None if there is none, or the file of that name is something
    else."""
    path = beside(report)
    if not path.exists():
        return None
    try:
        with reading(path):
            told: Any = json.loads(path.read_text(encoding="utf-8"))
    except ValueError:
        return None
    if not isinstance(told, dict) or told.get(_KEY) != _FORM:
        return None
    try:
        return Origin(told["scenario"], told["program"], told["version"], tuple(told["command"]),
                      told["report"])
    except (KeyError, TypeError):
        raise InputError(
            f"{path}: it is not a valid record of what made {report}: remove it, or run the "
            "scenario again") from None


def check_beside(report: Union[str, Path], plans: Optional[Mapping[str, Plan]],
                 scenario: str) -> Optional[Origin]:
    """Returns the record of a report, if it has one. Raises `InputError` if the report or the scenario does
    not match it."""
    origin = read_beside(report) if str(report) != "-" and os.path.isfile(report) else None
    if origin is None:
        return None
    if origin.report != file_checksum(report):
        raise InputError(f"{report}: it does not match {beside(report)} (another checksum): it was changed or"
                     " written again; remove that file, or run the scenario again")
    if plans is not None and scenario_checksum(plans) != origin.scenario:
        raise InputError(
            f"{scenario}: it is not the scenario of {report} ({beside(report)} has another checksum, made by "
            f"{origin.version or 'the program'}): give that scenario, or run this one")
    return origin
