"""Finds the programs that the tools run. Nothing here starts a proof."""
import os
import pathlib
import shutil
import subprocess
import sys
from collections.abc import Mapping, Sequence
from typing import Any, NamedTuple

ROOT = pathlib.Path(__file__).resolve().parents[2]
SCRIPT = ROOT / "dnlab"


class Outcome(NamedTuple):
    """The status and the output of a call."""
    status: int
    out: bytes
    err: bytes


def call(words: Sequence[str | bytes | os.PathLike[str]], text: bytes = b"", limit: float = 120,
         names: Mapping[str, str] | None = None) -> Outcome:
    """Runs a command on a text, with these environment variables too. Raises subprocess.TimeoutExpired after
    `limit` seconds."""
    done = subprocess.run(words, input=text, capture_output=True, timeout=limit, check=False,
                          env={**os.environ, **(names or {})})
    return Outcome(done.returncode, done.stdout, done.stderr)


def outcome(words: Sequence[str | bytes | os.PathLike[str]], text: bytes, limit: float = 60,
            **how: Any) -> Outcome | None:
    """Runs a command on a text like subprocess.run. Returns its outcome, or None if it exceeds the limit
    (s)."""
    streams: dict[str, Any] = {"stdout": subprocess.PIPE, "stderr": subprocess.PIPE, **how}
    try:
        done = subprocess.run(words, input=text, timeout=limit, check=False, **streams)
    except subprocess.TimeoutExpired:
        return None
    return Outcome(done.returncode, done.stdout or b"", done.stderr)


def make(words: Sequence[str | os.PathLike[str]], what: str) -> bool:
    """Calls a tool that makes something of proved sources, or else of sources without a proof, and prints
    which it was. Returns false if it can't be made."""
    for more in "", "--unproved":
        status, _, said = call([*words, *more.split()], limit=1800)
        if not status:
            print(f"{what} is of {'sources without a proof' if more else 'the proved sources'}", flush=True)
            return True
    print(f"{what} can't be made: {(said.decode().splitlines() or ['no reason is known'])[-1]}",
          file=sys.stderr)
    return False


def program(named: str | os.PathLike[str] | None = None) -> str:
    """Returns the path of the program: the named one, or the one that the environment variable DNLAB names,
    or the one that this repository's script ./dnlab starts (the proved program or a checked build). If the
    script fails, the tool exits with the script's status."""
    named = str(named or os.environ.get("DNLAB") or SCRIPT)
    found = shutil.which(named)
    if found is None or not os.path.samefile(found, SCRIPT):
        return named
    done = subprocess.run([SCRIPT, "program"], stdin=subprocess.DEVNULL, stdout=subprocess.PIPE, text=True,
                          check=False)
    if done.returncode:
        sys.exit(done.returncode)
    return done.stdout.rstrip("\n")


def probes() -> str:
    """Returns the path of the program of crates/probes: the one that the environment variable PROBES names,
    or this repository's proved one. Exits with 3 if there is none."""
    named = os.environ.get("PROBES") or str(ROOT / "crates" / "probes" / "out" / "probes")
    if not os.access(named, os.X_OK):
        print(f"there is no program {named}: 'rt run' in crates/probes proves and builds it", file=sys.stderr)
        sys.exit(3)
    return named
