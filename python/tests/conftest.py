"""Code that the tests share: paths, the program, and opened examples."""
import io
import os
import re
import signal
import subprocess
import sys
import time
from pathlib import Path
from typing import Callable, Iterator, Sequence, TypeVar

import pytest
from hypothesis import settings

ROOT = Path(__file__).resolve().parent.parent.parent
sys.path.insert(0, str(ROOT / "python"))
# The tools run with the same Python as the tests.
os.environ["PATH"] = os.pathsep.join([os.path.dirname(sys.executable), os.environ["PATH"]])

from dnlab.analysis.view import View  # noqa: E402
from dnlab.io import scenario  # noqa: E402
from dnlab.io.pieces import pieces  # noqa: E402
from dnlab.io.rows import Records  # noqa: E402
from dnlab.programs import program as program_of  # noqa: E402


# True if only a part of the random cases and of the trials for each scenario is run, as `check_python
# --quick` requests.
QUICK = bool(os.environ.get("DNLAB_QUICK"))
# The files that take longest. They start first, so that no core waits for one of them at the end.
LONGEST = ("test_spread", "test_hosts_runs", "test_hosts_endings", "test_sweep_runs", "test_view",
           "test_sweep_endings", "test_spread_faults", "test_sweep", "test_expect", "test_inputs",
           "test_docs", "test_pages")
Case = TypeVar("Case")


def in_part(cases: Sequence[Case], each: int) -> Sequence[Case]:
    """Returns all cases, or every n-th case if only a part is run."""
    return cases[::each] if QUICK else cases


def pytest_collection_modifyitems(items: list[pytest.Item]) -> None:
    places = {name: place for place, name in enumerate(LONGEST)}
    items.sort(key=lambda item: places.get(item.path.stem, len(LONGEST)))


# Runs the tasks of an array one after another, like sbatch --wait. It only understands arrays that are lists.
SBATCH = """#!/bin/sh
for word; do
  case $word in
    --array=*) tasks=${word#--array=}; tasks=${tasks%\\%*} ;;
    --chdir=*) cd "${word#--chdir=}" || exit 1 ;;
  esac
done
export SLURM_JOB_ID=7
for SLURM_ARRAY_TASK_ID in $(seq "${tasks%-*}" "${tasks#*-}"); do
  export SLURM_ARRAY_TASK_ID
  sh ./task || status=1
done
exit ${status:-0}
"""


class Examples:
    """The worked examples: `EXAMPLES / NAME` is the folder of that name, in any topic."""

    folder = ROOT / "examples"

    def __truediv__(self, name: str) -> Path:
        return next(self.folder.glob(f"*/{name}"))

    def glob(self, pattern: str) -> Iterator[Path]:
        return self.folder.glob(f"*/{pattern}")


EXAMPLES = Examples()
# Hypothesis stores no examples. Each run generates new ones; tools/gate/check_python prints the seed.
settings.register_profile("dnlab", database=None, deadline=None, print_blob=True)
settings.load_profile("dnlab")


def text_of(name: str, file: str) -> bytes:
    return (EXAMPLES / name / file).read_bytes()


def report_of(text: bytes, *words: str) -> bytes:
    """Returns what `dnlab alone` writes for a scenario."""
    done = subprocess.run([program_of(), "alone", *words], input=text, capture_output=True, timeout=300,
                          check=False)
    assert done.returncode == 0, done.stderr
    return done.stdout


def records_in(report: bytes, names: Sequence[str] | None = None) -> list[Records]:
    """Returns the experiments of a report, a text or rows."""
    return [piece.read() for piece in pieces(io.BytesIO(report), names=names)]


def views_of(text: bytes, joined: bool = True) -> list[View]:
    """Runs a scenario, and returns its experiments by their rows, joined with the scenario or not."""
    plans = scenario.read(text)
    found = records_in(report_of(text, "--format", "npy"), list(plans))
    return [View(one, plans[one.name] if joined else None) for one in found]


def text_view(report: bytes, text: bytes) -> View:
    """Returns the first experiment of a text report, joined with its scenario."""
    found = records_in(report)[0]
    return View(found, scenario.read(text)[found.name])


def view_of(name: str, joined: bool = True) -> View:
    """Returns the only experiment of an example, by its rows."""
    return views_of(text_of(name, "scenario.txt"), joined)[0]


@pytest.fixture(scope="session")
def program() -> str:
    """Returns the program that DNLAB names, or by default the one that ./dnlab starts."""
    return program_of()


@pytest.fixture(scope="session")
def alone(program: str) -> Callable[[bytes], bytes]:
    """Returns a function that runs a scenario with `dnlab alone` and returns the report."""
    def run(text: bytes) -> bytes:
        return report_of(text)
    return run


@pytest.fixture(scope="session")
def traced(program: str) -> Callable[[bytes], bytes]:
    """Returns a function that runs a scenario with `dnlab alone --trace` and returns the report."""
    def run(text: bytes) -> bytes:
        return report_of(text, "--trace")
    return run


def rows_file(scenario: Path, folder: Path) -> Path:
    """Runs a scenario, and returns the file of its rows in a folder."""
    made = folder / f"{scenario.parent.name}.npy"
    made.write_bytes(report_of(scenario.read_bytes(), "--format", "npy"))
    return made


@pytest.fixture(scope="session")
def kernel() -> Path:
    """Returns the folder of the guest's kernel, and builds it if necessary. Skips the test if packages for it
    are missing."""
    done = subprocess.run([ROOT / "tools" / "hosts", "--kernel"], capture_output=True, text=True,
                          timeout=3600, check=False)
    if done.returncode == 3:
        pytest.skip(f"there is no kernel of the guest: {done.stderr.strip().splitlines()[-1]}")
    assert done.returncode == 0, done.stderr
    return Path(done.stdout.strip())


def tool(name: str, *words: object, text: bytes = b"", **more: str) -> tuple[int, str, str]:
    """Runs a script of tools/. Returns its status, standard output and standard error."""
    done = subprocess.run([ROOT / "tools" / name, *map(str, words)], input=text, capture_output=True,
                          timeout=120, check=False, env={**os.environ, **more})
    return done.returncode, done.stdout.decode(), done.stderr.decode()


def wait_for_handlers(pid: int) -> None:
    """Waits until a command that was just started handles signals, or has ended.

    Python catches SIGINT from its own start, and would then end with a traceback. The command catches SIGTERM
    after SIGINT."""
    until = time.monotonic() + 60
    while time.monotonic() < until:
        status = Path(f"/proc/{pid}/status").read_text()
        caught = re.search(r"^SigCgt:\s*([0-9a-f]+)$", status, re.MULTILINE)
        if "\nState:\tZ" in status or caught and int(caught[1], 16) >> signal.SIGTERM - 1 & 1:
            return
        time.sleep(0.002)
    raise AssertionError(f"process {pid} handles no signal")


@pytest.fixture
def files(program: str, tmp_path: Path) -> Callable[..., list[Path]]:
    """Returns a function that writes the report and the scenario of a text to files."""
    def made(text: str, name: str = "call") -> list[Path]:
        report, scenario = tmp_path / f"{name}.report", tmp_path / f"{name}.txt"
        scenario.write_text(text)
        report.write_bytes(report_of(text.encode(), "--format", "npy"))
        return [report, scenario]
    return made
