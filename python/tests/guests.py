"""Runs tools/hosts for tests: a hosts file with one process, and the processes that a run leaves."""
import os
from pathlib import Path
from typing import Callable, Iterator

import pytest
from conftest import tool

LINK = """network: |
  @0 pipe 1 config bw 10Mbit/s delay 20
  @0 add 100 pipe 1 ip from any to any
"""

Run = Callable[..., tuple[int, str, str]]


@pytest.fixture
def run(kernel: Path, program: str, tmp_path: Path) -> Run:
    """Writes a hosts file and runs it, with the output folder tmp_path / 'run'. Returns status, output and
    errors."""
    def call(text: str, *words: object) -> tuple[int, str, str]:
        (tmp_path / "test.yaml").write_text(text)
        return tool("hosts", tmp_path / "test.yaml", "--out", tmp_path / "run", *words, DNLAB=program)
    return call


def one_host(process: str, more: str = "", stop: str = "5s") -> str:
    """Returns a hosts file with one process."""
    return (f"general: {{stop_time: {stop}}}\n{LINK}hosts:\n  one:\n    ip_addr: 10.0.0.1\n{more}    "
            f"processes:\n    - {process}\n")


def processes_in(folder: Path) -> Iterator[int]:
    """Returns the processes that have a folder, or one below it, as their current folder."""
    for place in Path("/proc").glob("[0-9]*"):
        try:
            if Path(os.readlink(place / "cwd")).is_relative_to(folder):
                yield int(place.name)
        except OSError:
            continue
