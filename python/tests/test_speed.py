"""tools/beside/speed: the cost of runs, as two tables, for a program that claims to be proved."""
import hashlib
import subprocess
from pathlib import Path

from conftest import ROOT

TOOL = ROOT / "tools" / "beside" / "speed"


def speed(*words: str) -> "subprocess.CompletedProcess[str]":
    return subprocess.run([str(TOOL), *words, "--small", "--times", "2"], capture_output=True, text=True,
                          timeout=300, check=False)


def stub(folder: Path, version: str, body: str) -> str:
    """Returns a program that prints this version, and otherwise runs a shell command."""
    path = folder / "stub"
    path.write_text(
        f"#!/bin/sh\nif [ \"$1\" = --version ]; then echo '{version}'; exit; fi\ncat > /dev/null\n{body}\n")
    path.chmod(0o755)
    return str(path)


def rows(text: str) -> list[list[str]]:
    return [[cell.strip() for cell in line.strip("|").split("|")]
            for line in text.splitlines() if line.startswith("| ")]


def test_both_tables(program: str) -> None:
    done = speed(program, "--unproved")
    assert done.returncode == 0, done.stderr
    cells = rows(done.stdout)
    assert [row[0] for row in cells[:5]] == ["Load", "p1", "p2", "p3", "p4"]
    # Two loads, each in four ways; the ratio of `alone` to itself is 1.
    assert len(cells) == 5 + 1 + 8 and {row[5] for row in cells if row[1] == "`alone`"} == {"1.00"}


# The checksums of the texts with which the numbers in docs/reports/BENCH.md were measured.
SUMS = {"b1": "a0010c75c54d0e0e", "b2": "9de9063e63d6ccaa", "b3": "bc0208fec29a48e0",
        "b4": "517a1dfa16c415dd", "b5": "ac7f89a63cc45adc", "b6": "9466bb30ee6d5934",
        "b7": "b9fdc999b5cc7153"}


def test_texts(tmp_path: Path) -> None:
    subprocess.run([str(TOOL), "--texts", str(tmp_path)], check=True, timeout=300)
    assert {file.stem: hashlib.sha256(file.read_bytes()).hexdigest()[:16]
            for file in tmp_path.glob("b*.txt")} == SUMS


def test_a_program_that_is_not_proved(tmp_path: Path) -> None:
    done = speed(stub(tmp_path, "dnlab 9 (commit abc, not proved)", "echo same"))
    assert done.returncode == 3 and "no proved program" in done.stderr and not done.stdout


def test_reports_that_differ(tmp_path: Path) -> None:
    done = speed(stub(tmp_path, "dnlab 9 (commit abc, proved by kit)", "date +%N"))
    assert done.returncode == 1 and "reports of one load differ" in done.stderr
