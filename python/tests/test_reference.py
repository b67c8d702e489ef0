"""The reference pages: the Python page has the package's docstrings, and each row of limits.md is correct."""
import re
import subprocess
import sys

import pytest
from conftest import ROOT

TOOL = ROOT / "tools" / "gate" / "python_api"
# For each row of the table, a line that contains one of its numbers: the name of the row, and the line with
# {} for the number.
LINES = {
    "number of a pipe": "@0 pipe {} config",
    "size of a packet, with headers": "@0 inject udp 10.0.0.1 1 10.0.0.2 1 {}",
    "`count` of a train": "@0 train 1 udp 10.0.0.1 1 10.0.0.2 1 40 count {} gap 0",
    "`gap` of a train": "@0 train 1 udp 10.0.0.1 1 10.0.0.2 1 40 count 1 gap {}",
    "number of a flow or train": "@0 flow {} 10.0.0.1 1 10.0.0.2 1 smss 100 segments 1",
    "`smss`": "@0 flow 1 10.0.0.1 1 10.0.0.2 1 smss {} segments 1",
    "`segments`": "@0 flow 1 10.0.0.1 1 10.0.0.2 1 smss 100 segments {}",
    "`bw`": "@0 pipe 1 config bw {}",
    "`delay`": "@0 pipe 1 config delay {}",
    "`ssthresh`": "@0 flow 1 10.0.0.1 1 10.0.0.2 1 smss 100 segments 1 ssthresh {}",
    "`window`": "@0 flow 1 10.0.0.1 1 10.0.0.2 1 smss 100 segments 1 window {}",
    "`rto`": "@0 flow 1 10.0.0.1 1 10.0.0.2 1 smss 100 segments 1 rto {}",
    "`queue`": "@0 pipe 1 config queue {}",
    "time of a command": "@{} show",
}


def number(cell: str) -> int:
    """Returns a limit of the table: 65535, or 10^15 ns, about 11 days."""
    found = re.match(r"(\d+)(?:\^(\d+))?", cell)
    assert found, cell
    return int(found[1]) ** int(found[2] or 1)


def rows() -> dict[str, tuple[int, int]]:
    """Returns the minimum and the maximum of each row."""
    page = (ROOT / "docs/reference/limits.md").read_text()
    found = re.findall(r"^\| ([^|]+) \| ([^|]*) \| ([^|]+) \| `outofrange`", page, re.MULTILINE)
    return {name: (number(least), number(most)) for name, least, most in found if name in LINES}


def judged(program: str, line: str) -> str:
    text = f"experiment limits seed 0 budget 1\n{line}\n@1000000000000000 end\n"
    return subprocess.run([program, "check"], input=text, capture_output=True, text=True,
                          check=False).stderr.strip()


@pytest.mark.parametrize("name", LINES)
def test_a_limit(name: str, program: str) -> None:
    least, most = rows()[name]
    for inside in (least, most):
        assert judged(program, LINES[name].format(inside)) == ""
    for outside in [most + 1, *([least - 1] if least else [])]:
        assert judged(program, LINES[name].format(outside)) == "line 2: outofrange"


def test_the_python_page() -> None:
    done = subprocess.run([sys.executable, TOOL, "--check"], capture_output=True, text=True, check=False)
    assert (done.returncode, done.stderr, done.stdout) == (0, "", "1 passed, 0 failed\n")
    page = (ROOT / "docs/reference/python.md").read_text()
    assert ("## dnlab.run\n" in page
            and "- `workers`: the number of threads that run its experiments, 1 to 16\n" in page)
