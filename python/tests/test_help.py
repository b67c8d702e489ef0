"""The `--help` of each tool fits a terminal of 80 columns and has two examples."""
import os
import subprocess

import pytest
from conftest import ROOT

# These run dnlab's own commands for ./dnlab, including `--help`, and the command that a link is named after.
OF_DNLAB = {"tools/gate/checked", "tools/command"}
TOOLS = sorted(str(path.relative_to(ROOT)) for path in (
    *ROOT.glob("tools/**/*"), *ROOT.glob("cookbook/*"), *ROOT.glob("stacks/**/*"), ROOT / "examples/check",
    ROOT / "test")
    if path.is_file() and os.access(path, os.X_OK))


def help_of(tool: str) -> str:
    """Returns the help of a tool for a terminal of 80 columns."""
    done = subprocess.run([f"./{tool}", "--help"], cwd=ROOT, capture_output=True, text=True, timeout=120,
                          check=False,
                          stdin=subprocess.DEVNULL,
                          env={**os.environ, "COLUMNS": "80", "PYTHONDONTWRITEBYTECODE": "1"})
    assert done.returncode == 0 and not done.stderr, done.stderr
    return done.stdout


def examples_in(text: str) -> list[str]:
    """Returns the commands below `Example:`. A continued line is indented further."""
    _, _, after = text.partition("\nExample:\n")
    return [line.strip()
            for line in after.split("\n\n")[0].splitlines() if line[:2] == "  " and line[2:3] != " "]


@pytest.mark.parametrize("tool", [tool for tool in TOOLS if tool not in OF_DNLAB])
def test_help_fits_and_shows_two_examples(tool: str) -> None:
    text = help_of(tool)
    assert not [line for line in text.splitlines() if len(line) > 80]
    found = examples_in(text)
    assert len(found) >= 2
    # At least one example calls the tool by its path.
    assert sum(tool in line for line in found) >= 1
