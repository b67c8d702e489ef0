"""tools/gate/side_by_side: the result of the pieces' exit statuses."""
import os
import re
import signal
import subprocess
import sys
import time
from pathlib import Path
from typing import Any

import pytest
from conftest import ROOT

GATE = ROOT / "tools" / "gate"
# Runs pieces that are given as Python expressions.
CALL = """
import importlib.machinery, importlib.util, signal, sys
signal.signal(signal.SIGINT, signal.default_int_handler)
sys.path[:0] = [{gate!r}, {common!r}]
loader = importlib.machinery.SourceFileLoader("side_by_side", {gate!r} + "/side_by_side")
tool = importlib.util.module_from_spec(importlib.util.spec_from_loader("side_by_side", loader))
loader.exec_module(tool)
sys.exit(tool.run_all([tool.Piece(*it) for it in {some!r}], "", 2))
"""


def piece(name: str, script: str, needs: str = "", after: tuple[str, ...] = ()) -> tuple[Any, ...]:
    return name, f"about {name}", ("sh", "-c", script), 1, needs, after


def begun(*some: tuple[Any, ...]) -> "subprocess.Popen[str]":
    call = CALL.format(gate=str(GATE), common=str(ROOT / "tools" / "common"), some=some)
    return subprocess.Popen([sys.executable, "-B", "-c", call], stdin=subprocess.DEVNULL,
                            stdout=subprocess.PIPE, stderr=subprocess.STDOUT, text=True)


def ran(*some: tuple[Any, ...]) -> tuple[int, list[str]]:
    """Returns the status and the output, with S for each number of seconds."""
    process = begun(*some)
    said = process.communicate(timeout=60)[0]
    return process.returncode, [re.sub(r", \d+ s \(\d+ s of the processor\)$", ", S s", line)
                                for line in said.splitlines()]


@pytest.mark.parametrize("script, how, passed", [
    ("echo 3 passed, 2 failed; exit 1", "3 passed, 2 failed, status 1", "7 passed, 2 failed"),
    ("echo 3 passed, 0 failed; exit 1", "3 passed, 0 failed, status 1", "7 passed, 1 failed"),
    ("echo well", "no closing line", "4 passed, 1 failed"),
    ("kill -9 $$", "no closing line, status -9", "4 passed, 1 failed"),
])
def test_what_fails_is_counted(script: str, how: str, passed: str) -> None:
    status, said = ran(piece("it", script), piece("other", "sleep 0.2; echo 4 passed, 0 failed"))
    assert status == 1 and f"test: it: {how}, S s" in said and said[-1] == passed


@pytest.mark.parametrize("made, status, last", [("echo /made/it", 0, "1 passed, 0 failed"),
                                                ("exit 3", 1, "0 passed, 1 failed, 1 skipped")])
def test_what_waits_for_a_program(made: str, status: int, last: str) -> None:
    """The piece has the program in $DNLAB. If the program can't be built, the piece doesn't run, which is not
    a success."""
    got, said = ran(piece("user", '[ "$DNLAB" = /made/it ] && echo 1 passed, 0 failed',
                          after=("the checked build",)), piece("the checked build", made))
    assert (got, said[-1]) == (status, last)


def test_ctrl_c_ends_what_runs(tmp_path: Path) -> None:
    process = begun(piece("it", f"echo $$ >{tmp_path}/number; exec sleep 60"))
    while not (tmp_path / "number").exists() or not (tmp_path / "number").read_text():
        assert process.poll() is None
        time.sleep(0.02)
    process.send_signal(signal.SIGINT)
    assert process.wait(10) == 130
    assert process.stdout and "passed" not in process.stdout.read()
    with pytest.raises(ProcessLookupError):
        os.kill(int((tmp_path / "number").read_text()), 0)
