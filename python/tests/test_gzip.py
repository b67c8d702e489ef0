"""Scenarios and reports compressed by gzip are read like plain ones."""
import gzip
import time
import zlib
from pathlib import Path
from typing import Callable

import pytest
from calls_and_flows import CALL, SLOW
from conftest import tool

Packed = dict[str, Path]


@pytest.fixture
def packed(files: Callable[..., list[Path]], tmp_path: Path) -> Packed:
    """Returns the files of a report and its scenario, plain and compressed."""
    found = dict(zip(("report", "scenario"), files(CALL + SLOW)))
    for name, plain in list(found.items()):
        found[f"{name}.gz"] = tmp_path / f"{name}.gz"
        found[f"{name}.gz"].write_bytes(gzip.compress(plain.read_bytes()))
    return found


def test_packed_files_are_read(packed: Packed) -> None:
    report, scenario = packed["report.gz"], packed["scenario.gz"]
    plain = tool("summary", packed["report"], packed["scenario"], "--csv")
    assert plain[0] == 0
    assert tool("summary", report, scenario, "--csv", "--workers", "2") == plain
    assert tool("summary", "-", scenario, "--csv", text=report.read_bytes()) == plain
    assert tool("summary", report, "-", "--csv", text=scenario.read_bytes()) == plain
    assert tool("expect", report, scenario, "all: drops == 0")[0] == 0
    assert tool("compare", "-", packed["report"], scenario, text=report.read_bytes())[0] == 0


def test_cut_and_damaged_files(packed: Packed, tmp_path: Path) -> None:
    whole, cut = packed["report.gz"].read_bytes(), tmp_path / "cut.gz"
    for data in whole[:-9], whole[:40], whole[:-9] + b"123456789":
        cut.write_bytes(data)
        status, out, err = tool("summary", cut, packed["scenario"])
        assert (status, out) == (2, "") and "its gzip is cut or damaged" in err and err.count("\n") == 1
    cut.write_bytes(packed["scenario.gz"].read_bytes()[:-9])
    for name, words in ("summary", [packed["report"], cut]), ("spread", [cut]):
        status, out, err = tool(name, *words)
        assert (status, out, err.count("\n")) == (2, "", 1)
        assert err.startswith(f"{name}: {cut}: line 1: its gzip is cut or damaged (")


def test_a_bomb(tmp_path: Path) -> None:
    """4 GB of zeros in 4 MB, without a line feed, are refused after the first blocks, and as a scenario after
    its maximum length."""
    bomb = tmp_path / "bomb.gz"
    packer = zlib.compressobj(9, zlib.DEFLATED, 31)
    with open(bomb, "wb") as file:
        file.write(packer.compress(b"experiment a\n"))
        for _ in range(1 << 10):
            file.write(packer.compress(bytes(1 << 22)))
        file.write(packer.flush())
    begin = time.monotonic()
    for name, text in (bomb, b""), ("-", bomb.read_bytes()):
        status, out, told = tool("summary", name, text=text)
        assert (status, out) == (2, "") and "line 2: a line of more than" in told
    assert time.monotonic() - begin < 40
    status, _, told = tool("spread", bomb)
    assert status == 2 and "decompressed it has more than" in told
