"""The origin of a report is stored next to it, and a report that doesn't match is refused in one line."""
import json
from pathlib import Path

import pytest
from conftest import tool

import dnlab
from dnlab.io.files import beside, check_beside, file_checksum, read_beside, scenario_checksum
from dnlab.io.scenario import read

# No line of the report shows the seed.
TEXT = """experiment a seed 0 budget 100
@0 pipe 1 config delay 10
@0 add 100 pipe 1 ip from any to any
@0 train 9 udp 10.0.0.1 1 10.0.0.2 2 100 count 5 gap 1000000
@100000000 end
experiment b seed 0 budget 100
@9 end
"""
OTHER = TEXT.replace("seed 0", "seed 7")


@pytest.fixture
def stored(program: str, tmp_path: Path) -> tuple[Path, Path, Path]:
    """Returns a report stored by a run, its scenario, and another scenario that gives the same report."""
    for name, text in (("s.txt", TEXT), ("o.txt", OTHER)):
        (tmp_path / name).write_text(text)
    dnlab.run(tmp_path / "s.txt", out=tmp_path / "r.txt", dnlab=program)
    return tmp_path / "r.txt", tmp_path / "s.txt", tmp_path / "o.txt"


def test_what_is_kept(stored: tuple[Path, Path, Path], program: str) -> None:
    report, *_ = stored
    told = json.loads((report.parent / "r.txt.json").read_text())
    assert told["report"] == file_checksum(report) and told["program"] == file_checksum(program)
    assert told["scenario"] == scenario_checksum(read(TEXT.encode())) != scenario_checksum(
        read(OTHER.encode()))
    assert told["command"] == [program, "alone", "--trace"] and told["version"].startswith("dnlab ")
    assert sorted(path.name for path in report.parent.iterdir()) == ["o.txt", "r.txt", "r.txt.json", "s.txt"]
    opened = dnlab.read(report)
    assert opened.origin is not None and opened.origin.scenario == told["scenario"]
    made = dnlab.run(TEXT, dnlab=program)
    assert made.origin is not None and made.origin[:3] == opened.origin[:3]


def test_another_scenario_is_refused(stored: tuple[Path, Path, Path], tmp_path: Path) -> None:
    report, plan, other = stored
    for name, words in (("summary", []), ("expect", ["all: drops == 0"]),
                        ("plot", ["--out", tmp_path / "p.svg"]), ("view", ["--out", tmp_path / "p.html"]),
                        ("pcap", ["--experiment", "a"])):
        status, out, err = tool(name, report, other, *words)
        assert status == 2 and not out and len(err.splitlines()) == 1, (name, err)
        assert "is not the scenario of" in err and "r.txt.json" in err, name
    assert tool("compare", report, report, other)[0] == 2 and tool("compare", report, report, plan)[0] == 0
    assert tool("summary", report, plan)[0] == 0 and tool("summary", report)[0] == 0
    with pytest.raises(dnlab.InputError, match="is not the scenario of"):
        dnlab.read(report, other)
    # Without the file next to it, no line distinguishes the seeds.
    beside(report).unlink()
    assert tool("summary", report, other)[0] == 0 and dnlab.read(report, plan).origin is None


def test_a_report_that_was_changed(stored: tuple[Path, Path, Path]) -> None:
    report, plan, _ = stored
    report.write_bytes(report.read_bytes().replace(b"experiment a", b"experiment c"))
    for words in ([report, plan], [report]):
        status, out, err = tool("summary", *words)
        assert status == 2 and not out and "another checksum" in err and "remove that file" in err
    with pytest.raises(dnlab.InputError, match="another checksum"):
        dnlab.read(report)


def test_spread_keeps_what_run_keeps(tmp_path: Path, program: str) -> None:
    (tmp_path / "s.txt").write_text(TEXT)
    words = [tmp_path / "s.txt", "--trace", "--parts", 2, "--out", tmp_path / "a.txt"]
    assert tool("spread", *words)[0] == 0
    dnlab.run(tmp_path / "s.txt", out=tmp_path / "b.txt", dnlab=program)
    one, other = (json.loads((tmp_path / f"{name}.txt.json").read_bytes()) for name in "ab")
    assert one["command"] == ["dnlab-spread", *map(str, words)]
    assert [one[name] for name in ("report", "scenario", "program")] == [
        other[name] for name in ("report", "scenario", "program")]


def test_files_that_are_something_else(stored: tuple[Path, Path, Path]) -> None:
    """A summary with that name, or a file that is not JSON, is not a record of the origin."""
    report, plan, other = stored
    for text in ("[]", "{}", "hello", '{"dnlab report": 2}'):
        beside(report).write_text(text)
        assert read_beside(report) is None and check_beside(report, read(OTHER.encode()), "o") is None
        assert tool("summary", report, plan)[0] == 0
    beside(report).write_text('{"dnlab report": 1, "scenario": 5}')
    status, _, err = tool("summary", report, plan)
    assert status == 2 and "it is not a valid record of what made" in err and len(err.splitlines()) == 1
