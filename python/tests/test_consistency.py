"""A report of another scenario is refused if its lines show this. docs/reference/tools.md lists what they
can't show."""
from pathlib import Path
from typing import Callable

import pytest
from conftest import ROOT, tool

SCENARIO = (ROOT / "cookbook/bufferbloat/scenario.txt").read_text()
BOUND = "deep/train 2: delay.p95 < 10s"
CHANGES = [
    ("queue 100\n", "queue 100 plr 1\n", "plr 1"), ("queue 100\n", "queue 100 plr 0.5\n", "plr 0.5"),
    ("queue 100\n", "queue 100 mask src-ip 0xff\n", "mask"), ("budget 1000\n", "budget 3\n", "budget 3"),
    ("budget 1000\n", "budget 1000 steps 50\n", "steps 50"), ("ssthresh 3000", "ssthresh 9000", "ssthresh"),
    ("add 100 pipe 1 ip", "add 100 deny ip", "deny it"),
    ("add 100 pipe 1 ip", "add 100 allow ip", "allow it"),
    ("add 100 pipe 1 ip", "add 100 pipe 1 tcp", "deny it"), ("bw 200Kbit/s", "bw 300Kbit/s", "bw 300Kbit/s"),
    ("delay 10 queue", "delay 11 queue", "delay 11"),
]


@pytest.mark.parametrize("old, new, said", CHANGES, ids=[new.strip() for _, new, _ in CHANGES])
def test_a_stale_report(old: str, new: str, said: str, tmp_path: Path,
                        traced: Callable[[bytes], bytes]) -> None:
    """Each change makes a different report (in the program), and the old report is refused."""
    report, changed = tmp_path / "r.txt", SCENARIO.replace(old, new)
    report.write_bytes(traced(SCENARIO.encode()))
    assert changed != SCENARIO and traced(changed.encode()) != report.read_bytes()
    (tmp_path / "s.txt").write_text(changed)
    status, out, told = tool("expect", report, tmp_path / "s.txt", BOUND)
    assert (status, out) == (2, "") and said in told and "isn't this scenario's" in told
    report.write_bytes(traced(changed.encode()))
    assert "isn't this scenario's" not in tool("summary", report, tmp_path / "s.txt")[2]


def test_losses_that_chance_gives(tmp_path: Path, traced: Callable[[bytes], bytes]) -> None:
    """A report of 1000 packets at plr 0.3 is accepted with 0.3, and refused with 0.1, 0.6 and 0."""
    text = ("experiment a seed 1 budget 9\n@0 pipe 1 config plr 0.3\n@0 add 1 pipe 1 ip from any to any\n"
            "@0 train 2 udp 10.0.0.1 1 10.0.0.2 2 100 count 1000 gap 1000\n@2000000 end\n")
    (tmp_path / "r.txt").write_bytes(traced(text.encode()))
    for share, status in (("0.3", 0), ("0.1", 2), ("0.6", 2), ("0", 2)):
        (tmp_path / "s.txt").write_text(text.replace("plr 0.3", f"plr {share}"))
        assert tool("summary", tmp_path / "r.txt", tmp_path / "s.txt")[0] == status, share


def test_drops_for_a_budget_that_was_there(tmp_path: Path, traced: Callable[[bytes], bytes]) -> None:
    text = ("experiment a seed 1 budget 2\n@0 pipe 1 config bw 8Kbit/s\n@0 add 1 pipe 1 ip from any to any\n"
            "@0 train 2 udp 10.0.0.1 1 10.0.0.2 2 100 count 9 gap 1000\n@2000000000 end\n")
    (tmp_path / "r.txt").write_bytes(traced(text.encode()))
    (tmp_path / "s.txt").write_text(text.replace("budget 2", "budget 9"))
    status, _, told = tool("summary", tmp_path / "r.txt", tmp_path / "s.txt")
    assert status == 2 and "fewer than 9 in flight" in told
