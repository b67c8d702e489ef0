"""Standard streams that are closed or full, full disks, and names with control characters: status 3 and the
file's name."""
import os
import pty
import resource
import subprocess
from pathlib import Path
from typing import Callable

import pytest
from conftest import ROOT, tool

LINK = ["--link", "bw 1Mbit/s delay 1"]
TABLE = "seconds,size\n0,100\n0.1,100\n"


@pytest.fixture
def report(tmp_path: Path, alone: Callable[[bytes], bytes], program: str,
           monkeypatch: pytest.MonkeyPatch) -> list[str]:
    """Returns the arguments for a report and its scenario."""
    monkeypatch.setenv("DNLAB", program)
    scenario = tmp_path / "scenario.txt"
    text = (ROOT / "cookbook/bufferbloat/scenario.txt").read_text()
    scenario.write_text("".join(f"{line}@0 trace 1\n" if line.startswith("experiment") else line
                                for line in text.splitlines(True)))
    (tmp_path / "report.txt").write_bytes(alone(scenario.read_bytes()))
    return [str(tmp_path / "report.txt"), str(scenario)]


def through(shell: str, name: str, *words: str) -> "subprocess.CompletedProcess[str]":
    """Runs a tool from a shell that closes or redirects its streams."""
    return subprocess.run(["sh", "-c", f'exec "$@" {shell}', "", str(ROOT / "tools" / name), *words],
                          capture_output=True, text=True, timeout=120, stdin=subprocess.DEVNULL, check=False)


@pytest.mark.parametrize("shell", [">&-", ">/dev/full"])
def test_standard_output_that_takes_nothing(shell: str, report: list[str], tmp_path: Path) -> None:
    table = tmp_path / "t.csv"
    table.write_text(TABLE)
    for name, words in (("summary", report), ("summary", [*report, "--csv"]),
                        ("compare", [report[0], report[0], report[1]]),
                        ("expect", [*report, "codel/train 2: loss < 1%"]),
                        ("pcap", [*report, "--experiment", "codel", "--out", "-"]),
                        ("to-ipfw", [report[1], "--experiment", "codel", "--host"]),
                        ("replay", [str(table), *LINK, "--out", "-"])):
        done = through(shell, name, *words)
        assert done.returncode == 3 and "Traceback" not in done.stderr and done.stderr.count("\n") <= 1, (
            name, done)
        assert "standard output: " in done.stderr, (name, done)


def test_standard_error_that_is_closed(report: list[str]) -> None:
    assert through("2>&-", "expect", *report, "codel/train 2: loss < 1%").returncode == 0
    assert through("2>&-", "expect", *report, "codel/train 2: delay.p50 < 1ms").returncode == 1


def test_standard_input_that_is_closed(report: list[str]) -> None:
    for name, words in (("summary", ["-"]), ("from-ipfw", ["-"]), ("spread", ["-", "--parts", "1"])):
        done = through("<&-", name, *words)
        assert done.returncode in (2, 3) and "Traceback" not in done.stderr and "-: " in done.stderr, done


def test_a_disk_without_room(report: list[str], tmp_path: Path) -> None:
    """Uses a limit of the file size, which affects a write like a full disk."""
    table, out = tmp_path / "t.csv", tmp_path / "out"
    table.write_text(TABLE)
    words = {"plot": [*report, "--out", f"{out}.svg"], "view": [*report, "--out", f"{out}.html"],
             "pcap": [*report, "--experiment", "codel", "--out", f"{out}.pcap"],
             "replay": [str(table), *LINK, "--out", f"{out}.csv"],
             "spread": [report[1], "--parts", "1", "--out", f"{out}.txt", "--work", str(tmp_path / "w")],
             "to-ipfw": [report[1], "--experiment", "codel", "--host", "--out", f"{out}.sh"]}
    for name, given in words.items():
        done = subprocess.run([ROOT / "tools" / name, *given], capture_output=True, text=True, timeout=120,
                              check=False,
                              preexec_fn=lambda: resource.setrlimit(resource.RLIMIT_FSIZE, (10, 10)))
        assert done.returncode == 3 and "Traceback" not in done.stderr, (name, done)
        assert f": {tmp_path.parts[0]}" in done.stderr, (name, done)
    assert not [one for one in tmp_path.iterdir() if one.name.startswith("out")]


def test_a_kept_file_without_room(tmp_path: Path, program: str) -> None:
    if os.getuid() != 0:
        pytest.skip("only root can mount a small disk")
    disk = tmp_path / "disk"
    disk.mkdir()
    if subprocess.run(["mount", "-t", "tmpfs", "-o", "size=4k", "none", disk], check=False).returncode:
        pytest.skip("nothing can be mounted here")
    try:
        (disk / "filled").write_bytes(b"x" * 4096)
        template = tmp_path / "t.tmpl"
        template.write_text(
            "experiment {{ name }} seed {{ seed }} budget 9\n@0 add 1 allow ip from any to any\n@0 train 2 "
            "udp 10.0.0.1 1 10.0.0.2 2 100 count 1 gap 1\n@9 end\n")
        status, _, told = tool("sweep", template, "--of", "train 2", "--stat", "delay.p50", "--kept",
                               disk / "k", DNLAB=program)
        assert status == 3 and f"{disk}/k" in told and "Traceback" not in told
    finally:
        subprocess.run(["umount", disk], check=True)


def test_names_that_steer_a_terminal(tmp_path: Path, report: list[str]) -> None:
    """Standard error has no control characters, and neither has standard output if it is a terminal."""
    name = tmp_path / "a\x1b]0;title\x07\x9b2J\u202ertl\r.txt"
    name.write_text("nothing of it\n")
    for one in ("summary", "view", "sweep", "to-ipfw", "from-ipfw"):
        _, out, told = tool(one, name)
        assert "a\\x1b]0;title" in told and not set(out + told) & set("\x1b\x07\x9b\u202e\r"), one
    shown, end = pty.openpty()
    picture = tmp_path / "p\x1b[2J.svg"
    subprocess.run([ROOT / "tools/plot", *report, "--what", "drops", "--out", picture], stdout=end,
                   stderr=end, check=True, timeout=120)
    os.close(end)
    assert b"\x1b" not in os.read(shown, 4096)

