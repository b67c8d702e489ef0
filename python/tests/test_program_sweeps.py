"""Sweeps run any program that writes transcript.txt and report.txt, and hosts files as templates."""
import os
from pathlib import Path

import pytest

for needed in ("jinja2", "scipy", "pandas", "yaml"):
    pytest.importorskip(needed, reason=f"{needed} is missing (Debian: python3-{needed})")

from conftest import tool  # noqa: E402  (packages are looked for first)

# A packet of 1000 bytes takes 8 ms at 1 Mbit/s and 4 ms at 2 Mbit/s; a delay of 10 ms and the seed in ms
# follow.
PROGRAM = """#!/bin/sh
[ "$1" != 3Mbit/s ] || { echo no such rate >&2; exit 4; }
printf 'experiment mine seed %s budget 100\\n@0 pipe 1 config bw %s delay 1%s\\n' $2 $1 $2 > transcript.txt
printf '@0 add 100 pipe 1 ip from any to any\\n' >> transcript.txt
printf '@1000000 inject udp 10.0.0.1 1000 10.0.1.1 2000 1000\\n@1000000000 end\\n' >> transcript.txt
"$DNLAB" alone < transcript.txt > report.txt
[ "$1" != 4Mbit/s ] || rm transcript.txt
[ "$1" != 5Mbit/s ] || echo more >> report.txt
"""


@pytest.fixture
def mine(tmp_path: Path, program: str, monkeypatch: pytest.MonkeyPatch) -> str:
    """Returns the command line of a user's own program."""
    (tmp_path / "mine").write_text(PROGRAM)
    (tmp_path / "mine").chmod(0o755)
    monkeypatch.setenv("DNLAB", program)
    return f"{tmp_path}/mine {{{{ rate }}}} {{{{ seed }}}}"


def test_a_program_with_each_setting_and_seed(mine: str) -> None:
    status, out, err = tool("sweep", "--run", mine, "--set", "rate=1Mbit/s,2Mbit/s", "--seeds", "1-3", "--of",
                            "injected", "--stat", "delay.p50,lost", "--csv", "-")
    assert status == 0, err
    rows = [line.split(",") for line in out.splitlines()]
    means = {row[0]: row[rows[0].index("mean")] for row in rows[1:] if "delay.p50" in row}
    # Delays of 11, 12 and 13 ms, so the mean is 12.
    assert {rate: float(mean) for rate, mean in means.items()} == {"1Mbit/s": 20e6, "2Mbit/s": 16e6}


@pytest.mark.parametrize("rate, said",
                         [("3Mbit/s", "no such rate"), ("4Mbit/s", "the program left no transcript.txt"),
                                        ("5Mbit/s", "report.txt: line ")])
def test_a_program_that_fails(rate: str, said: str, mine: str) -> None:
    status, out, err = tool("sweep", "--run", mine, "--set", f"rate={rate}")
    assert status == 3 and f"rate={rate}, seed 1" in err and said in err and not out


@pytest.mark.parametrize("words, said", [
    ((), "give TEMPLATE or --run COMMAND"),
    (("a.yaml", "--run", "true"), "--run COMMAND replaces TEMPLATE: leave one out"),
    (("a.yaml", "--on", "slurm"), "don't go with programs"),
    (("--run", "true", "--kept", "k"), "don't go with programs"),
    (("--run", "true", "--set", "x=1"), "there is no {{ x }} in it")])
def test_wrong_words(words: tuple[str, ...], said: str) -> None:
    status, _, err = tool("sweep", *words)
    assert status == 2 and said in err


def test_a_statistic_of_ones_own_gets_the_folder(mine: str, tmp_path: Path) -> None:
    pytest.importorskip("cloudpickle", reason="cloudpickle is missing (Debian: python3-cloudpickle)")
    (tmp_path / "own.py").write_text(
        "def lines(run):\n    return len((run.folder / 'transcript.txt').read_text().splitlines())\n")
    status, out, err = tool("sweep", "--run", mine, "--set", "rate=1Mbit/s", "--of", "all", "--stat",
                            f"{tmp_path}/own.py:lines",
                            PYTHONPATH=os.environ.get("PYTHONPATH", ""))
    assert status == 0, err
    assert out.splitlines()[1].split() == ["1Mbit/s", "5"]


HOSTS = """general: {stop_time: 20s, seed: {{ seed }}}
network: |
  @0 pipe 1 config bw 10Mbit/s delay {{ delay }}
  @0 add 100 pipe 1 ip from any to any
hosts:
  one:
    ip_addr: 10.0.0.1
    processes: [{path: ping, args: -c 3 10.0.0.2}]
  two: {ip_addr: 10.0.0.2}
"""


def test_a_hosts_file_with_each_setting_and_seed(kernel: Path, program: str, tmp_path: Path) -> None:
    (tmp_path / "ping.yaml").write_text(HOSTS)
    status, out, err = tool("sweep", tmp_path / "ping.yaml", "--set", "delay=10,30", "--seeds", "1-2", "--of",
                            "one", "--stat", "delay.p50,packets", "--csv", "-", DNLAB=program)
    assert status == 0, err
    heading, *rows = [line.split(",") for line in out.splitlines()]
    found = {(row[0], row[heading.index("stat")]): float(row[heading.index("mean")]) for row in rows}
    # 84 bytes at 10 Mbit/s take 67.2 us.
    assert found == {("10", "delay.p50"): 10067200, ("10", "packets"): 3, ("30", "delay.p50"): 30067200,
                     ("30", "packets"): 3}


def test_a_wrong_hosts_file_is_named_with_its_setting(program: str, tmp_path: Path) -> None:
    (tmp_path / "ping.yaml").write_text(HOSTS)
    status, _, err = tool("sweep", tmp_path / "ping.yaml", "--set", "delay=10,61000", DNLAB=program)
    assert status == 2 and "(delay=61000, seed 1)" in err and "standard input:3: network: outofrange" in err
