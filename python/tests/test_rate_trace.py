"""tools/rate-trace: rates calculated by hand, and outages run by the program."""
import json
from pathlib import Path
from typing import Callable

import pytest
from conftest import tool

Run = Callable[[bytes], bytes]
# 1500 bytes take 10 ms at 1.2 Mbit/s; a packet arrives every 100 ms, the last one at 2.9 s.
SCENARIO = """experiment a seed 1 budget 1000
@0 pipe 1 config bw 5Mbit/s queue {} codel target 9s
@0 add 1 pipe 1 ip from any to any
@0 train 9 udp 10.0.0.1 1000 10.0.1.1 2000 1500 count 30 gap 100000000
@9000000000 end
"""
OUTAGE = "seconds,rate\n0,1200Kbit/s\n1,0\n2,1200000\n3,1200000\n"


def files(folder: Path, trace: str, queue: str = "50") -> tuple[Path, Path]:
    (folder / "trace").write_text(trace)
    (folder / "scenario.txt").write_text(SCENARIO.format(queue).replace(" codel target 9s", ""))
    return folder / "trace", folder / "scenario.txt"


def finishes(report: bytes) -> list[int]:
    return [int(line.split()[0]) for line in report.decode().splitlines() if " finish " in line]


def test_mahimahi(tmp_path: Path) -> None:
    """10 packets of 1504 bytes in 100 ms are 1203200 bit/s; then 5; then none; then 1 in the remaining 50
    ms."""
    moments = [*range(10, 101, 10), *range(120, 201, 20), 350]
    (tmp_path / "trace").write_text("".join(f"{moment}\n" for moment in moments))
    status, said, told = tool("rate-trace", tmp_path / "trace", "--config",
                              "delay 20 queue 9KB mask dst-ip 0xff codel target 7 interval 99", "--outage",
                              "drop", "--pipe", 3)
    assert status == 0
    rest = "delay 20 queue 9KB mask dst-ip 0xff codel target 7 interval 99"
    assert said.splitlines() == [f"@0 pipe 3 config bw 1203200bit/s {rest}",
                                 f"@100000000 pipe 3 config bw 601600bit/s {rest}",
                                 f"@200000000 pipe 3 config bw 601600bit/s plr 1 {rest}",
                                 f"@300000000 pipe 3 config bw 240640bit/s {rest}"]
    # 16 packets of 1504 bytes.
    assert "0.024064 MB" in told and "1 outages of 0.1 s" in told


def test_repeated(tmp_path: Path) -> None:
    (tmp_path / "trace").write_text("100\n")
    status, said, _ = tool("rate-trace", tmp_path / "trace", "--every", "50ms", "--repeat", "250ms",
                           "--outage", "drop")
    # A packet in the second half of each 100 ms: 1504 bytes in 50 ms. A link that starts with an outage has
    # no rate yet.
    assert (status == 0
            and [line.split()[0]
                 for line in said.splitlines()] == ["@0", "@50000000", "@100000000", "@150000000",
                                                    "@200000000"])
    assert [" plr 1" in line for line in said.splitlines()] == [True, False, True, False, True]
    assert "@50000000 pipe 1 config bw 240640bit/s\n" in said


def test_an_outage_holds_packets(tmp_path: Path, alone: Run) -> None:
    """By hand: ten packets before it finish after 10 ms each. The one of 1.0 s is next in the outage and
    finishes at 2.01 s, as if its service began at 2 s; those of 1.1 to 2.0 s follow, 10 ms each. Rates are
    whole bit/s: 11882 for 12000 bits in 1.01 s is 69 us early."""
    trace, scenario = files(tmp_path, OUTAGE)
    status, text, _ = tool("rate-trace", trace, "--scenario", scenario, "--outage", "hold")
    assert status == 0
    found = finishes(alone(text.encode()))
    assert found[:10] == [number * 100_000_000 + 10_000_000 for number in range(10)]
    assert all(2_009_900_000 < moment - number * 10_000_000 <= 2_010_000_000
               for number, moment in enumerate(found[10:21]))
    assert len(found) == 30


def test_an_outage_that_comes_to_an_idle_link(tmp_path: Path, alone: Run) -> None:
    """A packet that arrives in the middle of the outage, between two steps, is late by less than a step."""
    trace, scenario = files(tmp_path, OUTAGE)
    text = scenario.read_text().replace("@0 train", "@1234567890 train").replace("count 30", "count 1")
    scenario.write_text(text)
    for step, late in (("10ms", 10_000_000), ("1ms", 1_000_000)):
        _, made, _ = tool("rate-trace", trace, "--scenario", scenario, "--outage", "hold", "--step", step)
        found = finishes(alone(made.encode()))
        assert len(found) == 1 and 2_009_900_000 < found[0] < 2_010_000_000 + late


def test_what_a_low_rate_would_do(tmp_path: Path, alone: Run) -> None:
    """With 1 kbit/s instead of the outage, the packet in service takes 12 s, until long after its end, which
    the tool reports."""
    trace, scenario = files(tmp_path, OUTAGE.replace("1,0\n", "1,1000\n"))
    status, text, told = tool("rate-trace", trace, "--scenario", scenario)
    assert status == 0 and "1 rates are so low" in told and "--lowest" in told
    assert len(finishes(alone(text.encode()))) == 10
    status, text, told = tool("rate-trace", trace, "--scenario", scenario, "--lowest", "12Kbit/s", "--outage",
                              "hold")
    assert status == 0 and "so low" not in told and len(finishes(alone(text.encode()))) == 30


def test_an_outage_that_drops(tmp_path: Path, alone: Run) -> None:
    trace, scenario = files(tmp_path, OUTAGE)
    _, text, _ = tool("rate-trace", trace, "--scenario", scenario, "--outage", "drop")
    report = alone(text.encode()).decode()
    assert [int(line.split()[0]) // 10**8
            for line in report.splitlines() if line.endswith(" lost")] == list(range(10, 20))
    assert len(finishes(report.encode())) == 20


def test_what_the_link_could_have_carried(tmp_path: Path, traced: Run) -> None:
    """1 Mbit/s for a second and 3 for another are 500000 bytes; 12 Mbit/s arrive, so the pipe is always
    busy."""
    trace, scenario = files(tmp_path, "moment,rate\n0,1000000\n1000000000,3Mbit/s\n2000000000,3Mbit/s\n")
    scenario.write_text(scenario.read_text().replace("count 30 gap 100000000",
                                                     "count 2000 gap 1000000").replace(
                                                         "@9000000000", "@2000000000"))
    _, text, told = tool("rate-trace", trace, "--scenario", scenario, "--out", tmp_path / "made.txt")
    assert "0.5 MB" in told and text == ""
    (tmp_path / "report.txt").write_bytes(traced((tmp_path / "made.txt").read_bytes()))
    status, said, _ = tool("summary", tmp_path / "report.txt", tmp_path / "made.txt", "--of", "pipe *",
                           "--json")
    row = json.loads(said)[0]
    assert status == 0 and 0.99 < row["utilisation"] <= 1 and 490000 < row["bytes"] <= 500000


def test_options_are_kept(tmp_path: Path) -> None:
    trace, scenario = files(tmp_path, "seconds,rate\n0.5,2Mbit/s\n9,3Mbit/s\n9.5,3Mbit/s\n")
    scenario.write_text(SCENARIO.format("7"))
    _, text, _ = tool("rate-trace", trace, "--scenario", scenario)
    assert "@500000000 pipe 1 config bw 2Mbit/s queue 7 codel target 9s\n" in text
    # What comes with the end or later is left out.
    assert text.endswith("@9000000000 end\n") and "3Mbit" not in text
    assert "budget 1000 steps 1000000\n" in text


@pytest.mark.parametrize("trace, wanted", [
    ("", "empty"), ("5\nx\n", "line 2"), ("5\n4\n", "line 2"), ("0\n", "no length"),
    ("seconds,rate\n1,x\n", "line 2"), ("seconds,rate\n1,20Gbit/s\n", "line 2"),
    ("seconds,rate\n1,5\n1,6\n", "line 3"), ("seconds\n1\n", "line 1"), ("seconds,rate\n", "no row"),
    (OUTAGE, "--outage"), ("seconds,rate\n1,nan\n", "line 2")])
def test_wrong_traces(trace: str, wanted: str, tmp_path: Path) -> None:
    name, scenario = files(tmp_path, trace)
    status, said, told = tool("rate-trace", name, "--scenario", scenario, "--out", tmp_path / "out")
    assert (status, said) == (2,
                              "") and wanted in told and "Traceback" not in told and not (
                                  tmp_path / "out").exists(), told


def test_wrong_words(tmp_path: Path) -> None:
    trace, scenario = files(tmp_path, "seconds,rate\n0,5\n1,5\n")
    for words, wanted in ((["--scenario", scenario, "--pipe", 2], "pipe 2"),
                          (["--config", "queue 5000"], "outofrange"), (["--size", 39], "--size"),
                          (["--scenario", tmp_path / "gone"], "gone")):
        status, said, told = tool("rate-trace", trace, *words)
        assert (status, said) == (2, "") and wanted in told, told
