"""Names for the sources of injected packets: they have their own rows, with delays calculated by hand, and
wrong names are refused."""
import json
import pickle
from pathlib import Path
from typing import Callable

import pytest
from conftest import tool

import dnlab
from dnlab.testing import expecting

MS = 10**6
Alone = Callable[[bytes], bytes]
# At 8 Mbit/s 1000 bytes take 1 ms and 500 take 0.5 ms, and then 10 ms of delay. One packet is in service and
# two wait, so the fourth packet at time 0, in line 7, finds no room. Those at 30 ms and at 60 ms need not
# wait.
LINK = """@0 pipe 1 config bw 8Mbit/s delay 10 queue 2
@0 add 100 pipe 1 ip from any to any
@0 inject udp 10.0.0.1 1000 10.0.1.1 2000 1000
@0 inject udp 10.0.0.1 2000 10.0.1.1 2000 500
@0 inject udp 10.0.0.1 1000 10.0.1.1 2000 1000
@0 inject udp 10.0.0.1 1000 10.0.1.1 2000 1000
@30000000 inject tcp 10.0.0.2 53 10.0.1.1 2000 1000
@60000000 train 1 udp 10.0.0.1 1000 10.0.1.1 2000 1000 count 1 gap 0
@100000000 end
"""
SCENARIO = f"experiment one seed 1 budget 20\n{LINK}"
MINE = {"10.0.0.1:1000": "mine"}
SOURCES = "the sources are 10.0.0.1:1000, 10.0.0.1:2000, 10.0.0.2:53"


@pytest.fixture
def files(tmp_path: Path, traced: Alone) -> tuple[Path, Path]:
    """Returns a report and its scenario."""
    report, scenario = tmp_path / "report.txt", tmp_path / "scenario.txt"
    scenario.write_text(SCENARIO)
    report.write_bytes(traced(SCENARIO.encode()))
    return report, scenario


def row_of(rows: object, sender: str) -> list[int]:
    """Returns packets, delivered, drops, bytes, minimum and maximum delay, and rate of a sender."""
    found = rows[rows.sender == sender]
    assert len(found) == 1, sender
    return [int(found[name].iloc[0])
            for name in ("packets", "delivered", "full", "bytes", "min", "max", "rate")]


def test_rows_of_a_name(files: tuple[Path, Path]) -> None:
    rows = dnlab.read(*files, names={**MINE, "10.0.0.2": "other"}).summary()
    assert list(rows.sender) == ["mine", "injected", "other", "train 1", "pipe 1.0", "all"]
    # Served until 1 ms and, after the 0.5 ms of port 2000, from 1.5 to 2.5 ms: 16000 bits in 12.5 ms.
    assert row_of(rows, "mine") == [3, 2, 1, 2000, 11 * MS, 12_500_000, 1_280_000]
    # 4000 bits in 11.5 ms, and 8000 bits in 11 ms, both rounded down.
    assert row_of(rows, "injected") == [1, 1, 0, 500, 11_500_000, 11_500_000, 347_826]
    assert row_of(rows, "other") == [1, 1, 0, 1000, 11 * MS, 11 * MS, 727_272]
    # Only the program that injects packets knows which of their bytes are new.
    assert rows.goodput.isna().tolist() == [True, True, True, False, True, True]
    # The train has the address and the port of `mine`, and its own row.
    assert row_of(rows, "train 1")[:2] == [1, 1]


def test_all_tables_have_the_name(files: tuple[Path, Path]) -> None:
    one = dnlab.read(*files, names=MINE)["one"]
    assert list(one.packets().sender) == ["mine", "injected", "mine", "mine", "injected", "train 1"]
    assert one.losses()[["sender", "cause", "packets"]].values.tolist() == [["mine", "full", 1]]
    windows = one.throughput(10 * MS)
    # Both arrive in the second window of 10 ms: 16000 bits in 10 ms.
    assert windows[windows.sender == "mine"].rate.tolist()[:3] == [0, 1_600_000, 0]


def test_an_address_names_all_its_ports(files: tuple[Path, Path]) -> None:
    report = dnlab.read(*files)
    rows = report.summary(names={"10.0.0.1": "host", "10.0.0.2:53": "host"})
    assert list(rows.sender) == ["host", "train 1", "pipe 1.0", "all"]
    assert row_of(rows, "host")[:4] == [5, 4, 1, 3500]
    # The original report keeps its own names. A report that is read with names keeps these in another
    # process.
    assert list(report.summary().sender)[0] == "injected"
    named = pickle.loads(pickle.dumps(dnlab.read(*files, names=MINE)))
    assert list(named.summary(of="mine").sender) == ["mine"]
    expecting(report, "host: drops == 1", names={"10.0.0.1": "host"})
    with pytest.raises(pytest.fail.Exception, match="measured 1 of one/host"):
        expecting(report, "host: drops < 1", names={"10.0.0.1": "host"})


def test_beside_a_flow(program: str) -> None:
    """The injected packet is served first, until 1 ms, and the flow's segment until 2 ms; its acknowledgement
    takes 1 ns."""
    text = """experiment both seed 1 budget 20
@0 pipe 1 config bw 8Mbit/s delay 10
@0 add 100 pipe 1 ip from any to 10.0.0.2
@0 add 200 allow ip from 10.0.0.2 to any
@0 flow 65535 10.0.0.1 1000 10.0.0.2 80 smss 960 segments 1
@0 inject udp 10.0.0.1 1000 10.0.0.2 2000 1000
@20000000 inject udp 10.0.0.3 1000 10.0.0.2 2000 1000
@100000000 end
"""
    rows = dnlab.run(text, dnlab=program, names=MINE).summary()
    delays = dict(zip(rows.sender, rows["max"]))
    assert [delays[one] for one in ("mine", "injected", "flow 65535",
                                    "flow 65535 acks")] == [11 * MS, 11 * MS, 12 * MS, 1]


def test_another_scenario_is_still_refused(files: tuple[Path, Path]) -> None:
    """With 9 Mbit/s the first packet would be served until 888889 ns instead of 1 ms."""
    files[1].write_text(SCENARIO.replace("8Mbit/s", "9Mbit/s"))
    with pytest.raises(dnlab.InputError, match="packet 0 finishes at 1000000, but the scenario has 888889"):
        dnlab.read(*files, names=MINE).summary()


def test_the_tools(files: tuple[Path, Path], tmp_path: Path) -> None:
    name = ["--name", "10.0.0.1:1000=mine"]
    status, out, _ = tool("summary", *files, *name, "--of", "mine", "--json")
    found = [(row["sender"], row["packets"], row["full"], row["max"]) for row in json.loads(out)]
    assert (status, found) == (0, [("mine", 3, 1, 12_500_000)])
    status, out, said = tool("expect", *name, *files, "mine: delay.max <= 12.5ms", "mine: drops.full == 1",
                             *name)
    assert (status, out.count("holds  "), said) == (0, 2, "")
    assert tool("expect", *files, *name, "mine: delay.max < 12.5ms")[0] == 1
    picture = tmp_path / "plot.svg"
    status, _, said = tool("plot", *files, *name, "--what", "sojourn", "--of", "mine", "--out", picture)
    # The train that isn't drawn sent all of its packets, so there is no note about it.
    assert (status, said) == (0, "")
    assert ">mine</text>" in picture.read_text() and ">injected</text>" not in picture.read_text()


@pytest.mark.parametrize("words, said", [
    (["10.0.0.9=mine"], f"name 10.0.0.9=mine: no packet is injected from 10.0.0.9: {SOURCES}"),
    (["10.0.0.1:53=mine"], f"name 10.0.0.1:53=mine: no packet is injected from 10.0.0.1:53: {SOURCES}"),
    (["10.0.0.1=a", "10.0.0.1=b"], "name '10.0.0.1=b': 10.0.0.1 is named 'a' already"),
    (["10.0.0.1=a", "10.0.0.1:2000=b"], "10.0.0.1:2000 would have two names, 'a' and 'b'"),
    (["10.0.0.1=flow 1"], "'flow 1' can't be a name"), (["10.0.0.1=all"], "'all' can't be a name"),
    (["10.0.0.1=m*"], "'m*' can't be a name"), (["10.0.0.1="], "'' can't be a name"),
    (["=mine"], "name '=mine': it must be SOURCE=NAME")])
def test_what_is_refused(files: tuple[Path, Path], words: list[str], said: str) -> None:
    given = [part for word in words for part in ("--name", word)]
    status, out, found = tool("summary", *files, *given)
    assert (status, out) == (2, "")
    assert found.startswith("summary: name ") and said in found and len(found.splitlines()) == 1


def test_of_several_experiments(tmp_path: Path, traced: Alone) -> None:
    """In the second experiment port 1000 of 10.0.0.1 is port 3000. A name must match a packet of the
    requested experiments."""
    text = SCENARIO + f"experiment two seed 1 budget 20\n{LINK}".replace("10.0.0.1 1000", "10.0.0.1 3000")
    report, scenario = tmp_path / "report.txt", tmp_path / "scenario.txt"
    scenario.write_text(text)
    report.write_bytes(traced(text.encode()))
    words = [report, scenario, "--name", "10.0.0.1:1000=mine"]
    status, out, _ = tool("summary", *words, "--csv", "--of", "mine", "--of", "injected", "--workers", 2)
    assert status == 0
    assert [line.split(",")[:3] for line in out.splitlines()[1:]] == [
        ["one", "mine", "3"], ["one", "injected", "2"], ["two", "injected", "5"]]
    status, _, said = tool("summary", *words, "--experiment", "two")
    assert status == 2 and "the sources are 10.0.0.1:3000, 10.0.0.1:2000, 10.0.0.2:53" in said


def test_no_packet_is_injected(tmp_path: Path, program: str) -> None:
    text = ("experiment none seed 1 budget 20\n@0 train 1 udp 10.0.0.1 1 10.0.0.2 1 100 count 1 "
            "gap 0\n@1 end\n")
    with pytest.raises(dnlab.InputError, match="the scenario injects none"):
        dnlab.run(text, dnlab=program, names={"10.0.0.1": "mine"}, out=tmp_path / "report.txt")
    # It was refused before the run.
    assert not list(tmp_path.iterdir())
    with pytest.raises(dnlab.ProgramError, match="line 2: badword"):
        dnlab.run(text.replace("train", "trains"), dnlab=program, names={"10.0.0.1": "mine"})
