"""The captures of `pcap`, read by tcptrace, tshark and dpkt, and compared with values calculated by hand and
with `summary`."""
import io
import re
import shutil
import socket
import subprocess
from pathlib import Path
from typing import Callable

import dpkt
import pytest
from conftest import text_view, tool

from dnlab.analysis.tables import Tables
Alone = Callable[[bytes], bytes]

# Two segments of 960 bytes (1000 with headers) at 8 Mbit/s: served at 1 and 2 ms, delivered 10 ms later; each
# is acknowledged at once, and the acknowledgement is delivered 1 ns later.
TWO = """experiment a seed 0 budget 100
@0 trace 1
@0 pipe 1 config bw 8Mbit/s delay 10
@0 add 100 pipe 1 ip from 10.0.0.0/24 to any
@0 add 200 allow ip from any to any
@0 flow 1 10.0.0.1 1000 10.0.1.1 80 smss 960 segments 2
@5000001 train 9 udp 10.0.0.2 5 10.0.1.2 6 100 count 1 gap 0
@100000000 end
"""
# Random losses and losses at a short queue, so that segments are sent again.
LOSSY = """experiment lossy seed 5 budget 1000
@0 trace 1
@0 pipe 1 config bw 10Mbit/s delay 20 queue 20 plr 0.02
@0 pipe 2 config delay 20
@0 add 100 pipe 1 ip from 10.0.0.0/24 to 10.0.1.0/24
@0 add 200 pipe 2 ip from 10.0.1.0/24 to 10.0.0.0/24
@0 flow 1 10.0.0.1 1000 10.0.1.1 80 smss 1460 segments 500
@0 flow 2 10.0.0.2 1000 10.0.1.2 80 smss 1000 segments 300
@0 train 9 udp 10.0.0.3 5 10.0.1.3 6 200 count 100 gap 10000000
@40000000000 end
"""


def written(traced: Alone, folder: Path, text: str, *words: str) -> Path:
    """Returns the capture of a scenario."""
    (folder / "s").write_text(text)
    (folder / "r").write_bytes(traced(text.encode()))
    status, out, err = tool("pcap", folder / "r", folder / "s", "--out", folder / "a.pcap", *words)
    assert status == 0 and not err and "a.pcap: packets: " in out
    return folder / "a.pcap"


def test_by_hand(traced: Alone, tmp_path: Path) -> None:
    data = written(traced, tmp_path, TWO).read_bytes()
    reader = dpkt.pcap.UniversalReader(io.BytesIO(data))
    assert data[:4] == bytes.fromhex("4d3cb2a1") and reader.datalink() == dpkt.pcap.DLT_EN10MB
    found = []
    for _, frame in reader:
        inner = dpkt.ethernet.Ethernet(frame).data
        found.append((socket.inet_ntoa(inner.src), inner.len, inner.id, getattr(inner.data, "seq", None),
                      getattr(inner.data, "ack", None)))
    assert found == [("10.0.0.1", 1000, 0, 1, 1), ("10.0.0.1", 1000, 1, 961, 1),
                     ("10.0.0.2", 100, 2, None, None), ("10.0.1.1", 40, 3, 1, 961),
                     ("10.0.1.1", 40, 4, 1, 1921)]
    # Seconds and nanoseconds of each packet, by their places: the file's header has 24 bytes, each packet 16
    # and its data.
    at, moments = 24, []
    while at < len(data):
        second, rest, kept, length = (int.from_bytes(data[at + k:at + k + 4], "little")
                                      for k in (0, 4, 8, 12))
        moments.append((second * 10**9 + rest, length))
        at += 16 + kept
    assert moments == [(0, 1014), (0, 1014), (5000001, 114), (11000001, 54), (12000001, 54)]


def test_the_receiver_s_side(traced: Alone, tmp_path: Path) -> None:
    path = written(traced, tmp_path, TWO, "--at", "receiver", "--of", "flow *")
    with open(path, "rb") as file:
        times = [round(moment * 10**9) for moment, _ in dpkt.pcap.UniversalReader(file)]
    assert times == [11000000, 11000000, 12000000, 12000000]


def counts_of(said: str) -> list[dict[str, tuple[int, int]]]:
    """Returns tcptrace's counts in both directions of each connection."""
    found = []
    for part in re.split(r"TCP connection [0-9]+:", said)[1:]:
        found.append({name.strip(): (int(there), int(back)) for name, there, back in
                      re.findall(r"^ +([a-z A-Z/]+): +(\d+) +[a-z A-Z/]+: +(\d+)", part, re.MULTILINE)})
    return found


@pytest.mark.skipif(shutil.which("tcptrace") is None, reason="tcptrace is missing (Debian: tcptrace)")
def test_tcptrace_counts_what_summary_does(traced: Alone, tmp_path: Path) -> None:
    path = written(traced, tmp_path, LOSSY)
    said = subprocess.run(["tcptrace", "-ln", path], capture_output=True, text=True, check=True).stdout
    rows = {row["sender"]: row for row in Tables(text_view(traced(LOSSY.encode()), LOSSY.encode())).rows()}
    connections = counts_of(said)
    assert len(connections) == 2
    for number, counts in enumerate(connections, 1):
        there, back = rows[f"flow {number}"], rows[f"flow {number} acks"]
        assert there["retransmissions"] > 0
        assert counts["actual data pkts"] == (there["packets"], 0)
        assert counts["rexmt data pkts"] == (there["retransmissions"], 0)
        assert counts["unique bytes sent"] == (there["useful"], 0)
        assert counts["pure acks sent"] == (0, back["delivered"])
        smss = 1460 if number == 1 else 1000
        assert counts["actual data bytes"] == (there["packets"] * smss, 0)
    assert [counts["unique bytes sent"][0] for counts in connections] == [500 * 1460, 300 * 1000]


@pytest.mark.skipif(shutil.which("tshark") is None, reason="tshark is missing (Debian: tshark)")
def test_tshark_reads_it(traced: Alone, tmp_path: Path) -> None:
    """Compares times, numbers and checksums. tshark detects retransmitted segments by itself."""
    path = written(traced, tmp_path, LOSSY)
    checks = [word for name in ("ip", "tcp", "udp") for word in ("-o", f"{name}.check_checksum:TRUE")]
    fields = [word for name in ("frame.time_epoch", "ip.id", "ip.src", "tcp.len", "ip.checksum.status",
                                "tcp.checksum.status", "udp.checksum.status", "tcp.seq_raw",
                                "udp.length") for word in ("-e", name)]
    said = subprocess.run(["tshark", "-n", "-r", path, *checks, "-T", "fields", *fields],
                          capture_output=True, text=True,
                          check=True).stdout
    rows = [line.split("\t") for line in said.splitlines()]
    report = traced(LOSSY.encode()).decode().split("\n")
    makes = [line.split() for line in report if " make " in line]
    # The packets that senders created, according to the report; also acknowledgements.
    sent = [(int(words[0]), int(words[2])) for words in makes if words[3] != "ack"]
    came = [(int(words[0]), int(words[2]))
            for words in (line.split() for line in report) if words[1:2] == ["deliver"] and words[3] == "ack"]
    got = [(int(row[0].replace(".", "")), int(row[1], 16)) for row in rows]
    assert sorted(got) == sorted(sent + came) and len(came) > 700
    # No checksum is bad (0). tshark can't check those inside a truncated packet (2, 3).
    assert {row[4] for row in rows} == {"1"} and all(row[5] != "0" and row[6] != "0" for row in rows)
    segments = {words[2]: words for words in makes if words[3] == "data"}
    assert all(int(row[7]) == int(segments[str(int(row[1], 16))][5]) + 1
               and int(row[3]) == int(segments[str(int(row[1], 16))][-1]) - 40
               for row in rows if str(int(row[1], 16)) in segments)
    assert {row[8] for row in rows if row[2] == "10.0.0.3"} == {"180"}


def test_what_pcap_refuses(alone: Alone, tmp_path: Path) -> None:
    for name, text in (("late",
                        TWO.replace("@0 trace 1\n", "").replace("@5000001", "@5000001 trace 1\n@5000001")),
                       ("none", TWO.replace("@0 trace 1\n", "")),
                       ("two", TWO + TWO.replace("experiment a", "experiment b")),
                       ("empty", "experiment a seed 0 budget 1\n@0 trace 1\n@9 end\n"), ("good", TWO)):
        (tmp_path / name).write_bytes(alone(text.encode()))
    for name, said, words in (("late", "it has no addresses: ", ()),
                              ("none", "made without --trace: run `dnlab alone --trace <", ()),
                              ("two", "several experiments", ()), ("empty", "made no packet", ()),
                              ("good", "the senders are flow 1", ("--of", "flow 2")),
                              ("good", "no experiment", ("--experiment", "x"))):
        status, _, err = tool("pcap", tmp_path / name, "--out", tmp_path / "x.pcap", *words)
        assert status == 2 and said in err, name
    assert tool("pcap", tmp_path / "good", "--out", tmp_path / "none" / "x.pcap")[0] == 3
    assert tool("pcap")[0] == 2 and tool("pcap", tmp_path / "good", "--at", "middle")[0] == 2
    status, out, _ = tool("pcap", "--help")
    assert status == 0 and "Example:" in out and "Exit status" in out


def test_injected_tcp_is_refused(tmp_path: Path, traced: Callable[[bytes], bytes]) -> None:
    """A report doesn't have a program's sequence numbers, and none are invented. Other senders, and UDP, are
    written."""
    text = ("experiment a seed 1 budget 9\n@0 trace 1\n@0 add 1 allow ip from any to any\n@1 inject tcp "
            "10.0.0.1 1 10.0.0.2 2 100\n@2 inject udp 10.0.0.1 1 10.0.0.2 2 100\n@3 train 4 tcp 10.0.0.3 1 "
            "10.0.0.2 2 100 count 2 gap 1\n@99 end\n")
    scenario, report, out = tmp_path / "s.txt", tmp_path / "r.txt", tmp_path / "o.pcap"
    scenario.write_text(text)
    report.write_bytes(traced(text.encode()))
    for name in (out, "-"):
        status, said, told = tool("pcap", report, scenario, "--out", name)
        assert ((status, said) == (2, "") and "1 of the packets were injected as TCP" in told
                and not out.exists())
    assert tool("pcap", report, scenario, "--of", "train 4", "--out", out)[0] == 0
    scenario.write_text(text.replace("inject tcp", "inject udp"))
    report.write_bytes(traced(scenario.read_bytes()))
    assert tool("pcap", report, scenario, "--out", out)[0] == 0


def test_it_says_what_the_capture_lacks(traced: Alone, tmp_path: Path) -> None:
    """A run whose steps ran out truncates the capture. `summary` judges whether a window held a flow back."""
    (tmp_path / "s").write_text(LOSSY.replace("budget 1000", "budget 1000 steps 500"))
    (tmp_path / "r").write_bytes(traced((tmp_path / "s").read_bytes()))
    status, _, err = tool("pcap", tmp_path / "r", tmp_path / "s", "--out", tmp_path / "a.pcap")
    assert status == 0 and len(err.splitlines()) == 1 and "its steps were spent at" in err
