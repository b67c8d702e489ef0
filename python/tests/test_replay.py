"""tools/replay: captures made by hand, byte by byte, and tables. The packets that leave the link are
calculated by hand."""
import csv
import shutil
import struct
from pathlib import Path
from typing import Callable, Iterable

import pytest
from conftest import tool

BEGIN = 1700000000
LINK = ("--link", "bw 1Mbit/s delay 10 queue 2")
ETHERNET = b"\2" * 12 + b"\x08\x00"


def ip(protocol: int, inner: bytes, length: int, source: int = 1) -> bytes:
    return struct.pack(">BBHHHBBH4s4s", 0x45, 0, length, 7, 0, 64, protocol, 0, bytes((10, 0, 0, source)),
                       bytes((10, 0, 1, 1))) + inner


def udp(length: int, source: int = 1) -> bytes:
    """Returns a UDP packet of this size, with the IP header, whose payload was not captured."""
    return ip(17, struct.pack(">HHHH", 1000, 2000, length - 20, 0), length, source)


def tcp(length: int, first: int) -> bytes:
    head = struct.pack(">HHIIBBHHH", 1000, 80, first, 1, 0x50, 0x18, 65535, 0, 0)
    return ip(6, head + bytes(length - 40), length)


def pcap(path: Path, packets: Iterable[tuple[int, bytes]], nano: bool = False, link: int = 1,
         before: bytes = ETHERNET) -> Path:
    """Returns a capture, with times in us or ns after `BEGIN`."""
    unit = 10**9 if nano else 10**6
    data = struct.pack("<IHHiIII", 0xa1b23c4d if nano else 0xa1b2c3d4, 2, 4, 0, 0, 65535, link)
    for moment, packet in packets:
        frame = before + packet
        data += struct.pack("<IIII", BEGIN + moment // unit, moment % unit, len(frame), len(frame)) + frame
    path.write_bytes(data)
    return path


def pcapng(path: Path, packets: Iterable[tuple[int, bytes]]) -> Path:
    """Returns a capture in pcapng, in ns (if_tsresol 9)."""
    data = struct.pack("<IIIHHqI", 0x0a0d0d0a, 28, 0x1a2b3c4d, 1, 0, -1, 28)
    data += struct.pack("<IIHHI", 1, 32, 1, 0,
                        65535) + struct.pack("<HHBxxx", 9, 1, 9) + struct.pack("<HHI", 0, 0, 32)
    for moment, packet in packets:
        frame = ETHERNET + packet
        kept = frame + bytes(-len(frame) % 4)
        high, low = divmod(BEGIN * 10**9 + moment, 2**32)
        data += struct.pack("<IIIIIII", 6, 32 + len(kept), 0, high, low, len(frame),
                            len(frame)) + kept + struct.pack("<I", 32 + len(kept))
    path.write_bytes(data)
    return path


def left(path: Path) -> list[tuple[int, int, bytes]]:
    """Returns the packets of a capture in nanoseconds: time after `BEGIN`, length of IP, frame."""
    data = path.read_bytes()
    assert struct.unpack("<I", data[:4])[0] == 0xa1b23c4d
    found, place = [], 24
    while place < len(data):
        second, rest, kept, length = struct.unpack("<IIII", data[place:place + 16])
        frame = data[place + 16:place + 16 + kept]
        found.append(((second - BEGIN) * 10**9 + rest, length, frame))
        place += 16 + kept
    return found


def test_a_capture_leaves_a_link(tmp_path: Path) -> None:
    """1 Mbit/s: 1000 bytes take 8 ms, and the delay is 10 ms. They arrive at 0, 1, 2 and 3 ms: the first is
    served until 8, two wait until 16 and 24, and the fourth finds the queue of two full."""
    came = pcap(tmp_path / "in.pcap", [(1000 * number, udp(1000)) for number in range(4)])
    status, said, told = tool("replay", came, *LINK, "--out", tmp_path / "out.pcap")
    assert (status, said) == (0, "")
    assert told == "replay: 4 packets: 3 left the link, 1 were dropped (full 1)\n"
    assert [(moment, length) for moment, length, _ in left(tmp_path / "out.pcap")] == [
        (18000000, 1014), (26000000, 1014), (34000000, 1014)]
    assert left(tmp_path / "out.pcap")[0][2] == ETHERNET + udp(1000)


@pytest.mark.parametrize("form", [pcapng, lambda path, packets: pcap(path, packets, nano=True)])
def test_nanoseconds_are_exact(form: Callable[[Path, list[tuple[int, bytes]]], Path], tmp_path: Path) -> None:
    """1 ns is between two packets in 2023, which a float of seconds can't distinguish."""
    came = form(tmp_path / "in.pcap", [(5, udp(100)), (6, udp(100))])
    assert tool("replay", came, "--link", "delay 1", "--out", tmp_path / "out.pcap")[0] == 0
    assert [moment for moment, _, _ in left(tmp_path / "out.pcap")] == [1000005, 1000006]


def test_large_packets(tmp_path: Path) -> None:
    came = pcap(tmp_path / "in.pcap", [(0, tcp(4040, 100))])
    out = tmp_path / "out.pcap"
    status, _, told = tool("replay", came, *LINK, "--out", out)
    assert status == 2 and "4040 bytes" in told and "--large" in told and not out.exists()
    assert tool("replay", came, "--link", "", "--large", "cut", "--out", out)[0] == 0
    assert [length for _, length, _ in left(out)] == [1514]
    # 4000 bytes of payload are 1460, 1460 and 1080; each part's sequence number is that of its first byte.
    assert tool("replay", came, "--link", "", "--large", "split", "--out", out)[0] == 0
    parts = left(out)
    assert [length for _, length, _ in parts] == [1514, 1514, 1134]
    assert [struct.unpack(">I", frame[38:42])[0] for _, _, frame in parts] == [100, 1560, 3020]
    # Only the last part has PSH, and the header's checksum makes the sum of its words 65535.
    assert [frame[47] for _, _, frame in parts] == [0x10, 0x10, 0x18]
    for _, _, frame in parts:
        total = sum(struct.unpack(">10H", frame[14:34]))
        assert (total & 0xffff) + (total >> 16) == 0xffff


def test_two_captures(tmp_path: Path) -> None:
    """Two captures can use one clock, or each can start at its own beginning."""
    first = pcap(tmp_path / "a.pcap", [(0, udp(100)), (4000, udp(100))])
    second = pcap(tmp_path / "b.pcap", [(2000, udp(100, source=2))], before=b"", link=101)
    out = tmp_path / "out.pcap"
    assert tool("replay", first, second, "--link", "delay 1", "--out", out)[0] == 0
    # Of two links the common one is raw IP: the source is at byte 12.
    assert [(moment, frame[15])
            for moment, _, frame in left(out)] == [(1000000, 1), (3000000, 2), (5000000, 1)]
    assert tool("replay", first, second, "--link", "delay 1", "--align", "--out", out)[0] == 0
    assert [(moment + BEGIN * 10**9) // 10**6 for moment, _, _ in left(out)] == [1, 1, 5]


def test_what_no_link_takes(tmp_path: Path) -> None:
    came = pcap(tmp_path / "in.pcap", [(0, udp(28)), (1, ip(1, bytes(40), 60))])
    with open(came, "ab") as file:
        file.write(struct.pack("<IIII", BEGIN, 9, 14, 14) + b"\2" * 12 + b"\x08\x06")
    status, _, told = tool("replay", came, "--link", "", "--out", tmp_path / "out.pcap")
    assert status == 0 and "1 packets: 1 left" in told
    assert ("1 below 40 bytes, sent as 40" in told and "1 neither tcp nor udp" in told
            and "1 without IPv4" in told)


def test_no_frame_is_cut(tmp_path: Path) -> None:
    """The header's fifth number is how much of a frame a reader keeps (libpcap's file format): 1500 bytes of
    IP are 1514 with Ethernet."""
    came = pcap(tmp_path / "in.pcap", [(0, tcp(1500, 1))])
    assert tool("replay", came, "--link", "", "--out", tmp_path / "out.pcap")[0] == 0
    data = (tmp_path / "out.pcap").read_bytes()
    kept = struct.unpack("<I", data[24 + 8:24 + 12])[0]
    assert kept == 1514 and struct.unpack("<I", data[16:20])[0] == 65535


@pytest.mark.parametrize("names, wanted", [
    (["out.txt"], ".pcap"), (["out.pcapng"], ".csv"), (["out.pcap", "out"], ".csv"),
    (["out.csv", "out.csv"], "with different names")])
def test_other_endings_are_refused(names: list[str], wanted: str, tmp_path: Path) -> None:
    came = pcap(tmp_path / "in.pcap", [(0, udp(1000))])
    words = [word for name in names for word in ("--out", str(tmp_path / name))]
    status, said, told = tool("replay", came, *LINK, *words)
    assert (status, said) == (2, "") and "--out" in told and wanted in told
    assert [path.name for path in tmp_path.iterdir()] == ["in.pcap"]


def test_tables(tmp_path: Path) -> None:
    """The same packets in a table have the same times."""
    came = tmp_path / "in.csv"
    came.write_text(
        "seconds,size,source\n0,1000,10.0.0.1\n0.001,1000,10.0.0.1\n0.002,1000,10.0.0.3\n"
        "0.003,1000,10.0.0.1\n")
    assert tool("replay", came, *LINK, "--out", tmp_path / "out.csv")[0] == 0
    with open(tmp_path / "out.csv", encoding="ascii") as file:
        rows = [(int(row["moment"]), row["source"], row["left"], row["fate"]) for row in csv.DictReader(file)]
    assert sorted(rows) == [(0, "10.0.0.1", "18000000", "delivered"),
                            (1000000, "10.0.0.1", "26000000", "delivered"),
                            (2000000, "10.0.0.3", "34000000", "delivered"), (3000000, "10.0.0.1", "", "full")]
    assert tool("replay", came, *LINK, "--out", tmp_path / "out.pcap")[0] == 0
    assert [(moment + BEGIN * 10**9, length)
            for moment, length, _ in left(tmp_path / "out.pcap")][0] == (18000000, 1000)


def test_injected_the_same(tmp_path: Path, alone: Callable[[bytes], bytes]) -> None:
    """`alone` on the `inject` lines delivers at the same times as the session."""
    came = tmp_path / "in.csv"
    lines = [f"{number * number % 7919 * 1000 + number * 300000},{40 + number * 37 % 1461}"
             for number in range(3000)]
    came.write_text("moment,size\n"
                    + "\n".join(sorted(lines, key=lambda line: int(line.split(",")[0]))) + "\n")
    link = ("--link", "bw 20Mbit/s delay 3 queue 20 plr 0.02 codel", "--seed", "5")
    assert tool("replay", came, *link, "--out", tmp_path / "out.csv")[0] == 0
    assert tool("replay", came, *link, "--inject", tmp_path / "scenario.txt")[0] == 0
    report = alone((tmp_path / "scenario.txt").read_bytes()).decode()
    delivered = sorted(int(line.split()[0]) for line in report.splitlines() if " deliver " in line)
    with open(tmp_path / "out.csv", encoding="ascii") as file:
        assert sorted(int(row["left"]) for row in csv.DictReader(file) if row["left"]) == delivered
    assert 1000 < len(delivered) < 3000


def test_longer_than_a_scenario(tmp_path: Path) -> None:
    """320000 packets would be a scenario of more than 16 MiB, which is refused, but a session replays
    them."""
    came = tmp_path / "in.csv"
    came.write_text("moment,size,source,target\n"
                    + "".join(f"{number * 20000},1500,192.168.100.100,192.168.100.200\n"
                              for number in range(320000)))
    status, _, told = tool("replay", came, "--link", "bw 1Gbit/s", "--inject", tmp_path / "scenario.txt")
    assert status == 2 and "16777216" in told and not (tmp_path / "scenario.txt").exists()
    status, _, told = tool("replay", came, "--link", "bw 1Gbit/s", "--out", tmp_path / "out.csv")
    assert (status, told) == (0, "replay: 320000 packets: 320000 left the link, 0 were dropped\n")


def test_a_link_of_ones_own(tmp_path: Path) -> None:
    """The link's rate doubles at 1 s: 1000 bytes take 8 ms, then 4."""
    own = tmp_path / "link.txt"
    own.write_text(
        "@0 pipe 1 config bw 1Mbit/s\n@0 add 1 pipe 1 ip from any to any\n@1000000000 pipe 1 "
        "config bw 2Mbit/s\n")
    came = tmp_path / "in.csv"
    came.write_text("moment,size\n0,1000\n2000000000,1000\n")
    assert tool("replay", came, "--scenario", own, "--out", tmp_path / "out.csv")[0] == 0
    assert [line.split(",")[7]
            for line in (tmp_path / "out.csv").read_text().splitlines()[1:]] == ["8000001", "2004000001"]


@pytest.mark.parametrize("text, wanted", [
    ("moment,size\n5,x\n", "line 2"), ("moment,size\n5,40\n1.5,40\n", "line 3"), ("size\n40\n", "line 1"),
    ("", "line 1"), ("moment,size\n", "no TCP or UDP packet"), ("moment,size,colour\n1,40,red\n", "colour"),
    ("moment,size,source\n1,40,10.0.0.300\n", "line 2"), ("moment,size\n1,40\n1,40,7,8\n", "line 3"),
    ("moment,size\n1,1501\n", "--large"), ("moment,size\nInfinity,100\n", "line 2"),
    ("moment,size\n1,100\n1e999999999,100\n", "line 3"), ("moment,size\n1e999999,100\n", "line 2"),
    ("moment,size\nNaN,100\n", "line 2"), ("moment,size\n" + "1" * 200000 + ",100\n", "line")],
    ids=lambda text: text[:40])
def test_wrong_tables(text: str, wanted: str, tmp_path: Path) -> None:
    came = tmp_path / "in.csv"
    came.write_text(text)
    status, said, told = tool("replay", came, *LINK, "--out", tmp_path / "out.pcap")
    assert (status, said) == (2, "") and wanted in told and told.count("\n") == 1 and len(told) < 1000, told
    assert not (tmp_path / "out.pcap").exists()


def test_wrong_captures(tmp_path: Path) -> None:
    whole = pcap(tmp_path / "in.pcap", [(0, udp(1000)), (1, udp(1000))]).read_bytes()
    (tmp_path / "cut.pcap").write_bytes(whole[:-50])
    (tmp_path / "cut2.pcap").write_bytes(whole[:24 + 16 + 42 + 7])
    (tmp_path / "cut3.pcap").write_bytes(whole[:-5])
    (tmp_path / "cut4.pcap").write_bytes(pcapng(tmp_path / "in.pcapng", [(0, udp(1000))]).read_bytes()[:-5])
    (tmp_path / "link.pcap").write_bytes(whole[:20] + struct.pack("<I", 147) + whole[24:])
    (tmp_path / "bytes").write_bytes(b"\xff\xfe\0\1")
    for name, wanted in (("cut.pcap", "cut off"), ("cut2.pcap", "cut off"), ("cut3.pcap", "cut off"),
                         ("cut4.pcap", "cut off"), ("link.pcap", "147"), ("bytes", "neither a capture"),
                         ("gone", "gone")):
        status, said, told = tool("replay", tmp_path / name, *LINK, "--out", tmp_path / "out.pcap")
        assert (status, said) == (2, "") and wanted in told and "Traceback" not in told, (name, told)
        assert not (tmp_path / "out.pcap").exists()


def test_wrong_links(tmp_path: Path) -> None:
    came = pcap(tmp_path / "in.pcap", [(0, udp(1000))])
    for link, wanted in (("bw 10Mbps", "--link"), ("queue 5000", "outofrange"),
                         ("bw 1Mbit/s\x1b[2J", "--link"),
                         ("bw 1Mbit/s\n@0 add 1 deny ip from any to any", "--link")):
        status, said, told = tool("replay", came, "--link", link, "--out", tmp_path / "out.pcap")
        assert (status, said) == (2, "") and wanted in told and not (tmp_path / "out.pcap").exists()
        assert "\x1b" not in told
    status, _, told = tool("replay", came, *LINK, "--out", tmp_path / "out.pcap",
                           DNLAB=shutil.which("false") or "")
    assert status == 3 and "Traceback" not in told
