"""Arriving packets for a link: from a capture (pcap, pcapng; Debian: python3-dpkt) or a table of arrivals
(CSV).

A link accepts TCP and UDP over IPv4, 40 to 1500 bytes. Other packets are left out and counted; shorter ones
count as 40 bytes; longer ones are refused, cut or split, as requested.
"""
import csv
import heapq
import io
import socket
import struct
from collections import Counter
from decimal import Decimal
from typing import BinaryIO, Iterable, Iterator, NamedTuple, Optional, Sequence, TextIO

import dpkt

from dnlab.errors import InputError, reading

LEAST, MOST = 40, 1500
ETHERNET, RAW = 1, 101
# Frames of a capture may be a few places out of order.
_LATEST = 2**63
_DISORDER = 4096
# Where IP starts on other link types: (offset of the protocol number, its value for IPv4, offset of IP).
_LINKS = {113: (14, 0x0800, 16), 276: (0, 0x0800, 20)}
_COLUMNS = ("moment", "seconds", "size", "protocol", "source", "source_port", "target", "target_port")
_NUMBERS = {6: "tcp", 17: "udp"}
# How a capture begins: pcapng, and pcap in both orders of bytes.
_NEW, _BIG, _LITTLE = b"\n\r\r\n", (b"\xa1\xb2\xc3\xd4",
                                    b"\xa1\xb2\x3c\x4d"), (b"\xd4\xc3\xb2\xa1", b"\x4d\x3c\xb2\xa1")


class Arrival(NamedTuple):
    """A packet: its time in ns (since 1970 in a capture), source and target, its size in bytes with the IP
    header, and its captured bytes: from IP on, and the link header before it (both empty in a table)."""
    moment: int
    protocol: str
    source: str
    source_port: int
    target: str
    target_port: int
    size: int
    kept: bytes = b""
    before: bytes = b""

    def command(self) -> str:
        """Returns it in scenario syntax, without its time.

        >>> Arrival(5, "udp", "10.0.0.1", 1000, "10.0.1.1", 2000, 1500).command()
        'inject udp 10.0.0.1 1000 10.0.1.1 2000 1500'
        """
        return (f"inject {self.protocol} {self.source} {self.source_port} {self.target} {self.target_port}"
                f" {self.accepted()}")

    def accepted(self) -> int:
        """Returns its size on the link."""
        return max(self.size, LEAST)


class Omissions(Counter[str]):
    """Counts packets that were changed or left out, by kind."""

    def told(self) -> str:
        """Returns the counts as text, '' if there are none."""
        return ", ".join(f"{count} {what}" for what, count in sorted(self.items()))


def of_file(path: str, left: Omissions) -> Iterator[Arrival]:
    """Yields the packets of a capture or a table, in order of time. Raises `InputError` with the packet or
    line."""
    try:
        with reading(path), open(path, "rb") as file:
            magic = file.peek(4)[:4]
            if magic == _NEW or magic in _BIG + _LITTLE:
                yield from _in_order(_captured(file, magic == _NEW, path, left), path)
            else:
                yield from _in_order(_tabled(io.TextIOWrapper(file, encoding="utf-8", newline=""), path),
                                     path)
    except UnicodeDecodeError:
        raise InputError(f"{path}: it is neither a capture (pcap or pcapng) nor CSV") from None


def link_of(path: str) -> int:
    """Returns the link type of a capture, as libpcap's number; `RAW` for a table."""
    with open(path, "rb") as file:
        begin = file.peek(24)
        if begin[:4] == _NEW:
            return int(dpkt.pcapng.Reader(file).datalink())
    if begin[:4] in _BIG + _LITTLE:
        return int.from_bytes(begin[20:24], "big" if begin[:4] in _BIG else "little")
    return RAW


def _in_order(arrivals: Iterator[Arrival], path: str) -> Iterator[Arrival]:
    """Yields packets in order of time, if they are only a few places out of order."""
    waiting: list[tuple[int, int, Arrival]] = []
    last = 0
    for number, one in enumerate(arrivals, 1):
        if one.moment < last:
            raise InputError(
                f"{path}: packet {number} came {last - one.moment} ns before the packet {_DISORDER} places "
                "earlier: sort it (a capture with reordercap)")
        heapq.heappush(waiting, (one.moment, number, one))
        if len(waiting) > _DISORDER:
            last, _, first = heapq.heappop(waiting)
            yield first
    while waiting:
        yield heapq.heappop(waiting)[2]


class _Whole:
    """A file for dpkt to read. A packet that is cut off raises an error, where dpkt would accept the rest as
    a packet."""

    def __init__(self, file: BinaryIO, header: int) -> None:
        self._file, self._header = file, header

    def read(self, size: int) -> bytes:
        """Returns this many bytes, or none at the end of the file."""
        data = self._file.read(size)
        if len(data) < size and (data or size != self._header):
            raise ValueError(f"{size} bytes should follow, but only {len(data)} do")
        return data


def _captured(file: BinaryIO, is_new: bool, path: str, left: Omissions) -> Iterator[Arrival]:
    """Yields the packets of a capture, in its order."""
    number = 0
    try:
        whole = _Whole(file, 8 if is_new else 16)
        reader = dpkt.pcapng.Reader(whole) if is_new else dpkt.pcap.Reader(whole)
        # Exact in whole nanoseconds, unlike a float.
        reader._divisor = Decimal(int(reader._divisor))
        link = int(reader.datalink())
        for number, (moment, frame) in enumerate(reader, 1):
            found = _packet(int(Decimal(moment) * 10**9), link, frame, left)
            if found is not None:
                yield found
    except (dpkt.UnpackError, struct.error, ValueError) as fault:
        raise InputError(f"{path}: after packet {number} it is damaged or cut off: {fault}") from None


def _start(link: int, frame: bytes) -> Optional[int]:
    """Returns where IPv4 starts in a frame, or None."""
    if link == ETHERNET:
        place = 12
        while frame[place:place + 2] in (b"\x81\x00", b"\x88\xa8"):
            place += 4
        return place + 2 if frame[place:place + 2] == b"\x08\x00" else None
    if link in _LINKS:
        place, number, begin = _LINKS[link]
        return begin if frame[place:place + 2] == number.to_bytes(2, "big") else None
    if link in (0, 108):
        return 4
    if link in (12, 14, RAW, 228):
        return 0
    raise ValueError(
        f"its link (number {link} of libpcap) is not supported: Ethernet, Linux cooked capture, loopback "
        "and raw IP are")


def _packet(moment: int, link: int, frame: bytes, left: Omissions) -> Optional[Arrival]:
    begin = _start(link, frame)
    if begin is None or len(frame) < begin + 20 or frame[begin] >> 4 != 4:
        left["without IPv4, left out"] += 1
        return None
    kept = frame[begin:]
    packet = dpkt.ip.IP(kept)
    protocol = _NUMBERS.get(packet.p)
    if protocol is None or not isinstance(packet.data, (dpkt.tcp.TCP, dpkt.udp.UDP)):
        left["neither tcp nor udp, or later fragments, left out"] += 1
        return None
    size = packet.len or len(kept)
    if size < LEAST:
        left[f"below {LEAST} bytes, sent as {LEAST}"] += 1
    return Arrival(moment, protocol, socket.inet_ntoa(packet.src), packet.data.sport,
                   socket.inet_ntoa(packet.dst), packet.data.dport, size, kept[:size], frame[:begin])


def _tabled(text: TextIO, path: str) -> Iterator[Arrival]:
    """Yields the packets of a table: `moment` (ns) or `seconds`, `size`, and optionally addresses and
    ports."""
    rows = csv.DictReader(text)
    names = [name.strip() for name in rows.fieldnames or ()]
    rows.fieldnames = names
    unknown = [name for name in names if name not in _COLUMNS]
    if unknown or "size" not in names or ("moment" in names) == ("seconds" in names):
        raise InputError(
            f"{path}: line 1: the first line must name the columns: moment (ns) or seconds, size, and "
            "optionally protocol, source, source_port, target, "
            f"target_port{'; not ' + unknown[0] if unknown else ''}")
    try:
        row: "dict[str, str]" = {}
        for row in rows:
            yield _row(row)
    except csv.Error as fault:
        raise InputError(f"{path}: line {rows.line_num}: it is not CSV: {fault}") from None
    except (ValueError, ArithmeticError, OSError, TypeError, AttributeError):
        raise InputError(
            f"{path}: line {rows.line_num}: {','.join(str(value) for value in row.values())[:80]!r} is not "
            "an arrival: expected a time, a size in bytes, numeric addresses, ports up to 65535") from None


def _row(row: "dict[str, str]") -> Arrival:
    word = {name: value.strip() for name, value in row.items()}
    moment = Decimal(word["moment"]) if "moment" in word else Decimal(word["seconds"]) * 10**9
    ports = [int(word.get(name, default))
             for name, default in (("source_port", "1000"), ("target_port", "2000"))]
    ends = [word.get(name, default) for name, default in (("source", "10.0.0.1"), ("target", "10.0.1.1"))]
    # Compared before the conversion to an integer, which may have any number of digits.
    if not 0 <= moment <= _LATEST or moment != int(moment) or not all(0 <= port <= 65535 for port in ports):
        raise ValueError
    protocol = word.get("protocol", "udp")
    if protocol not in ("tcp", "udp") or [socket.inet_ntoa(socket.inet_aton(end)) for end in ends] != ends:
        raise ValueError
    size = int(word["size"])
    if size < 1:
        raise ValueError
    return Arrival(int(moment), protocol, ends[0], ports[0], ends[1], ports[1], size)


def merged(files: Sequence[Iterable[Arrival]], align: bool) -> Iterator[Arrival]:
    """Yields the packets of several files in order of time. With `align` each file starts at 0, else they
    share a clock."""
    def aligned(arrivals: Iterable[Arrival]) -> Iterator[Arrival]:
        begin: Optional[int] = None
        for one in arrivals:
            begin = one.moment if begin is None else begin
            yield one._replace(moment=one.moment - begin)

    return iter(heapq.merge(*(aligned(one) if align else one for one in files), key=lambda one: one.moment))


def fitting(arrivals: Iterable[Arrival], large: str, left: Omissions) -> Iterator[Arrival]:
    """Yields the packets; those above 1500 bytes are refused, cut or split (`large`)."""
    for number, one in enumerate(arrivals, 1):
        if one.size <= MOST:
            yield one
        elif large == "refuse":
            raise InputError(
                f"packet {number} has {one.size} bytes, but a link accepts {MOST}: --large cut shortens it, "
                "--large split makes several packets, as a network card does")
        elif large == "cut":
            left[f"cut to {MOST} bytes"] += 1
            yield one._replace(size=MOST, kept=_part(one.kept, MOST, 0, 0, True))
        else:
            left["split"] += 1
            yield from _split(one)


def _split(one: Arrival) -> Iterator[Arrival]:
    """Yields packets of at most 1500 bytes, each with the headers, which together have the packet's
    payload."""
    headers = 40 if one.protocol == "tcp" else 28
    if one.kept:
        begin = (one.kept[0] & 15) * 4
        headers = begin + ((one.kept[begin + 12] >> 4) * 4 if one.protocol == "tcp"
                           and len(one.kept) > begin + 12 else 8 if
                           one.protocol == "udp" else 20)
    room, left = MOST - headers, one.size - headers
    for number, place in enumerate(range(0, left, room)):
        size = headers + min(room, left - place)
        kept = (one.kept[:headers] + one.kept[headers + place:headers + place + size - headers]
                if one.kept else b"")
        yield one._replace(size=size, kept=_part(kept, size, number, place, place + room >= left))


def _part(kept: bytes, size: int, number: int, place: int, is_last: bool) -> bytes:
    """Returns the captured bytes of a part of a packet: its length, identification and first byte are its
    own, and so is the IP checksum. The inner checksum is 0, because not all bytes may have been captured."""
    if len(kept) < 20:
        return kept
    begin = (kept[0] & 15) * 4
    made = bytearray(kept[:size])
    made[2:4] = size.to_bytes(2, "big")
    made[4:6] = ((int.from_bytes(kept[4:6], "big") + number) % 65536).to_bytes(2, "big")
    made[10:12] = b"\0\0"
    made[10:12] = dpkt.in_cksum(bytes(made[:begin])).to_bytes(2, "big")
    if kept[9] == 6 and len(made) >= begin + 20:
        first = (int.from_bytes(kept[begin + 4:begin + 8], "big") + place) % 2**32
        made[begin + 4:begin + 8] = first.to_bytes(4, "big")
        made[begin + 13] &= 0xff if is_last else ~0x09 & 0xff
        made[begin + 16:begin + 18] = b"\0\0"
    elif kept[9] == 17 and len(made) >= begin + 8:
        made[begin + 4:begin + 8] = (size - begin).to_bytes(2, "big") + b"\0\0"
    return bytes(made)
