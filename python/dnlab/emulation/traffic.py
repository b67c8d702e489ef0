"""The traffic of a run by hosts and ports, as `client:* > server:5201`: packets, losses, delays and rates."""
import bisect
import json
import struct
from collections import defaultdict
from pathlib import Path
from typing import Any, Iterator, NamedTuple, Optional

import numpy as np

from dnlab.analysis.view import UnfitError, View, plan_of_run, view_of_run
from dnlab.analysis.names import headers_in
from dnlab.analysis.packets import DELIVERED, DROPPED, Packets
from dnlab.analysis.quantities import place
from dnlab.emulation.run import SUMMARY, VERSION
from dnlab.errors import InputError, ProgramError
from dnlab.io import arrivals
from dnlab.io.arrivals import Arrival, Omissions
from dnlab.programs import program

_SYN = 0x02
_HALF = 1 << 31

Ends = tuple[str, str, int, str, int]


class Covered:
    """The bytes of one direction of a TCP connection that have arrived, by sequence number.

    >>> seen = Covered(100)
    >>> [seen.add(100, 10), seen.add(120, 10), seen.add(105, 20), seen.add(100, 30)]
    [10, 10, 10, 0]
    """

    def __init__(self, first: int) -> None:
        self.first = first
        self._last = 0
        # Ends of the parts that have arrived, from the first byte on: begin, end, begin, end ..
        self._ends: list[int] = []

    def add(self, sequence: int, length: int) -> int:
        """Returns how many bytes are new of a segment; its sequence number wraps at 2^32."""
        begin = self._last + (sequence - self.first - self._last + _HALF) % (1 << 32) - _HALF
        end = begin + length
        self._last = max(self._last, end)
        low, high = bisect.bisect_left(self._ends, begin), bisect.bisect_right(self._ends, end)
        held = self._ends[low:high]
        parts = ([begin] if low % 2 else []) + held + ([end] if high % 2 else [])
        old = sum(parts[place + 1] - parts[place] for place in range(0, len(parts), 2))
        self._ends[low:high] = ([] if low % 2 else [begin]) + ([] if high % 2 else [end])
        return length - old


class Delivered(NamedTuple):
    """Bytes that arrived in one direction between two ports (new ones of TCP, all of UDP), and when (ns)."""
    bytes: int
    last_ns: int


def ends_of(packet: Arrival) -> Ends:
    """Returns protocol, source, source port, target and target port."""
    return packet.protocol, packet.source, packet.source_port, packet.target, packet.target_port


def received(path: Path, address: str) -> Iterator[Arrival]:
    """Returns the packets of a capture that were delivered to an address. Raises `InputError` if it is not a
    capture."""
    if not path.is_file():
        raise InputError(f"{path} is missing: name the folder of a run")
    return (packet for packet in arrivals.of_file(str(path), Omissions()) if packet.target == address)


def payload_of(packet: Arrival) -> tuple[int, int, int]:
    """Returns sequence number, payload bytes and flags of a packet of TCP; 0, payload bytes and 0 of UDP."""
    header = (packet.kept[0] & 15) * 4
    if packet.protocol == "udp":
        return 0, max(0, packet.size - header - 8), 0
    sequence, = struct.unpack_from(">I", packet.kept, header + 4)
    return sequence, packet.size - header - (packet.kept[header + 12] >> 4) * 4, packet.kept[header + 13]


def delivered(path: Path, address: str) -> dict[Ends, Delivered]:
    """Returns what arrived at a host, by ends: each byte of TCP once, also if it was sent again."""
    streams: dict[Ends, Covered] = {}
    found: dict[Ends, Delivered] = defaultdict(lambda: Delivered(0, 0))
    for packet in received(path, address):
        ends = ends_of(packet)
        sequence, length, flags = payload_of(packet)
        new = length
        if packet.protocol == "tcp":
            # The SYN has a sequence number of its own, before that of the first byte.
            first = (sequence + (flags & _SYN) // _SYN) % (1 << 32)
            if ends not in streams or flags & _SYN and streams[ends].first != first:
                streams[ends] = Covered(first)
            new = streams[ends].add(sequence, length) if length else 0
        before = found[ends]
        found[ends] = Delivered(before.bytes + new, packet.moment if new else before.last_ns)
    return dict(found)


PERCENTILES = (50, 95, 99)


class Pair(NamedTuple):
    """One direction between a client's ports and a port of a server; whoever sends first is the client."""
    protocol: str
    sender: str
    receiver: str

    def __str__(self) -> str:
        return f"{self.sender} > {self.receiver}"


class Row(NamedTuple):
    """A pair's packets: how many were sent and lost, percentiles of the delay (ns; None if nothing arrived),
    and rates in bit/s from the first packet sent to the last delivered (`throughput`: with all headers) or to
    the last new byte (`goodput`: payload, each byte of TCP once). `useful` is that payload in bytes."""
    pair: Pair
    packets: int
    lost: int
    delays: tuple[Optional[int], ...]
    throughput: Optional[int]
    goodput: Optional[int]
    useful: int


def summary_of(folder: Path) -> dict[str, Any]:
    """Returns a run's summary. Raises `InputError` if the folder has none that this version reads."""
    try:
        found: dict[str, Any] = json.loads((folder / SUMMARY).read_text())
        version = found["version"]
    except (OSError, ValueError, KeyError, TypeError):
        raise InputError(f"{folder}/{SUMMARY} is not there or is not a summary: name the folder of a run that"
                     " ended") from None
    if version != VERSION:
        raise InputError(
            f"{folder}/{SUMMARY} is of version {version}, and this program reads version {VERSION}: run "
            "the file again")
    return found


def rows(folder: Path) -> list[Row]:
    """Returns a row for each pair, in the order of its first packet."""
    hosts = {name: host["address"] for name, host in summary_of(folder)["hosts"].items()}
    names = {address: name for name, address in hosts.items()}
    view, pairs = _joined(folder, names)
    arrived: dict[Pair, list[Delivered]] = defaultdict(list)
    for name, address in hosts.items():
        for ends, found in delivered(folder / "hosts" / name / "eth0.pcap", address).items():
            if ends in pairs:
                arrived[pairs[ends]].append(found)
    labels = {str(number): pair for number, pair in enumerate(dict.fromkeys(pairs.values()))}
    return [_row(labels[name], view.packets, part, arrived[labels[name]])
            for name, part in view.packets.senders() if name in labels]


def _joined(folder: Path, names: dict[str, str]) -> tuple[View, dict[Ends, Pair]]:
    """Joins the report with the transcript; packets are labelled by the number of their pair. Raises
    `InputError` if one of them is incomplete."""
    pairs: dict[Ends, Pair] = {}
    numbers: dict[Pair, str] = {}
    labels: dict[str, str] = {}
    try:
        for header in headers_in(plan_of_run(folder)):
            protocol, source, port, target, target_port = header
            ends = protocol, source, int(port), target, int(target_port)
            if ends not in pairs:
                _add(pairs, ends, names)
            labels[" ".join(header)] = numbers.setdefault(pairs[ends], str(len(numbers)))
        return view_of_run(folder, program(), labels), pairs
    except UnfitError as unfit:
        name, cause = unfit.args
        raise InputError(f"{folder}/{name}: {cause}: name the folder of a run that ended") from None
    except ProgramError as failed:
        raise InputError(failed.said) from None


def _add(pairs: dict[Ends, Pair], ends: Ends, names: dict[str, str]) -> None:
    """Adds both directions of a pair; the first packet is the client's."""
    protocol, source, _, target, port = ends
    client, server = names.get(source, source), names.get(target, target)
    here, there = (f"{client}:*", f"{server}:{port}") if port else (client, server)
    # What is neither TCP nor UDP has no ports, and counts as UDP for the link.
    protocol = protocol if port else "other"
    pairs[ends] = Pair(protocol, here, there)
    pairs.setdefault((ends[0], target, port, source, ends[2]), Pair(protocol, there, here))


def _row(pair: Pair, packets: Packets, part: Any, arrived: list[Delivered]) -> Row:
    came = part[packets.outcome[part] == DELIVERED]
    delays = np.sort(packets.delay[came])
    first = int(packets.made[part].min())
    last = int(packets.ended[came].max()) if len(came) else first
    useful, new = sum(it.bytes for it in arrived), max((it.last_ns for it in arrived), default=first)
    return Row(pair, len(part), int((packets.outcome[part] >= DROPPED).sum()),
               tuple(int(delays[place(len(delays), it)]) if len(delays) else None for it in PERCENTILES),
               _rate(int(packets.size[came].sum()), last - first), _rate(useful, new - first), useful)


def _rate(size: int, time: int) -> Optional[int]:
    """Returns bits per second, rounded down; None if no time passed."""
    return size * 8 * 10**9 // time if time > 0 else None
