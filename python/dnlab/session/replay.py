"""Sends packets through a link: in a session of the program (`dnlab live`), of any length, or written as
`inject` lines."""
import csv
import io
import os
import socket
from collections import Counter, deque
from typing import BinaryIO, Callable, Iterable, Iterator, NamedTuple, Optional

import dpkt

from dnlab.errors import InputError
from dnlab.io.arrivals import RAW, Arrival
from dnlab.io.scenario_parts import MOST_BYTES
from dnlab.session.sessions import Session
from dnlab.session.transport import ExperimentEndedError

# After how many packets those that have left are asked for, so that few wait.
_TOGETHER = 500
_SECOND = 10**9
# libpcap's "no limit": readers cut frames to the length in the file's header.
_SNAPLEN = 65535
Command = tuple[int, str]


class Fate(NamedTuple):
    """The outcome of a packet: it left the link at a time (ns; `cause` is ''), or was dropped there."""
    arrival: Arrival
    moment: int
    cause: str


def commands_of(arrivals: Iterable[Arrival], link: Iterable[Command],
                begin: int) -> Iterator[tuple[int, str, Optional[Arrival]]]:
    """Yields the commands of the link and the packets by time, ns after `begin`; commands precede packets of
    the same time."""
    waiting = deque(sorted(link, key=lambda one: one[0]))
    for one in arrivals:
        moment = one.moment - begin
        while waiting and waiting[0][0] <= moment:
            yield (*waiting.popleft(), None)
        yield moment, one.command(), one
    for left in waiting:
        yield (*left, None)


def replay(session: Session, seed: int, budget: int, link: Iterable[Command], arrivals: Iterable[Arrival],
           begin: int, tail: int, tell: Callable[[Fate], None]) -> int:
    """Sends packets through a link, and calls `tell` with each as it leaves or is dropped (ns after `begin`).
    Returns how many are still in flight `tail` ns after the last."""
    flying = moment = 0
    with open(os.devnull, "wb") as nowhere:
        own = session.experiment("replay", seed, budget, 10**7, "mine", nowhere, nowhere)

        def advance(until: int) -> int:
            """Advances time. Returns how many packets have left or were dropped."""
            events = own.until(until)
            for event in events:
                tell(Fate(event.packet.payload, event.moment, event.cause))  # type: ignore[union-attr]
            return len(events)

        try:
            for number, (moment, words, one) in enumerate(commands_of(arrivals, link, begin)):
                if one is None:
                    own.command(words, moment)
                else:
                    own.send((one.source, one.source_port), (one.target, one.target_port), one.accepted(),
                             one, one.protocol, moment)
                    flying += 1
                if number % _TOGETHER == 0:
                    flying -= advance(moment)
            flying -= advance(moment)
            last = moment + tail
            while flying and moment < last:
                moment = min(last, moment + _SECOND)
                flying -= advance(moment)
        except ExperimentEndedError as over:
            raise InputError(
                f"the experiment's 10000000 steps were spent at {over.moment} ns, after about 3 million "
                "packets: cut the capture into parts (editcap -A .. -B ..)") from None
        return flying


def text_of(head: str, link: Iterable[Command], arrivals: Iterable[Arrival], begin: int, tail: int) -> str:
    """Returns a scenario whose packets are `inject` lines. Raises `InputError` if it would be longer than a
    scenario may be."""
    out = io.StringIO()
    out.write(head + "\n")
    moment = 0
    for moment, words, _ in commands_of(arrivals, link, begin):
        out.write(f"@{moment} {words}\n")
        if out.tell() > MOST_BYTES - 100:
            raise InputError(
                f"the scenario would have more than {MOST_BYTES} bytes: replay it through the link instead "
                "of --inject, which has no such limit")
    out.write(f"@{moment + tail} end\n")
    return out.getvalue()


class Capture:
    """Writes the packets that leave as a nanosecond capture, unchanged except for their time, ns after
    1970."""

    def __init__(self, file: BinaryIO, link: int, begin: int) -> None:
        self._file, self._begin = file, begin
        self._is_raw = link == RAW
        self._link = link
        file.write(bytes(dpkt.pcap.LEFileHdr(magic=dpkt.pcap.TCPDUMP_MAGIC_NANO, snaplen=_SNAPLEN,
                                             linktype=link)))

    def take(self, fate: Fate) -> None:
        """Writes a packet that left."""
        if fate.cause:
            return
        arrival = fate.arrival
        before = b"" if self._is_raw else arrival.before
        kept = before + (arrival.kept or made_up(arrival))
        second, rest = divmod(self._begin + fate.moment, _SECOND)
        self._file.write(bytes(dpkt.pcap.LEPktHdr(tv_sec=second, tv_usec=rest, caplen=len(kept),
                                                  len=len(before) + arrival.size)))
        self._file.write(kept)


def made_up(arrival: Arrival) -> bytes:
    """Returns made-up headers for a packet of which only addresses and size are known."""
    length = max(arrival.size, 28 if arrival.protocol == "udp" else 40)
    ends = {"sport": arrival.source_port, "dport": arrival.target_port}
    inner = (dpkt.udp.UDP(ulen=length - 20, **ends) if arrival.protocol == "udp"
             else dpkt.tcp.TCP(flags=dpkt.tcp.TH_ACK, **ends))
    outer = dpkt.ip.IP(src=socket.inet_aton(arrival.source), dst=socket.inet_aton(arrival.target),
                       len=length, ttl=64,
                       p=17 if arrival.protocol == "udp" else 6)
    outer.sum = dpkt.in_cksum(outer.pack_hdr())
    return bytes(outer.pack_hdr()) + bytes(inner.pack_hdr())


class Table:
    """Writes the outcome of each packet as CSV: times are ns after the first arrival, `left` is empty for
    drops."""

    def __init__(self, file: BinaryIO, begin: int) -> None:
        self._begin = begin
        self._text = io.TextIOWrapper(file, encoding="ascii", newline="", write_through=True)
        self._rows = csv.writer(self._text, lineterminator="\n")
        self._rows.writerow(("moment", "size", "protocol", "source", "source_port", "target", "target_port",
                             "left", "fate"))

    def take(self, fate: Fate) -> None:
        """Writes a packet."""
        one = fate.arrival
        self._rows.writerow((one.moment - self._begin, one.size, one.protocol, one.source, one.source_port,
                             one.target, one.target_port,
                             "" if fate.cause else fate.moment, fate.cause or "delivered"))

    def close(self) -> None:
        """Leaves the file open, because it belongs to the caller."""
        self._text.detach()


def tally_of(counts: "Counter[str]", held: int) -> str:
    """Returns a summary of all packets.

    >>> tally_of(Counter({"": 5, "full": 2}), 0)
    '7 packets: 5 left the link, 2 were dropped (full 2)'
    """
    dropped = {cause: count for cause, count in sorted(counts.items()) if cause}
    said = (f"{sum(counts.values()) + held} packets: {counts['']} left the link, "
            f"{sum(dropped.values())} were dropped")
    said += f" ({', '.join(f'{cause} {count}' for cause, count in dropped.items())})" if dropped else ""
    return said + (f", {held} were still in flight" if held else "")
